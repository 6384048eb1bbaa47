"""Tests of resource strings, of what a session and a server say of themselves, and of what an import costs."""
import subprocess
import sys
import unittest

from psu import Instrument
from psu.resource import Resource, parse_resource
from scripted import Script


class Strings(unittest.TestCase):
    def test_what_is_read(self):
        for text, expected in (
            ("TCPIP::127.0.0.1::hislip0::INSTR", ("127.0.0.1", 4880, "hislip0")),
            ("TCPIP::127.0.0.1::hislip0,4881::INSTR", ("127.0.0.1", 4881, "hislip0")),
            ("TCPIP0::supply.lab::hislip1,1::INSTR", ("supply.lab", 1, "hislip1")),
            ("tcpip::10.0.0.1::HISLIP0::instr", ("10.0.0.1", 4880, "HISLIP0")),
            ("TCPIP::[::1]::hislip0,65535", ("::1", 65535, "hislip0")),
        ):
            with self.subTest(text):
                self.assertEqual(parse_resource(text), expected)

    def test_what_is_refused(self):
        for text in ("", "127.0.0.1", "TCPIP::127.0.0.1::INSTR", "TCPIP::127.0.0.1::inst0::INSTR", "TCPIP::::hislip0::INSTR",
                     "TCPIP::127.0.0.1::5025::SOCKET", "TCPIP::127.0.0.1::hislip0,0::INSTR", "GPIB::1::INSTR",
                     "TCPIP::127.0.0.1::hislip0,65536::INSTR", "TCPIP::127.0.0.1::hislip0,x::INSTR"):
            with self.subTest(text), self.assertRaisesRegex(ValueError, "is no resource of HiSLIP"):
                parse_resource(text)

    def test_what_is_written_is_read(self):
        for where in (Resource("127.0.0.1"), Resource("::1", 4881), Resource("supply.lab", 4880, "hislip1")):
            self.assertEqual(parse_resource(str(where)), where)


class Sessions(unittest.TestCase):
    def test_a_session_says_where_it_is_and_whether_it_is_open(self):
        script = Script()
        self.addCleanup(script.close)
        where = f"TCPIP::127.0.0.1::hislip0,{script.client._where.port}::INSTR"
        self.assertEqual(script.client.resource, where)
        self.assertEqual(repr(script.client), f"<Instrument {where}, open>")
        script.client.close()
        self.assertEqual(repr(script.client), f"<Instrument {where}, this client closed the session: close() was called>")

    def test_a_session_is_opened_by_its_resource(self):
        with self.assertRaisesRegex(ConnectionRefusedError, "nothing listens on 127.0.0.1:1 "):
            Instrument.open("TCPIP::127.0.0.1::hislip0,1::INSTR")


class Imports(unittest.TestCase):
    def test_the_package_loads_no_asyncio(self):
        code = "import sys, psu, psu.server; sys.exit('asyncio' in sys.modules)"
        self.assertEqual(subprocess.run([sys.executable, "-c", code]).returncode, 0)


if __name__ == "__main__":
    unittest.main()
