"""Tests of psu-relay as a program: its command line, its exit statuses, and how it ends."""
import os
import socket
import subprocess
import sys
import tempfile
import unittest

from fake_server import FakeServer, run_main
from psu.client import Instrument
from psu.listening import parse_server
from psu.relay import Relay, main


class ProgramTest(unittest.TestCase):
    def assert_ends(self, words, status, text):
        """The program ends with this status, and with a line that has this text."""
        ended, written = run_main(main, words)
        self.assertEqual(ended, status)
        self.assertIn(text, written)

    def test_another_address_needs_its_option(self):
        self.assert_ends(["--listen", "0.0.0.0:4881"], 2, "add --allow-remote")

    def test_wrong_rules_and_addresses(self):
        with tempfile.NamedTemporaryFile("w") as file:
            file.write("hold response\nhold it\n")
            file.flush()
            self.assert_ends(["--rules", file.name], 2, "line 2: 'it' is not command")
        self.assert_ends(["--rule", "slow"], 2, "--rule 'slow': the first word is one of")
        self.assert_ends(["--listen", "localhost:4881"], 2, "is not ADDRESS:PORT")
        for server in ("0", "65536", "127.0.0.1:", "x"):
            self.assert_ends(["--to", server], 2, "is not a port, or HOST:PORT")

    def test_a_port_that_is_taken(self):
        with socket.create_server(("127.0.0.1", 0)) as taken:
            listen = f"127.0.0.1:{taken.getsockname()[1]}"
            self.assert_ends(["--listen", listen, "--quiet"], 1, "psu-relay: ")

    def test_where_a_server_is(self):
        for text, expected in (("4880", ("127.0.0.1", 4880)), ("supply.lab:4881", ("supply.lab", 4881)),
                               ("[::1]:1", ("::1", 1))):
            self.assertEqual(parse_server(text), expected)
        with FakeServer() as server, Relay(parse_server(f"localhost:{server.port}")) as relay:
            with Instrument(port=relay.port) as client:
                self.assertEqual(client.query("VOLT?"), "VOLT?")

    def test_a_run_with_a_log_file(self):
        with tempfile.TemporaryDirectory() as folder, FakeServer() as server:
            log = f"{folder}/traffic.log"
            command = [sys.executable, "-m", "psu.relay", "--listen", "127.0.0.1:0", "--to", str(server.port),
                       "--log", log, "--json", "--rule", "delay 0 response"]
            process = subprocess.Popen(command, stdout=subprocess.PIPE, universal_newlines=True)
            self.addCleanup(process.stdout.close)
            port = int(process.stdout.readline().rpartition(":")[2])
            with Instrument(port=port) as client:
                client.query("VOLT?")
            process.terminate()
            self.assertEqual(process.wait(30), 0)
            with open(log) as file:
                text = file.read()
            self.assertIn('"payload": "VOLT?\\\\n"', text)
            self.assertIn('"event": "ended"', text)

    def test_a_log_that_takes_nothing_does_not_hold_up_the_end(self):
        with tempfile.TemporaryDirectory() as folder, FakeServer() as server:
            log = f"{folder}/traffic.log"
            os.mkfifo(log)
            nobody_reads = os.open(log, os.O_RDWR)
            self.addCleanup(os.close, nobody_reads)
            command = [sys.executable, "-m", "psu.relay", "--listen", "127.0.0.1:0", "--to", str(server.port), "--log", log]
            process = subprocess.Popen(command, stdout=subprocess.PIPE, universal_newlines=True)
            self.addCleanup(process.stdout.close)
            with Instrument(port=int(process.stdout.readline().rpartition(":")[2])) as client:
                for number in range(1000):  # more than a FIFO takes
                    client.query(f"{number}?" + "x" * 100)
            process.terminate()
            self.assertEqual(process.wait(30), 0)


if __name__ == "__main__":
    unittest.main()
