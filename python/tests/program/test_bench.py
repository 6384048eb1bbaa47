"""Tests of psu-relay and psu-socket before the program `psu`; without it they are skipped.

Without pytest too: PYTHONPATH=python:python/tests python3 -m unittest discover -s python/tests/program -p test_bench.py
"""
import io
import os
import shutil
import socket
import struct
import subprocess
import sys
import tempfile
import threading
import unittest
from unittest import mock

sys.path.insert(0, os.path.dirname(os.path.dirname(os.path.abspath(__file__))))  # where fake_server is

from fake_server import wait_until  # noqa: E402
from psu.client import Instrument  # noqa: E402
from psu.errors import ConnectionLost, FatalError, HislipError, Timeout  # noqa: E402
from psu.raw_socket import RawSocket  # noqa: E402
from psu.relay import Relay  # noqa: E402
from psu.server import Server, find_program  # noqa: E402

LONG = 10.0
SESSIONS = 16
LARGEST_FILE = 32_768
LARGEST_MESSAGE = 65_536

try:
    find_program()
    NO_PROGRAM = ""
except FileNotFoundError as fault:
    NO_PROGRAM = str(fault)


@unittest.skipIf(NO_PROGRAM, NO_PROGRAM)
class ProgramCase(unittest.TestCase):
    def enter(self, context):
        result = context.__enter__()
        self.addCleanup(context.__exit__, None, None, None)
        return result

    def setUp(self):
        self.server = self.enter(Server())
        self.clients = []

    def relay(self, *rules):
        self.log = io.StringIO()
        return self.enter(Relay(self.server.port, rules, self.log))

    def client(self, through=None, timeout=LONG):
        client = Instrument(port=(through or self.server).port, timeout=timeout)
        self.addCleanup(client.close)
        self.clients.append(client)
        return client

    def has_opened(self, clients, count):
        try:
            while len(clients) < count:
                clients.append(self.client())
        except (FatalError, OSError):
            return False
        return True

    def raw(self):
        if not hasattr(self, "raw_sockets"):
            self.raw_sockets = self.enter(RawSocket(self.server.port))
        connection = socket.create_connection(("127.0.0.1", self.raw_sockets.port), timeout=LONG)
        self.addCleanup(connection.close)
        return connection


def exchange(connection, data):
    """Sends bytes and the end of the input; returns all that comes."""
    connection.sendall(data)
    connection.shutdown(socket.SHUT_WR)
    received, piece = b"", b"x"
    while piece:
        piece = connection.recv(65536)
        received += piece
    return received


def receive(connection, size):
    """Returns so many bytes, or fewer where no more come."""
    received = b""
    while len(received) < size:
        piece = connection.recv(size - len(received))
        if not piece:
            break
        received += piece
    return received


# Messages without a query, and those whose string or block is wrong and takes the query.
WITHOUT_RESPONSE = [
    b"",
    b"VOLT 5.25;:CURR 0.6;:OUTP ON",
    b'MMEM:DATA "b",#0up to; the "line\'s" end #15',
    b'MMEM:DEL "not closed;*IDN?',
    b"VOLT #H10;*IDN?",
    b"*PUD #1",
    b'MMEM:DATA "big",#532768' + bytes(range(256)) * 128,
]
# Messages of every form that the grammar has, with what is wrong among them.
MESSAGES = [
    b"*IDN?",
    b"VOLT 5.25;:CURR 0.6;:OUTP ON",
    b"MEAS:VOLT?;:MEAS:CURR?",
    b"volt?;CURR?;;:SYST:ERR?;:SYST:ERR?",
    b"   ",
    b"",
    b"VOLT 99;FOO;VOLT 3;VOLT?\r",
    b"SYST:ERR?;:SYST:ERR?;:SYST:ERR?;*ESR?",
    b'MMEM:DATA "a",#15a\nb\nc;DATA? "a"',
    b"MMEM:DATA 'it''s #15',#13\n;\";:MMEM:CAT?",
    b'MMEM:DATA "b",#0up to; the "line\'s" end #15',
    b'MMEM:DATA? "b";:SYST:ERR?',
    b'MMEM:DATA "c",#10;DATA? "c"',
    b'MMEM:DEL "not closed;*IDN?',
    b"VOLT #H10;*IDN?",
    b"*PUD #1",
    b"SYST:ERR?;:SYST:ERR?;:SYST:ERR?;:SYST:ERR?;*ESR?",
    b"DIAG:PUD:PROT OFF;*PUD #15hello;*PUD?",
    b'*DMC "M",#219*IDN?;*ESR?;:VOLT?\n;*EMC 1;M;*GMC? "M";*LMC?',
    b"\xff\xfe;*IDN?",
    b"SYST:ERR?;:SYST:ERR?;:SYST:ERR:COUN?",
    b"*STB?;*OPC?",
    b"MMEM:DATA \"big\",#532768" + bytes(range(256)) * 128,
    b'MMEM:DATA? "big";:MMEM:DATA? "big";DATA? "big";DATA? "b"',  # a response of several frames
    b"*CLS;*SRE 255;*ESE 255;FOO;*STB?",
    b"*SAV 1;*RCL 1;*OPC?;:SYST:ERR?",
]


class RawSocketTest(ProgramCase):
    def test_what_a_client_gets_is_byte_for_byte_what_hislip_gives(self):
        with Server() as other, other.connect(LONG) as client:
            expected = [self.response_of(client, message + b"\n") for message in MESSAGES]
        self.assertGreater(len(b"".join(expected)), 3 * LARGEST_FILE)
        connection = self.raw()
        for message, response in zip(MESSAGES, expected):
            connection.sendall(message + b"\n")
            self.assertEqual(receive(connection, len(response)), response, message)
        self.assertEqual(exchange(connection, b""), b"")

    def response_of(self, client, message):
        """Returns the response to a message over HiSLIP; nothing for one without a response."""
        client.write_bytes(message)
        return b"" if message.rstrip() in WITHOUT_RESPONSE else client.read_bytes()

    def test_the_sixteen_sessions(self):
        clients = [self.raw() for _ in range(SESSIONS)]
        for client in clients:
            client.sendall(b"*IDN?\n")
            self.assertEqual(client.recv(100), b"EXAMPLE,PSU4,0,1.0\n")

    def test_a_message_that_is_too_long(self):
        most = b"VOLT 5" + b" " * (LARGEST_MESSAGE - 7) + b"\n"
        self.assertEqual(exchange(self.raw(), most + b"VOLT?;:SYST:ERR?\n"), b'5.000;0,"No error"\n')
        longer = b"VOLT 6" + b" " * (LARGEST_MESSAGE - 6) + b"\n"
        self.assertEqual(exchange(self.raw(), longer + b"VOLT?;:SYST:ERR?\n"), b'5.000;-223,"Too much data"\n')
        block = b'MMEM:DATA "a",#71000000' + b"\n" * 1_000_000 + b"\n"
        received = exchange(self.raw(), block + b"SYST:ERR?;:SYST:ERR?\n")
        self.assertEqual(received, b'-223,"Too much data";0,"No error"\n')

    def test_the_end_of_input_waits_for_what_another_session_locks(self):
        holder, connection = self.client(), self.raw()
        holder.lock(LONG)
        connection.sendall(b"VOLT 7;VOLT?\n")
        connection.shutdown(socket.SHUT_WR)
        connection.settimeout(0.3)
        with self.assertRaises(socket.timeout):
            connection.recv(100)
        holder.unlock()
        connection.settimeout(LONG)
        self.assertEqual(connection.recv(100), b"7.000\n")
        self.assertEqual(connection.recv(100), b"")

    def test_a_reset_discards_what_was_not_executed(self):
        holder, connection = self.client(), self.raw()
        holder.lock(LONG)
        connection.sendall(b"VOLT 7\n")
        connection.setsockopt(socket.SOL_SOCKET, socket.SO_LINGER, struct.pack("ii", 1, 0))
        with mock.patch("psu.raw_socket.say"):
            connection.close()
            clients = []
            self.assertTrue(wait_until(lambda: self.has_opened(clients, SESSIONS - 1)), "its session has not ended")
        holder.unlock()
        self.assertEqual(clients[0].query("VOLT?"), "0.000")

    def test_status_is_read_by_queries(self):
        connection = self.raw()
        connection.sendall(b"*CLS;*ESE 32;*SRE 32;FOO\n*STB?;*ESR?;*STB?\n")
        self.assertEqual(connection.recv(100), b"100;32;4\n")

    @unittest.skipUnless(shutil.which("nc"), "no netcat")
    def test_netcat(self):
        self.raw().close()
        for options in (["-N"], ["-q", "1"]):
            ended = subprocess.run(["nc", *options, "127.0.0.1", str(self.raw_sockets.port)],
                                   input=b"*IDN?\n*SAV 1;*OPC?\n", stdout=subprocess.PIPE, timeout=30)
            self.assertEqual(ended.stdout, b"EXAMPLE,PSU4,0,1.0\n1\n")


class RelayTest(ProgramCase):
    def test_the_seventeenth_session_is_refused_by_the_server(self):
        relay = self.relay()
        for _ in range(SESSIONS):
            self.client(relay).query("*IDN?")
        with self.assertRaises(FatalError) as caught:
            self.client(relay)
        self.assertEqual(caught.exception.code, 4)

    def test_a_dropped_session_gives_back_its_lock(self):
        relay = self.relay("drop-before response to VOLT?")
        client, other = self.client(relay), self.client()
        client.lock(LONG)
        with self.assertRaises((ConnectionLost, OSError)):
            client.query("VOLT 5;VOLT?")
        other.lock(LONG)  # as soon as the server has seen the end of the session
        self.assertEqual(other.query("VOLT?"), "5.000")

    def test_a_command_is_not_executed_that_was_cut(self):
        relay = self.relay("cut 30 command with VOLT")
        client = self.client(relay)
        client.write("VOLT 12.5;:CURR 1")
        other = self.client()
        self.assertTrue(wait_until(lambda: "ended" in self.log.getvalue()))
        self.assertEqual(other.query("VOLT?;:SYST:ERR?"), '0.000;0,"No error"')

    def test_each_fault_leaves_the_instrument_right(self):
        for rule in ("hold response", "drop-before command number 2", "drop-after command number 2", "cut response",
                     "cut command", "stop-reading response", "stop-reading command", "error command number 2",
                     "fatal-error command number 2", "delay 0.1 command", "refuse", "refuse number 2"):
            with self.subTest(rule), Relay(self.server.port, [rule]) as relay:
                for _ in range(3):
                    self.try_a_session(relay)
        # All sessions have ended, so that sixteen new ones are served; no error came of it.
        clients = []
        self.assertTrue(wait_until(lambda: self.has_opened(clients, SESSIONS)))
        self.assertEqual(clients[0].query("SYST:ERR?"), '0,"No error"')

    def test_a_connection_that_is_lost_during_a_save(self):
        # The third use of docs/BENCH.md.
        relay = self.relay('drop-before command with "*SAV" number 3', 'drop-before response to "*SAV" times 1',
                           "refuse session 3")
        first = self.client(relay)
        with self.assertRaises((ConnectionLost, OSError)):
            first.query("VOLT 1;*SAV 1;*OPC?")
        second = self.client(relay)
        self.assertEqual(second.query("*RCL 1;VOLT?"), "1.000")
        self.assertEqual(second.query("VOLT 2;*SAV 2;*OPC?"), "1")
        with self.assertRaises((ConnectionLost, OSError)):
            second.query("VOLT 3;*SAV 3;*OPC?")
        with self.assertRaises(FatalError):
            self.client(relay)
        last = self.client(relay)
        self.assertEqual(last.query("*RCL 3;VOLT?"), "0.000")

    def test_a_service_request_that_is_repeated_late(self):
        client = self.client(self.relay("repeat 0.2"))
        client.write("*CLS;*ESE 1;*SRE 32")
        client.write("*OPC")
        self.assertEqual(client.wait_for_service_request(LONG), 96)
        self.assertEqual(client.read_stb(), 96)
        self.assertEqual(client.wait_for_service_request(LONG), 96)
        self.assertEqual(client.read_stb(), 32)  # RQS is 0: a driver has to expect this

    def test_a_late_response_is_discarded_by_a_device_clear(self):
        client = self.client(self.relay('delay 0.5 response to "*IDN?" times 1'))
        client.timeout = 0.2
        with self.assertRaises(Timeout):
            client.query("*IDN?")
        client.timeout = LONG
        client.clear()
        self.assertEqual(client.query("VOLT?"), "0.000")

    def try_a_session(self, relay):
        try:
            client = self.client(relay, timeout=0.3)
            client.query("VOLT 5;VOLT?")
            client.query("CURR 1;CURR?")
            client.close()
        except (HislipError, OSError):
            pass  # what the client is to notice


class ReplayTest(ProgramCase):
    def talk(self, relay):
        """Two sessions with all kinds of messages, one of which waits for the lock of the other."""
        one, other = self.client(relay), self.client(relay)
        self.assertEqual(one.query("VOLT?;*CLS;*SRE 4;*OPC?"), "0.000;1")
        one.write("VOLT 99")
        one.wait_for_service_request(LONG)
        self.assertEqual(one.read_stb(), 68)
        one.lock(LONG, "bench")
        other.lock_info()
        one.unlock()
        one.lock(LONG)
        release = threading.Timer(0.2, one.unlock)
        release.start()
        other.lock(LONG)
        release.join()
        other.write_block('MMEM:DATA "a",', bytes(range(256)) * 100)
        other.unlock()
        self.assertEqual(one.query_block('MMEM:DATA? "a"'), bytes(range(256)) * 100)
        one.clear()
        one.timeout = 0.2
        with self.assertRaises(Timeout):
            one.query("FOO?")
        one.clear()
        self.assertEqual(one.query("SYST:ERR?;:SYST:ERR?"), '-222,"Data out of range";-113,"Undefined header"')

    def test_a_log_is_sent_again(self):
        log = io.StringIO()
        with Relay(self.server.port, (), log, is_json=True) as relay:
            self.talk(relay)
            for client in self.clients:
                client.close()
        with tempfile.NamedTemporaryFile("w") as file, Server() as fresh, fresh.connect() as beside:
            file.write(log.getvalue())
            file.flush()
            self.assert_replayed(fresh, file.name, 0, "0 differ")
            beside.query("MMEM:DEL \"a\";:VOLT 5;*CLS;*SRE 0;*OPC?")
            line = self.assert_replayed(fresh, file.name, 1, "1 differ")
            self.assertIn("0.000;1\\n in the log, 5.000;1\\n now", line)

    def assert_replayed(self, server, log, status, text):
        command = [sys.executable, "-m", "psu.replay", "--to", str(server.port), "--timeout", "10", log]
        environment = {**os.environ, "PYTHONPATH": os.pathsep.join(sys.path)}
        ended = subprocess.run(command, stdout=subprocess.PIPE, env=environment, universal_newlines=True, timeout=60)
        self.assertEqual(ended.returncode, status, ended.stdout)
        self.assertTrue(ended.stdout.endswith(f", of which {text}\n"), ended.stdout)
        return ended.stdout.splitlines()[0]


if __name__ == "__main__":
    unittest.main()
