"""Tests of the rules of psu-socket: what a raw client sees is delayed, held back, cut, dropped, changed or trickled."""
import socket
import time
import unittest
from unittest import mock

from fake_server import FakeServer, run_main
from psu.raw_socket import RawSocket, main
from psu.relay_rules import RuleError

LONG = 10.0


class Faults(unittest.TestCase):
    def setUp(self):
        self.server = FakeServer().__enter__()
        self.addCleanup(self.server.__exit__)
        patched = mock.patch("psu.raw_socket.say")
        self.say = patched.start()
        self.addCleanup(patched.stop)

    def client(self, *rules):
        raw = RawSocket(self.server.port, rules=rules).__enter__()
        self.addCleanup(raw.__exit__)
        connection = socket.create_connection(("127.0.0.1", raw.port), timeout=LONG)
        self.addCleanup(connection.close)
        return connection

    def received(self, connection, data, size=None):
        """Sends bytes; returns what comes, so many bytes or up to the end."""
        connection.sendall(data)
        content = b""
        while size is None or len(content) < size:
            piece = connection.recv(100)
            if not piece:
                break
            content += piece
        return content

    def test_without_a_rule_for_it(self):
        connection = self.client('hold response to "B?"')
        self.assertEqual(self.received(connection, b"A?\nB?\nC?\n", 6), b"A?\nC?\n")

    def test_delay(self):
        connection = self.client("delay 0.2 response number 2")
        self.assertEqual(self.received(connection, b"A?\n", 3), b"A?\n")
        began = time.monotonic()
        self.assertEqual(self.received(connection, b"B?\n", 3), b"B?\n")
        self.assertGreaterEqual(time.monotonic() - began, 0.2)

    def test_cut_and_drop(self):
        for rule, expected in (
            ('cut 3 response to "VOLT"', b"A?\nVOL"),
            ('cut response to "VOLT"', b"A?\nVOL"),
            ('cut 100 response to "VOLT"', b"A?\nVOLT?"),
            ('drop-before response to "VOLT"', b"A?\n"),
            ('drop-after response to "VOLT"', b"A?\nVOLT?\n"),
            ("drop-before command with VOLT", b"A?\n"),
        ):
            with self.subTest(rule):
                connection = self.client(rule)
                self.assertEqual(self.received(connection, b"A?\n", 3), b"A?\n")
                self.assertEqual(b"A?\n" + self.received(connection, b"VOLT?\n"), expected)
                self.assertIn(f"rule 1 ({rule})", self.say.call_args[0][0])

    def test_changes(self):
        connection = self.client('replace "EXAMPLE" by "ACME" response', "noise 0 response", "corrupt response to NEVER")
        self.assertEqual(self.received(connection, b"EXAMPLE?\n", 6), b"ACME?\n")
        self.assertEqual(self.received(self.client("replace 5 by 6 command"), b"VOLT 5?\n", 8), b"VOLT 6?\n")
        corrupted = self.received(self.client("corrupt 1 response"), b"VOLT?\n", 6)
        self.assertEqual((len(corrupted), corrupted != b"VOLT?\n"), (6, True))

    def test_a_response_trickles(self):
        connection = self.client("trickle 1 0.02 response")
        began = time.monotonic()
        connection.sendall(b"VOLT?\n")
        self.assertEqual(connection.recv(100), b"V")
        self.assertEqual(self.received(connection, b"", 5), b"OLT?\n")
        self.assertGreater(time.monotonic() - began, 0.09)

    def test_a_response_of_several_frames(self):
        connection = self.client('hold response to "BIG?"')
        self.assertEqual(self.received(connection, b"BIG?\nA?\n", 3), b"A?\n")

    def test_a_function_decides(self):
        connection = self.client(lambda seen: "hold" if seen.query == b"B?\n" else None)
        self.assertEqual(self.received(connection, b"A?\nB?\nC?\n", 6), b"A?\nC?\n")

    def test_what_a_raw_socket_does_not_have(self):
        for rule in ("refuse", "repeat 1", "error 1 command", "fatal-error response", "stop-reading response",
                     "cut 3 command", "trickle 1 1 command"):
            with self.subTest(rule), self.assertRaisesRegex(RuleError, "a raw socket has no "):
                RawSocket(1, rules=[rule])


class Program(unittest.TestCase):
    def test_the_option(self):
        status, text = run_main(main, ["--listen", "0", "--rule", "refuse"])
        self.assertEqual((status, "a raw socket has no refuse" in text), (2, True))


if __name__ == "__main__":
    unittest.main()
