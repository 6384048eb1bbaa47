"""Tests of psu-socket before a small server: lines to messages, responses to lines, and how sessions end."""
import socket
import subprocess
import sys
import unittest
from unittest import mock

from fake_server import FakeServer, run_main, wait_until
from psu.raw_socket import RawSocket, main

LONG = 10.0


class RawSocketCase(unittest.TestCase):
    def setUp(self):
        self.said = self.enter(mock.patch("psu.raw_socket.say"))
        self.server = self.enter(FakeServer(most_sessions=2))
        self.raw = self.enter(RawSocket(self.server.port))

    def enter(self, context):
        result = context.__enter__()
        self.addCleanup(context.__exit__, None, None, None)
        return result

    def connect(self):
        connection = socket.create_connection(("127.0.0.1", self.raw.port), timeout=LONG)
        self.addCleanup(connection.close)
        return connection

    def exchange(self, data):
        """Sends bytes and the end of the input, as netcat does; returns all that comes."""
        connection = self.connect()
        connection.sendall(data)
        connection.shutdown(socket.SHUT_WR)
        return read_all(connection)


def read_all(connection):
    data, piece = b"", b"x"
    while piece:
        piece = connection.recv(65536)
        data += piece
    return data


class MessagesTest(RawSocketCase):
    def test_a_line_is_a_message_and_a_response_is_a_line(self):
        self.assertEqual(self.exchange(b"A?\nVOLT 5\r\nB?\n"), b"A?\nB?\n")
        self.assertEqual(self.server.messages[:3], [b"A?\n", b"VOLT 5\r\n", b"B?\n"])

    def test_the_session_goes_on_between_messages(self):
        connection = self.connect()
        for number in range(20):
            connection.sendall(b"Q%d?\n" % number)
            self.assertEqual(connection.recv(100), b"Q%d?\n" % number)

    def test_bytes_that_come_one_by_one(self):
        connection = self.connect()
        connection.setsockopt(socket.IPPROTO_TCP, socket.TCP_NODELAY, 1)
        for byte in b'DATA "a",#13\n?\nA?\n':
            connection.sendall(bytes([byte]))
        self.assertEqual(connection.recv(100), b'DATA "a",#13\n?\nA?\n')  # the small server echoes it
        self.assertEqual(len(self.server.messages), 1)

    def test_blocks_are_taken_whole(self):
        block = bytes(range(256)) * 100
        message = b'MMEM:DATA "a?",#525600' + block + b"\n"
        self.assertEqual(self.exchange(message + b"A?\n"), message + b"A?\n")
        self.assertEqual(self.server.messages[:2], [message, b"A?\n"])

    def test_responses_of_several_frames_are_joined(self):
        self.assertEqual(self.exchange(b"BIG?\n"), b"part of a response, part of a response, BIG?\n")

    def test_a_long_message_is_passed_on(self):
        message = b"?" + b"x" * 1_000_000 + b"\n"
        self.assertEqual(self.exchange(message), message)
        self.assertEqual(self.server.messages[0], message)

    def test_service_requests_have_no_form(self):
        self.assertEqual(self.exchange(b"SRQ\nSRQ\nA?\n"), b"A?\n")


class EndTest(RawSocketCase):
    def test_a_last_message_without_a_line_feed_is_executed(self):
        self.assertEqual(self.exchange(b"A?\nB?"), b"A?\nB?")
        self.assertEqual(self.exchange(b""), b"")

    def test_the_end_of_a_client_is_the_end_of_its_session(self):
        for _ in range(5):  # more than the server has room for at once
            self.assertEqual(self.exchange(b"A?\n"), b"A?\n")
            self.assertTrue(wait_until(lambda: self.server.open_sessions == 0))

    def test_messages_of_a_client_that_has_gone_are_executed(self):
        connection = self.connect()
        connection.sendall(b"VOLT 5\n" * 1000)
        connection.close()
        self.assertTrue(wait_until(lambda: self.server.messages.count(b"VOLT 5\n") == 1000))
        self.assertTrue(wait_until(lambda: self.server.open_sessions == 0))

    def test_a_refused_session(self):
        for _ in range(2):
            connection = self.connect()
            connection.sendall(b"A?\n")
            connection.recv(100)
        self.assertEqual(self.exchange_or_reset(), b"")
        self.said.assert_called_once_with("a client was disconnected: the server serves its maximum number of clients")

    def test_without_a_server(self):
        self.raw.to = 1  # nothing listens there
        self.assertEqual(self.exchange_or_reset(), b"")
        self.said.assert_called_once_with("a client was disconnected: nothing listens on 127.0.0.1:1")

    def test_the_server_ends(self):
        connection = self.connect()
        connection.sendall(b"A?\n")
        connection.recv(100)
        self.server.__exit__()
        self.assertEqual(connection.recv(100), b"")

    def exchange_or_reset(self):
        try:
            return self.exchange(b"")
        except ConnectionError:
            return b""


class ProgramTest(unittest.TestCase):
    def test_another_address_needs_its_option(self):
        status, text = run_main(main, ["--listen", "[::]:5025"])
        self.assertEqual(status, 2)
        self.assertIn("add --allow-remote", text)

    def test_a_run(self):
        with FakeServer() as server:
            command = [sys.executable, "-m", "psu.raw_socket", "--listen", "127.0.0.1:0", "--to", str(server.port)]
            process = subprocess.Popen(command, stdout=subprocess.PIPE, universal_newlines=True)
            self.addCleanup(process.stdout.close)
            port = int(process.stdout.readline().rpartition(":")[2])
            with socket.create_connection(("127.0.0.1", port), timeout=LONG) as connection:
                connection.sendall(b"A?\n")
                self.assertEqual(connection.recv(100), b"A?\n")
            process.terminate()
            self.assertEqual(process.wait(30), 0)


if __name__ == "__main__":
    unittest.main()
