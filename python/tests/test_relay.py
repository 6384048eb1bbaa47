"""Tests of psu-relay before a small server: what it passes on, what it shows, and each kind of fault."""
import io
import socket
import time
import unittest

from blocked_file import BlockedFile
from fake_server import FakeServer, wait_until
from psu.client import Instrument
from psu.errors import ConnectionLost, FatalError, ServerError, Timeout
from psu.frames import Frame, MessageType, SocketFrames
from psu.listening import Endpoint, LoopServer
from psu.relay import Relay
from psu.relay_connection import MOST_REPEATS

SHORT = 0.3  # seconds; a timeout that is to pass, or a delay that is to be noticed
LONG = 10.0


class RelayCase(unittest.TestCase):
    def setUp(self):
        self.server = self.enter(FakeServer())

    def enter(self, context):
        result = context.__enter__()
        self.addCleanup(context.__exit__, None, None, None)
        return result

    def relay(self, *rules, **options):
        self.log = io.StringIO()
        return self.enter(Relay(self.server.port, rules, self.log, **options))

    def client(self, relay):
        client = Instrument(port=relay.port, timeout=LONG)
        self.addCleanup(client.close)
        return client

    def assert_logged(self, *texts):
        """The log has lines with these texts, in this order."""
        def is_there():
            rest = self.log.getvalue()
            for text in texts:
                if text not in rest:
                    return False
                rest = rest[rest.index(text) + len(text):]
            return True

        self.assertTrue(wait_until(is_there), f"{texts} in\n{self.log.getvalue()}")

    def assert_no_response(self, client, query):
        client.timeout = SHORT
        with self.assertRaises(Timeout):
            client.query(query)
        client.timeout = LONG

    def assert_session_ends(self):
        """The server's side of the session is closed too."""
        self.assertTrue(wait_until(lambda: self.server.open_sessions == 0), "the server still has the session")


class PassingTest(RelayCase):
    def test_queries_responses_and_both_connections(self):
        client = self.client(self.relay())
        self.assertEqual(client.query("VOLT?"), "VOLT?")
        self.assertEqual(client.query("BIG?"), "part of a response, part of a response, BIG?")
        client.write("SRQ")
        self.assertEqual(client.wait_for_service_request(LONG), 0x60)
        client.clear()
        self.assertEqual(client.query("A?"), "A?")
        client.close()
        self.assert_session_ends()
        self.assert_logged("began", "--> Initialize", "<-- InitializeResponse", "..> AsyncInitialize",
                           "--> DataEnd", "VOLT?\\n", "<-- DataEnd", "ms  VOLT?\\n", "<-- Data ", "BIG?",
                           "<.. AsyncServiceRequest", "ESB+RQS", "..> AsyncDeviceClear", "<-- DeviceClearAcknowledge",
                           "ended: closed by the client")

    def test_every_message_is_logged_once(self):
        clients = [self.client(relay) for relay in [self.relay()] for _ in range(4)]
        for number in range(50):
            for place, client in enumerate(clients):
                client.query(f"Q{place}:{number}?")
        for client in clients:
            client.close()
        self.assert_logged(*["ended"] * 4)
        lines = self.log.getvalue().splitlines()
        for place in range(4):
            for number in range(50):
                found = [line for line in lines if f"Q{place}:{number}?" in line]
                self.assertEqual(["-->" in line for line in found], [True, False])
                self.assertEqual(len({line.split()[1] for line in found}), 1)

    def test_a_session_that_does_not_read_holds_up_no_other(self):
        relay = self.relay()
        stalled, other = self.client(relay), self.client(relay)
        stalled.timeout = SHORT
        with self.assertRaises((Timeout, OSError)):
            for _ in range(10_000):  # until no buffer has room
                stalled.write("?" + "x" * 60_000)
        self.assertEqual(other.query("VOLT?"), "VOLT?")

    def test_a_log_that_takes_nothing_holds_up_no_message(self):
        log = BlockedFile()
        self.addCleanup(log.go.set)
        client = self.client(self.enter(Relay(self.server.port, log=log)))
        for number in range(100):
            self.assertEqual(client.query(f"{number}?"), f"{number}?")
        log.go.set()

    def test_large_frames_are_passed_on(self):
        relay = self.relay()
        connection = socket.create_connection(("127.0.0.1", relay.port))
        self.addCleanup(connection.close)
        frames = SocketFrames(connection)
        connection.sendall(Frame(MessageType.INITIALIZE).pack())
        self.assertEqual(frames.receive(LONG).kind, MessageType.INITIALIZE_RESPONSE)
        for size in (65536, 65537, 300_000):
            payload = b"?" * size
            connection.sendall(Frame(MessageType.DATA_END, 0, 2, payload).pack())
            self.assertEqual(frames.receive(LONG).payload, payload)
        self.assert_logged("..(65536 bytes)", "..(65537 bytes)", "..(300000 bytes)")

    def test_what_is_no_hislip_is_passed_on(self):
        connection = socket.create_connection(("127.0.0.1", self.relay().port))
        self.addCleanup(connection.close)
        connection.sendall(b"GET / HTTP/1.1\r\n\r\n")
        self.assertEqual(read_all(connection), b"")  # this server closes it, before it has read everything or after
        self.assert_logged("no HiSLIP: from the client: GET / HTTP/1.1")

    def test_without_a_server(self):
        relay = self.relay()
        relay.to = 1  # nothing listens there
        with self.assertRaises(OSError):
            self.client(relay)
        self.assert_logged("no server: at 127.0.0.1:1")

    def test_the_server_closes(self):
        relay = self.relay()
        client = self.client(relay)
        self.server.__exit__()
        with self.assertRaises((ConnectionLost, OSError)):
            client.query("VOLT?")
        self.assert_logged("ended: ")


class Recorder(LoopServer):
    """Notes every byte that comes, and then sends the same bytes."""

    def __init__(self):
        super().__init__(Endpoint("127.0.0.1", 0))
        self.received = b""

    async def serve(self, reader, writer):
        self.received = await reader.read(-1)
        writer.write(self.received)
        await writer.drain()


class UnchangedTest(RelayCase):
    def setUp(self):
        self.server = self.enter(Recorder())

    def test_every_byte_is_passed_on_in_both_directions(self):
        initialize = Frame(MessageType.INITIALIZE, 3, 0x01005059, b"hislip0").pack()
        odd = Frame(200, 255, 0xFFFFFFFF, bytes(range(256))).pack() + Frame(31, 1).pack()
        for data in (
            b"",
            initialize + odd + Frame(MessageType.DATA, 1, 2, b"x" * 65536).pack(),
            initialize + Frame(MessageType.DATA_END, 0, 2, b"y" * 200_000).pack(),
            initialize + odd[:7],  # an end in the middle of a header
            initialize + odd[:100],  # in the middle of a payload
            Frame(MessageType.DATA_END, 0, 2, b"y" * 200_000).pack()[:150_000],  # in the middle of a long one
            initialize + b"no HiSLIP at all" + odd,
            b"HS",
            b"\x00" * 100_000,
        ):
            with socket.create_connection(("127.0.0.1", self.relay().port), timeout=LONG) as connection:
                connection.sendall(data)
                connection.shutdown(socket.SHUT_WR)
                self.assertEqual(read_all(connection), data)
            self.assertEqual(self.server.received, data)


class FaultTest(RelayCase):
    def test_delay(self):
        client = self.client(self.relay(f'delay {SHORT} response to "A?"'))
        client.query("B?")
        begun = time.monotonic()
        client.query("A?")
        self.assertGreaterEqual(time.monotonic() - begun, SHORT)
        self.assert_logged("B?\\n\n", "A?\\n  [delayed 0.3 s: rule 1]")

    def test_hold(self):
        client = self.client(self.relay('hold response to "BIG?" times 1'))
        self.assert_no_response(client, "BIG?")
        client.clear()
        self.assertEqual(client.query("B?"), "B?")
        self.assertEqual(client.query("BIG?"), "part of a response, part of a response, BIG?")
        self.assertEqual(self.log.getvalue().count("[held back: rule 1]"), 3)  # each frame of the response

    def test_hold_a_command(self):
        client = self.client(self.relay("hold command with VOLT"))
        client.write("VOLT 5")
        client.query("B?")
        self.assertEqual(self.server.messages, [b"B?\n"])

    def test_drop_before(self):
        client = self.client(self.relay("drop-before command with VOLT"))
        client.query("B?")
        with self.assertRaises((ConnectionLost, OSError)):
            client.query("VOLT?")
        self.assert_session_ends()
        self.assertEqual(self.server.messages, [b"B?\n"])
        self.assert_logged("[connection dropped before it: rule 1]", "ended: dropped by rule 1")

    def test_drop_after(self):
        client = self.client(self.relay("drop-after response number 2"))
        client.query("A?")
        self.assertEqual(client.query("BIG?"), "part of a response, part of a response, BIG?")
        with self.assertRaises((ConnectionLost, OSError)):
            client.query("C?")
        self.assert_session_ends()

    def test_cut(self):
        relay = self.relay("cut 20 response")
        connection = self.raw_session(relay)
        connection.sendall(Frame(MessageType.DATA_END, 0, 2, b"VOLT?").pack())
        self.assertEqual(read_all(connection), Frame(MessageType.DATA_END, 0, 2, b"VOLT?").pack()[:20])
        self.assert_session_ends()

    def test_cut_in_the_middle(self):
        relay = self.relay("cut response")
        connection = self.raw_session(relay)
        connection.sendall(Frame(MessageType.DATA_END, 0, 2, b"VOLT").pack() + Frame(7, 0, 4, b"A?A?").pack())
        self.assertEqual(read_all(connection), Frame(MessageType.DATA_END, 0, 4, b"A?A?").pack()[:10])

    def test_refuse(self):
        relay = self.relay("refuse session 2")
        self.client(relay).query("A?")
        with self.assertRaises(FatalError) as caught:
            self.client(relay)
        self.assertEqual(caught.exception.code, 4)
        self.client(relay).query("A?")
        self.assertEqual(self.server.open_sessions, 2)

    def test_stop_reading(self):
        relay = self.relay(f"stop-reading {SHORT} command with A")
        client = self.client(relay)
        begun = time.monotonic()
        self.assertEqual(client.query("A?"), "A?")
        self.assertEqual(client.query("B?"), "B?")
        self.assertGreaterEqual(time.monotonic() - begun, SHORT)

    def test_stop_reading_until_the_end(self):
        for rule in ("stop-reading command", "stop-reading response"):
            client = self.client(self.relay(rule))
            self.assertEqual(client.query("A?"), "A?")
            self.assert_no_response(client, "B?")
            client.close()
            self.assert_session_ends()

    def test_fatal_error(self):
        client = self.client(self.relay("fatal-error 3 command with VOLT"))
        client.query("A?")
        with self.assertRaises(FatalError) as caught:
            client.query("VOLT?")
        self.assertEqual(caught.exception.code, 3)
        self.assert_session_ends()

    def test_error(self):
        client = self.client(self.relay("error 4 command with VOLT"))
        with self.assertRaises(ServerError) as caught:
            client.query("VOLT?")
        self.assertEqual(caught.exception.code, 4)
        self.assertEqual(client.query("A?"), "A?")
        self.assertEqual(self.server.messages, [b"A?\n"])

    def test_an_error_instead_of_a_response_of_several_frames(self):
        client = self.client(self.relay('error 1 response to "BIG?"'))
        with self.assertRaises(ServerError):
            client.query("BIG?")
        self.assertEqual(client.query("A?"), "A?")

    def test_repeat_a_service_request(self):
        client = self.client(self.relay(f"repeat {SHORT}"))
        client.write("SRQ")
        self.assertEqual(client.wait_for_service_request(LONG), 0x60)
        begun = time.monotonic()
        self.assertEqual(client.wait_for_service_request(LONG), 0x60)
        self.assertGreaterEqual(time.monotonic() - begun, SHORT / 2)

    def test_each_service_request_is_repeated(self):
        client = self.client(self.relay("repeat 0.001"))
        for _ in range(MOST_REPEATS + 10):
            client.query("SRQ?")
            for _ in range(2):
                self.assertEqual(client.wait_for_service_request(LONG), 0x60)

    def test_rules_while_it_runs(self):
        relay = self.relay("hold response to NEVER", "error 1 command with A?")
        client = self.client(relay)
        with self.assertRaises(ServerError):
            client.query("A?")
        self.assertEqual(relay.unused_rules(), ["hold response to NEVER"])
        relay.set_rules([])
        self.assertEqual((client.query("A?"), relay.unused_rules()), ("A?", []))

    def test_by_session_count_and_seed(self):
        relay = self.relay("hold response session 2 number 2", "hold response session 1 probability 1 times 1")
        first, second = self.client(relay), self.client(relay)
        self.assertEqual(second.query("A?"), "A?")
        for client in (first, second):
            self.assert_no_response(client, "B?")
        self.assertEqual(first.query("C?"), "C?")
        self.assertEqual(second.query("C?"), "C?")

    def test_unanswered_queries_are_named(self):
        client = self.client(self.relay('hold command with "A?"'))
        self.assert_no_response(client, "A?")
        client.clear()
        client.query("B?")
        client.close()
        self.assert_logged("..> AsyncDeviceClear", "unanswered: ffffff00 A?\\n after 0.", "B?", "ended")
        self.assertEqual(self.log.getvalue().count("unanswered"), 1)

    def test_a_response_that_comes_in_a_device_clear_is_one(self):
        client = self.client(self.relay('delay 0.3 response to "A?"'))
        client.write("A?")
        client.clear()
        client.query("B?")
        client.close()
        self.assert_logged("[delayed", "DeviceClearAcknowledge", "B?", "ended: closed by the client")
        self.assertNotIn("unanswered", self.log.getvalue())

    def test_an_end_that_is_not_the_client_s_is_marked(self):
        client = self.client(self.relay())
        client.query("A?")
        self.server.__exit__()
        with self.assertRaises(ConnectionLost):
            client.query("B?")
        self.assert_logged("A?", " !  1 --- ended: ")

    def raw_session(self, relay):
        connection = socket.create_connection(("127.0.0.1", relay.port), timeout=LONG)
        self.addCleanup(connection.close)
        connection.sendall(Frame(MessageType.INITIALIZE).pack())
        SocketFrames(connection).receive(LONG)
        connection.settimeout(LONG)
        return connection


def read_all(connection):
    data, piece = b"", b"x"
    while piece:
        try:
            piece = connection.recv(65536)
        except ConnectionError:
            piece = b""
        data += piece
    return data


if __name__ == "__main__":
    unittest.main()
