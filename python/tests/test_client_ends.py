"""Tests of how a session ends, or continues, where a server or a signal does what it seldom does."""
import signal
import socket
import struct
import threading
import time
import unittest
from unittest import mock

from psu import ConnectionLost, Instrument, LockInfo, ProtocolError, ServerError, SessionClosed, Timeout
from psu.frames import FIRST_MESSAGE_ID, HEADER_SIZE, Frame, MessageType
from scripted import Script, receive, send

ROOM = 1000
WAITS = 10  # seconds, the longest wait of a test


class ScriptCase(unittest.TestCase):
    def begin(self, **how):
        self.script = Script(**{"room": ROOM, "timeout": WAITS, **how})
        self.addCleanup(self.script.close)
        self.client, self.sync, self.asynchronous = self.script.client, self.script.sync, self.script.asynchronous

    def in_thread(self, work, *arguments):
        thread = threading.Thread(target=work, args=arguments, daemon=True)
        thread.start()
        self.addCleanup(thread.join, WAITS)
        return thread


class CutShort(ScriptCase):
    """A connection that ends within a frame is lost, and stays so."""

    FRAME = Frame(MessageType.DATA_END, 0, FIRST_MESSAGE_ID, b"5.000\n").pack()

    def calls(self):
        return (lambda: self.client.query("A?"), self.client.read, self.client.read_stb, self.client.lock_info,
                lambda: self.client.wait_for_service_request(1))

    def assert_lost(self, call):
        with self.assertRaises(ConnectionError) as caught:
            while True:  # a service request came first
                call()
        self.assertIsInstance(caught.exception, ConnectionLost)
        self.assertRegex(str(caught.exception), "^the server closed the connection in the middle of a message$")

    def test_the_synchronous_connection(self):
        for size in (1, HEADER_SIZE - 1, HEADER_SIZE, len(self.FRAME) - 1):
            with self.subTest(size=size):
                self.begin()
                self.client.write("A?")
                receive(self.sync)
                self.sync.sendall(self.FRAME[:size])
                self.sync.close()
                self.assert_lost(self.client.read)
                for call in self.calls():
                    self.assert_lost(call)

    def test_the_asynchronous_connection(self):
        frame = Frame(MessageType.ASYNC_LOCK_INFO_RESPONSE, 0, 1, b"1").pack()
        for size in (1, HEADER_SIZE - 1, HEADER_SIZE):
            with self.subTest(size=size):
                self.begin()
                self.asynchronous.sendall(frame[:size])
                self.asynchronous.close()
                self.assert_lost(self.client.lock_info)
                for call in self.calls():
                    self.assert_lost(call)

    def test_the_end_between_two_frames(self):
        self.begin()
        self.asynchronous.close()
        for call in (self.client.lock_info, lambda: self.client.query("A?")):
            with self.assertRaisesRegex(ConnectionLost, "^the server closed the connection$"):
                call()


class Signals(ScriptCase):
    """Ctrl-C, which a handler raises in the main thread."""

    def setUp(self):
        self.addCleanup(signal.signal, signal.SIGALRM, signal.signal(signal.SIGALRM, self.raise_it))

    @staticmethod
    def raise_it(*_):
        raise KeyboardInterrupt

    def interrupt(self, call, *arguments):
        signal.setitimer(signal.ITIMER_REAL, 0.2)
        with self.assertRaises(KeyboardInterrupt):
            call(*arguments)

    def test_a_write_that_is_broken_ends_the_session(self):
        self.begin(room=1 << 24)
        self.interrupt(self.client.write_bytes, bytes(1 << 24))  # more than the sockets hold
        for call in (lambda: self.client.write("*IDN?"), self.client.read_stb):
            with self.assertRaisesRegex(SessionClosed, "this client closed the session: a write was interrupted"):
                call()

    def test_a_lock_request_that_is_broken_ends_the_session(self):
        self.begin()
        self.interrupt(self.client.lock, WAITS)
        with self.assertRaisesRegex(SessionClosed, "a lock request was interrupted"):
            self.client.lock(1)

    def test_a_read_that_is_broken_can_be_continued(self):
        self.begin()
        self.client.write("A?")
        self.sync.sendall(CutShort.FRAME[:20])
        self.interrupt(self.client.read)
        self.sync.sendall(CutShort.FRAME[20:])
        self.assertEqual(self.client.read(), "5.000")

    def test_a_read_that_is_broken_with_bytes_in_hand_ends_the_session(self):
        receive_bytes = socket.socket.recv

        def broken(connection, size):
            received = receive_bytes(connection, size)
            if threading.current_thread() is threading.main_thread():
                raise KeyboardInterrupt  # as where a signal falls before the next step of the interpreter
            return received

        self.begin()
        self.client.write("A?")
        self.sync.sendall(CutShort.FRAME[:20])
        with mock.patch.object(socket.socket, "recv", broken), self.assertRaises(KeyboardInterrupt):
            self.client.read()
        self.sync.sendall(CutShort.FRAME[20:])
        with self.assertRaisesRegex(SessionClosed, "this client closed the session: a read was interrupted"):
            self.client.read()


class OtherConnection(ScriptCase):
    """Where the server closes one connection, what it sent on the other before is read first."""

    def test_a_response_before_the_end_of_the_asynchronous_connection(self):
        self.begin()
        self.client.write("A?")
        self.sync.sendall(CutShort.FRAME)
        self.asynchronous.close()
        while self.client._end_all.reason is None:
            time.sleep(0.01)
        self.assertEqual(self.client.read(), "5.000")
        for call in (self.client.read, lambda: self.client.query("B?"), self.client.read_stb):
            with self.assertRaisesRegex(ConnectionLost, "the server closed the connection"):
                call()
        self.client.close()
        with self.assertRaises(ConnectionLost):
            self.client.read()


class Unknown(ScriptCase):
    """Messages that HiSLIP 1.0 does not have are answered with Error and ignored."""

    def answer_lock_info(self):
        self.assertEqual(receive(self.asynchronous).kind, MessageType.ASYNC_LOCK_INFO)
        send(self.asynchronous, MessageType.ASYNC_LOCK_INFO_RESPONSE, 1, 2)

    def test_on_the_asynchronous_connection(self):
        self.begin()
        for kind, code in ((26, 1), (127, 1), (128, 3), (200, 3)):
            send(self.asynchronous, kind, 0, 0, b"own")
            refusal = receive(self.asynchronous)
            self.assertEqual(refusal[:2], (MessageType.ERROR, code))
        self.in_thread(self.answer_lock_info)
        self.assertEqual(self.client.lock_info(), LockInfo(True, 2))

    def test_on_the_synchronous_connection(self):
        self.begin()
        self.client.write("A?")
        send(self.sync, 200, 0, 0, b"own")
        self.script.respond(FIRST_MESSAGE_ID, b"a\n")
        self.assertEqual(self.client.read(), "a")
        self.assertEqual(receive(self.sync).payload, b"A?\n")
        self.assertEqual(receive(self.sync)[:2], (MessageType.ERROR, 3))

    def test_a_response_to_nothing_is_none(self):
        self.begin()
        send(self.asynchronous, MessageType.ASYNC_STATUS_RESPONSE)
        with self.assertRaisesRegex(ProtocolError, "AsyncStatusResponse .* nothing was asked"):
            for _ in range(2):
                self.client.wait_for_service_request(WAITS)


class Beginnings(ScriptCase):
    def test_the_least_size_of_messages(self):
        self.begin(size=struct.pack(">Q", HEADER_SIZE + 1))
        self.client.write("A?")
        self.assertEqual([receive(self.sync).payload for _ in range(3)], [b"A", b"?", b"\n"])

    def test_sizes_that_are_none(self):
        for size in (b"", b"\0\0\4\0", struct.pack(">Q", 0), struct.pack(">Q", HEADER_SIZE - 1), struct.pack(">Q", HEADER_SIZE)):
            with self.subTest(size=size), self.assertRaisesRegex(ProtocolError, "size"):
                self.begin(size=size)

    def test_a_server_that_prefers_overlap_mode_and_agrees_on_the_other(self):
        self.begin(modes=(1, 0))
        self.client.write("A?")
        self.assertEqual(receive(self.sync)[:3], (MessageType.DATA_END, 0, FIRST_MESSAGE_ID))
        self.script.respond(FIRST_MESSAGE_ID, b"a\n")
        self.assertEqual(self.client.read(), "a")

    def test_a_server_that_has_overlap_mode_alone(self):
        with self.assertRaisesRegex(ProtocolError, "does not leave overlap mode"):
            self.begin(modes=(1, 1))

    def test_nothing_listens(self):
        self.begin()
        with self.assertRaises(ConnectionRefusedError) as caught:
            Instrument(port=1)
        self.assertEqual(caught.exception.errno, 111)
        self.assertEqual(str(caught.exception), "nothing listens on 127.0.0.1:1 (start: psu serve IMAGE)")


class MessageIds(ScriptCase):
    def test_a_response_under_an_id_of_no_message_is_that_of_the_query_that_waits(self):
        self.begin()
        for back in (0xFFFF_FFFF, FIRST_MESSAGE_ID + 100, 1):
            self.client.write("*IDN?")
            message = receive(self.sync)
            send(self.sync, MessageType.DATA, 0, back, b"EXAMPLE,")
            send(self.sync, MessageType.DATA_END, 0, message.parameter, b"PSU4\n")
            self.assertEqual(self.client.read(), "EXAMPLE,PSU4")
        self.client.write("*IDN?")
        send(self.sync, MessageType.DATA_END, 0, 0xFFFF_FFFF, b"EXAMPLE\n")
        self.assertEqual(self.client.read(), "EXAMPLE")

    def test_one_to_an_earlier_message_is_dropped_also_after_the_ids_wrapped(self):
        self.begin()
        self.client._messages.sent_id = 0xFFFF_FFFC
        self.client._messages._frames = 127  # so many frames lead there
        for _ in range(2):
            self.client.write("A?")
        self.script.respond(0xFFFF_FFFE, b"late\n")
        self.script.respond(0, b"a\n")
        self.assertEqual(self.client.read(), "a")


class Locks(ScriptCase):
    def serve(self, *controls):
        def run():
            for control in controls:
                self.asked.append(receive(self.asynchronous)[1:3])
                send(self.asynchronous, MessageType.ASYNC_LOCK_RESPONSE, control)

        self.asked = []
        return self.in_thread(run)

    def test_the_timeouts_of_a_lock(self):
        self.begin()
        for timeout, milliseconds in ((-1, 0), (0, 0), (0.0005, 0), (0.0006, 1), (4294967.295, 0xFFFF_FFFF),
                                      (4294967.296, 0xFFFF_FFFF), (None, 0xFFFF_FFFF), (float("inf"), 0xFFFF_FFFF)):
            with self.subTest(timeout=timeout):
                self.serve(1, 1)
                self.client.lock(timeout)
                self.client.unlock()
                self.assertEqual(self.asked[0], (1, milliseconds))

    def test_what_can_t_be_sent_leaves_nothing_that_waits(self):
        self.begin()
        with self.assertRaises(struct.error):
            self.client._asynchronous.ask(Frame(MessageType.ASYNC_LOCK, 1, -1), MessageType.ASYNC_LOCK_RESPONSE, 1, 1)
        self.serve(1)
        self.client.lock(1)


class WithoutEnd(ScriptCase):
    def test_a_timeout_of_none(self):
        self.begin(timeout=None)
        self.client.write("A?")
        answer = threading.Timer(0.2, self.script.respond, (FIRST_MESSAGE_ID, b"a\n"))
        answer.start()
        self.assertEqual(self.client.read(), "a")
        answer.join()
        with self.assertRaises(Timeout):
            self.client.read(timeout=0.05)

    def test_a_timeout_beyond_what_the_system_takes(self):
        for timeout in (float("inf"), 1e10, 3e6):
            self.begin(timeout=timeout)
            self.script.respond(FIRST_MESSAGE_ID, b"a\n")
            self.client.write("A?")
            self.assertEqual(self.client.read(), "a")
            self.assertEqual(self.client.wait_for_service_request(timeout), 0x60)

    def test_a_wait_for_a_service_request_without_end(self):
        self.begin(timeout=None)
        self.client.wait_for_service_request(None)
        timer = threading.Timer(0.1, send, (self.asynchronous, MessageType.ASYNC_SERVICE_REQUEST, 0x41))
        timer.start()
        self.assertEqual(self.client.wait_for_service_request(None), 0x41)
        timer.join()


class Requests(ScriptCase):
    def test_requests_are_dropped(self):
        self.begin()
        self.assertEqual(self.client.drop_service_requests(), 1)
        self.assertEqual(self.client.drop_service_requests(), 0)
        began = time.monotonic()
        with self.assertRaisesRegex(Timeout, "^no service request in 0.05 s; the session continues$"):
            self.client.wait_for_service_request(0.05)
        self.assertLess(time.monotonic() - began, 5)

    def test_an_error_of_the_server(self):
        self.begin()
        send(self.sync, MessageType.ERROR, 4)
        with self.assertRaisesRegex(ServerError, "message too large"):
            self.client.read()


if __name__ == "__main__":
    unittest.main()
