"""Tests of the client against a scripted server: what a real server does not check, or seldom sends.

Needs no package and no server: PYTHONPATH=python python3 -m unittest discover -s python/tests
"""
import socket
import threading
import time
import unittest
import unittest.mock

from psu import (
    ConnectionLost,
    FatalError,
    LockError,
    LockRefusal,
    ProtocolError,
    ServerError,
    SessionClosed,
    Timeout,
)
from psu.blocks import block_content, definite_block, error_of
from psu.client import Instrument
from psu.frames import FIRST_MESSAGE_ID, Frame, MessageType
from scripted import FIRST_REQUEST, Script, receive, send


class ScriptCase(unittest.TestCase):
    def setUp(self):
        self.script = Script()
        self.addCleanup(self.script.close)
        self.client = self.script.client
        self.sync = self.script.sync
        self.asynchronous = self.script.asynchronous

    def let_wait(self, seconds):
        """Sets the longest wait of the client for what ends the session where it does not come."""
        patched = unittest.mock.patch("psu.client.LEAST_WAIT", seconds)
        patched.start()
        self.addCleanup(patched.stop)
        self.client.timeout = seconds

    def in_thread(self, work, *arguments):
        thread = threading.Thread(target=work, args=arguments, daemon=True)
        thread.start()
        return thread


class Messages(ScriptCase):
    def test_message_ids_and_rmt_delivered(self):
        self.client.write("VOLT 5;VOLT?")
        self.assertEqual(receive(self.sync), (MessageType.DATA, 0, 0xFFFF_FF00, b"VOLT 5;V"))
        self.assertEqual(receive(self.sync), (MessageType.DATA_END, 0, 0xFFFF_FF02, b"OLT?\n"))
        self.script.respond(0xFFFF_FF02, b"5.0", b"00\n")
        self.assertEqual(self.client.read(), "5.000")
        self.client.write("VOLT 6;VOLT?")
        # A response was read whole, which the first message after it says and no other.
        self.assertEqual([receive(self.sync)[1:3] for _ in range(2)], [(1, 0xFFFF_FF04), (0, 0xFFFF_FF06)])
        self.client.write("*RST")
        self.assertEqual(receive(self.sync)[:3], (MessageType.DATA_END, 0, 0xFFFF_FF08))

    def test_message_ids_wrap(self):
        self.client._messages.sent_id = 0xFFFF_FFFC
        for expected in (0xFFFF_FFFE, 0):
            self.client.write("*CLS")
            self.assertEqual(receive(self.sync).parameter, expected)

    def test_a_response_to_an_earlier_message_is_discarded(self):
        self.client.write("A?")
        self.client.write("B?")
        self.script.respond(0xFFFF_FF00, b"a", b"a\n")
        self.script.respond(0xFFFF_FF02, b"b\n")
        self.assertEqual(self.client.read(), "b")

    def test_interrupted_discards_what_came_of_a_response(self):
        self.client.write("A?")
        send(self.sync, MessageType.DATA, 0, FIRST_MESSAGE_ID, b"half")
        send(self.sync, MessageType.INTERRUPTED, 0, FIRST_MESSAGE_ID)
        self.script.respond(FIRST_MESSAGE_ID, b"whole\n")
        self.assertEqual(self.client.read(), "whole")

    def test_a_read_continues_after_a_timeout(self):
        self.client.write("A?")
        message = Frame(MessageType.DATA_END, 0, FIRST_MESSAGE_ID, b"abc\n").pack()
        for begin, end in ((0, 10), (10, 18)):
            self.sync.sendall(message[begin:end])
            with self.assertRaises(Timeout):
                self.client.read(timeout=0.1)
        self.sync.sendall(message[18:])
        self.assertEqual(self.client.read(), "abc")


class Clear(ScriptCase):
    def acknowledge(self):
        self.kinds = [receive(self.asynchronous).kind]
        send(self.asynchronous, MessageType.ASYNC_DEVICE_CLEAR_ACKNOWLEDGE)
        self.kinds += [receive(self.sync).kind for _ in range(2)]
        send(self.sync, MessageType.ERROR, 1)
        send(self.sync, MessageType.DEVICE_CLEAR_ACKNOWLEDGE)

    def test_device_clear(self):
        self.client.write("A?")
        self.script.respond(FIRST_MESSAGE_ID, b"old\n")
        thread = self.in_thread(self.acknowledge)
        self.client.clear()
        thread.join()
        expected = [MessageType.ASYNC_DEVICE_CLEAR, MessageType.DATA_END, MessageType.DEVICE_CLEAR_COMPLETE]
        self.assertEqual(self.kinds, expected)
        # MessageIDs begin anew, and no response counts as delivered.
        self.client.write("B?")
        self.assertEqual(receive(self.sync)[:3], (MessageType.DATA_END, 0, FIRST_MESSAGE_ID))

    def test_a_device_clear_that_is_not_answered_ends_the_session(self):
        send(self.sync, MessageType.ERROR, 1)
        self.let_wait(2.0)
        answering = self.in_thread(lambda: send_after(self.asynchronous, MessageType.ASYNC_DEVICE_CLEAR_ACKNOWLEDGE))
        with self.assertRaisesRegex(Timeout, "no response to DeviceClearComplete in 2 s; this client closed the session"):
            self.client.clear()
        answering.join()
        with self.assertRaisesRegex(SessionClosed, "the server did not answer DeviceClearComplete in time"):
            self.client.write("B?")


class Status(ScriptCase):
    def answer_status(self, *status_bytes):
        self.asked = []
        for it in status_bytes:
            self.asked.append(receive(self.asynchronous)[:3])
            send(self.asynchronous, MessageType.ASYNC_STATUS_RESPONSE, it)

    def test_a_status_query_says_rmt_delivered_and_the_last_message(self):
        thread = self.in_thread(self.answer_status, 0x10, 0)
        self.client.write("*RST")
        self.assertEqual(self.client.read_stb(), 0x10)
        self.script.respond(FIRST_MESSAGE_ID, b"1\n")
        self.assertEqual((self.client.read(), self.client.read_stb()), ("1", 0))
        thread.join()
        query = MessageType.ASYNC_STATUS_QUERY
        self.assertEqual(self.asked, [(query, 0, FIRST_MESSAGE_ID), (query, 1, FIRST_MESSAGE_ID)])

    def test_service_requests_are_kept(self):
        self.assertEqual(self.client.wait_for_service_request(0), FIRST_REQUEST)
        with self.assertRaises(Timeout):
            self.client.wait_for_service_request(0)

    def test_a_status_query_that_is_not_answered_ends_the_session(self):
        self.let_wait(0.2)
        with self.assertRaisesRegex(Timeout, "no response to AsyncStatusQuery in 0.2 s; this client closed the session"):
            self.client.read_stb()
        with self.assertRaisesRegex(SessionClosed, "the server did not answer AsyncStatusQuery in time"):
            self.client.write("*CLS")


class Ends(ScriptCase):
    def test_an_error_of_each_connection(self):
        send(self.sync, MessageType.ERROR, 4)
        with self.assertRaisesRegex(ServerError, "message too large"):
            self.client.read()
        self.in_thread(self.refuse_status)
        with self.assertRaisesRegex(ServerError, "Error 2 of the server: own text") as caught:
            self.client.read_stb()
        self.assertEqual(caught.exception.code, 2)

    def refuse_status(self):
        receive(self.asynchronous)
        send(self.asynchronous, MessageType.ERROR, 2, 0, b"own text")

    def test_a_fatal_error_of_the_asynchronous_connection(self):
        send(self.asynchronous, MessageType.FATAL_ERROR, 1)
        with self.assertRaises(FatalError):
            for _ in range(2):  # the service request that came first, then the end
                self.client.wait_for_service_request(5)
        with self.assertRaises(FatalError):
            self.client.lock_info()
        with self.assertRaisesRegex(SessionClosed, "FatalError 1 of the server: poorly formed message header"):
            self.client.write("A?")

    def test_a_fatal_error_of_the_synchronous_connection(self):
        send(self.sync, MessageType.FATAL_ERROR, 0, 0, b"the end")
        with self.assertRaisesRegex(FatalError, "the end"):
            self.client.read()
        with self.assertRaisesRegex(SessionClosed, "the end"):
            self.client.read()

    def test_what_is_not_hislip(self):
        self.sync.sendall(b"HTTP/1.1 400 Bad Request\r\n")
        with self.assertRaises(ProtocolError):
            self.client.read()

    def test_a_server_that_does_not_read(self):
        self.let_wait(0.2)
        with self.assertRaisesRegex(Timeout, "the server has not read in 0.2 s; this client closed the session"):
            for _ in range(100):
                self.client._messages.room = 1 << 20
                self.client.write_bytes(bytes(1 << 20))
        with self.assertRaisesRegex(SessionClosed, "the server did not read"):
            self.client.read_stb()

    def test_the_server_ends(self):
        self.sync.close()
        with self.assertRaisesRegex(ConnectionLost, "the server closed the connection"):
            self.client.read()

    def test_the_server_ends_while_a_request_is_waited_for(self):
        self.client.wait_for_service_request(5)
        closing = threading.Timer(0.1, self.asynchronous.shutdown, (socket.SHUT_RDWR,))
        closing.start()
        with self.assertRaises(ConnectionLost):
            self.client.wait_for_service_request(5)
        closing.join()

    def test_what_the_client_closed_is_not_told_as_the_server_s_doing(self):
        self.client.close()
        for call in (self.client.read, self.client.read_stb, lambda: self.client.wait_for_service_request(1)):
            with self.subTest(call=call), self.assertRaisesRegex(SessionClosed, "this client .*: close"):
                while True:
                    call()

    def test_a_close_wakes_a_read_of_another_thread(self):
        caught = []
        thread = self.in_thread(lambda: caught.append(self.raised_by_read(30)))
        time.sleep(0.1)
        begin = time.monotonic()
        self.client.close()
        thread.join(10)
        self.assertLess(time.monotonic() - begin, 5)
        self.assertIsInstance(caught[0], SessionClosed)

    def raised_by_read(self, timeout):
        try:
            self.client.read(timeout)
        except SessionClosed as fault:
            return fault

    def test_nothing_listens(self):
        with socket.create_server(("127.0.0.1", 0)) as it:
            port = it.getsockname()[1]
        with self.assertRaisesRegex(ConnectionRefusedError, "nothing listens on 127.0.0.1"):
            Instrument(port=port)


class Locks(ScriptCase):
    def answer(self, *controls):
        self.asked = []
        for control in controls:
            self.asked.append(receive(self.asynchronous)[1:])
            send(self.asynchronous, MessageType.ASYNC_LOCK_RESPONSE, control)

    def reason_of(self, call, *arguments):
        with self.assertRaises(LockError) as caught:
            call(*arguments)
        return caught.exception.reason

    def test_a_refusal_says_which_of_its_reasons_holds(self):
        self.in_thread(self.answer, 1, 3, 1, 3, 1, 3, 2, 3)
        self.client.lock(1)
        self.assertEqual(self.reason_of(self.client.lock, 1), LockRefusal.EXCLUSIVE_HELD)
        self.client.lock(1, "bench")
        self.assertEqual(self.reason_of(self.client.lock, 1, "bench"), LockRefusal.SHARED_HELD)
        self.client.unlock()
        # The exclusive lock was given back first, so a refusal of one has no reason that the client knows.
        self.assertEqual(self.reason_of(self.client.lock, 1), LockRefusal.UNKNOWN)
        self.client.unlock()
        self.assertEqual(self.reason_of(self.client.unlock), LockRefusal.NONE_HELD)
        self.assertEqual(self.asked[0], (1, 1000, b""))
        self.assertEqual(self.asked[2], (1, 1000, b"bench"))

    def test_keys(self):
        self.assertEqual(self.reason_of(self.client.lock, 1, "k" * 257), LockRefusal.KEY_TOO_LONG)
        with self.assertRaises(ValueError):
            self.client.lock(1, "")
        self.in_thread(self.answer, 1)
        self.client.lock(1, "k" * 256)

    def test_a_lock_that_is_not_granted(self):
        self.in_thread(self.answer, 0)
        with self.assertRaisesRegex(Timeout, "not granted"):
            self.client.lock(0)

    def test_a_second_request_of_a_session_while_one_waits(self):
        waiting = self.in_thread(self.client.lock, 5)
        self.assertEqual(receive(self.asynchronous).kind, MessageType.ASYNC_LOCK)
        self.assertEqual(self.reason_of(self.client.lock, 5), LockRefusal.REQUEST_WAITS)
        self.assertEqual(self.reason_of(self.client.unlock), LockRefusal.REQUEST_WAITS)
        send(self.asynchronous, MessageType.ASYNC_LOCK_RESPONSE, 1)
        waiting.join(10)
        self.assertFalse(waiting.is_alive())


def send_after(channel, kind):
    """Answers the next message with one of this type."""
    receive(channel)
    send(channel, kind)


class Texts(unittest.TestCase):
    def test_blocks(self):
        self.assertEqual(definite_block(b""), b"#10")
        self.assertEqual(definite_block(b"hello"), b"#15hello")
        self.assertEqual(definite_block(bytes(10))[:4], b"#210")
        self.assertEqual(block_content(b"#15hello\n"), b"hello")
        for response in (b"", b"#", b"1.000\n", b"#15hell", b"#2x0"):
            with self.subTest(response=response), self.assertRaises(ProtocolError):
                block_content(response)

    def test_errors(self):
        self.assertEqual(error_of(b'-113,"Undefined header"'), (-113, "Undefined header"))
        self.assertEqual(str(error_of(b'0,"No error"\n')), '0,"No error"')
        with self.assertRaises(ProtocolError):
            error_of(b"1.000")


if __name__ == "__main__":
    unittest.main()
