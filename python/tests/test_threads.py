"""Tests of one session that several threads use, against a scripted server that answers as an instrument does."""
import gc
import threading
import time
import unittest
import warnings

from psu import HislipError, Timeout
from psu.frames import MessageType
from scripted import Script, receive, send

ROOM = 1000
WAITS = 10  # seconds, the longest wait of a test


class Responder:
    """Answers each message with its own text, and each status query; requests service before each status response."""

    def __init__(self, script):
        self._script = script
        self._requests = 0
        self._sending = threading.Lock()
        for work in (self._answer_messages, self._answer_asks):
            threading.Thread(target=work, daemon=True).start()

    def _answer_messages(self):
        try:
            while True:
                message = receive(self._script.sync)
                self._script.respond(message.parameter, message.payload[:3], message.payload[3:])
        except (EOFError, OSError):
            pass

    def _answer_asks(self):
        try:
            while True:
                receive(self._script.asynchronous)
                # The service request is before, between and after the responses.
                self._requests += 1
                self.request(self._requests % 64)
                send(self._script.asynchronous, MessageType.ASYNC_STATUS_RESPONSE, self._requests % 64)
        except (EOFError, OSError):
            pass

    def request(self, status):
        with self._sending:
            send(self._script.asynchronous, MessageType.ASYNC_SERVICE_REQUEST, status)


class Threads(unittest.TestCase):
    def setUp(self):
        self.script = Script(ROOM, timeout=WAITS)
        self.addCleanup(self.script.close)
        self.client = self.script.client
        self.responder = Responder(self.script)
        self.faults = []

    def in_threads(self, *works):
        """Runs the functions each in a thread until all have returned."""
        threads = [threading.Thread(target=self.kept, args=(it,), daemon=True) for it in works]
        for it in threads:
            it.start()
        for it in threads:
            it.join(3 * WAITS)
        self.assertFalse(any(it.is_alive() for it in threads))
        self.assertEqual(self.faults, [])

    def kept(self, work):
        try:
            work()
        except Exception as fault:  # any fault of a thread is one of the test
            self.faults.append(fault)

    def test_a_wait_for_a_service_request_beside_status_queries(self):
        """What one thread waits for and what another asks for come on one connection."""
        seen = []
        polls = 200

        def wait():
            while len(seen) < polls + 1:  # one came while the session began
                seen.append(self.client.wait_for_service_request(WAITS))

        def poll():
            for _ in range(polls):
                self.client.read_stb()

        self.in_threads(wait, poll)
        self.assertEqual(seen[1:], [it % 64 for it in range(1, polls + 1)])

    def test_status_queries_of_many_threads(self):
        seen = []
        self.in_threads(*[lambda: seen.extend(self.client.read_stb() for _ in range(50)) for _ in range(8)])
        # Each response went to one query.
        self.assertEqual(sorted(seen), sorted(it % 64 for it in range(1, 401)))

    def test_queries_of_many_threads_are_whole(self):
        def ask(name):
            for number in range(50):
                text = f"{name} {number}?"
                self.assertEqual(self.client.query(text), text)
                self.client.read_stb()

        self.in_threads(*[lambda name=name: ask(name) for name in "ABCDEFGH"])

    def test_a_sequence_keeps_others_waiting(self):
        def ask(name):
            for number in range(20):
                with self.client.sequence():
                    self.client.write(f"{name} {number}")
                    time.sleep(0.001)
                    self.assertEqual(self.client.read(), f"{name} {number}")

        self.in_threads(*[lambda name=name: ask(name) for name in "ABCD"])

    def test_a_callback_gets_each_request_and_may_use_the_session(self):
        seen, changed = [], threading.Event()

        def called(status):
            seen.append((status, self.client.query("IN THE CALLBACK?")))
            if len(seen) == 11:
                changed.set()

        self.client.on_service_request(called)
        for status in range(10):
            self.responder.request(status)
            self.client.query("BESIDE?")
        self.assertTrue(changed.wait(WAITS))
        self.assertEqual([status for status, _ in seen], [0x60, *range(10)])
        with self.assertRaises(HislipError):
            self.client.wait_for_service_request(0)
        self.client.on_service_request(None)
        self.responder.request(5)
        self.assertEqual(self.client.wait_for_service_request(WAITS), 5)

    def test_a_callback_that_raises_gets_the_next_request(self):
        seen, raised, came = [], [], threading.Event()
        self.addCleanup(setattr, threading, "excepthook", threading.excepthook)
        threading.excepthook = lambda it: raised.append(it.exc_type)

        def called(status):
            seen.append(status)
            if len(seen) == 2:
                came.set()
            raise ValueError

        self.client.on_service_request(called)
        self.responder.request(1)
        self.assertTrue(came.wait(WAITS))
        self.client.close()
        self.assertEqual((seen, raised), ([0x60, 1], [ValueError, ValueError]))

    def test_a_close_in_a_callback(self):
        closed = threading.Event()

        def called(_):
            self.client.close()
            closed.set()

        self.client.on_service_request(called)
        self.assertTrue(closed.wait(WAITS))

    def test_a_session_that_is_not_used_any_more_ends(self):
        before = set(threading.enumerate())
        script = Script(ROOM)
        self.addCleanup(script.close_channels)
        script.asynchronous.settimeout(WAITS)
        with warnings.catch_warnings():
            warnings.simplefilter("ignore", ResourceWarning)  # it was not closed
            readers = set(threading.enumerate()) - before
            del script.client
            gc.collect()
            self.assertEqual(script.asynchronous.recv(1), b"")
            for it in readers:
                it.join(WAITS)
            del readers, it
            gc.collect()

    def test_no_thread_is_left_after_close(self):
        before = set(threading.enumerate())
        script = Script(ROOM)
        script.client.on_service_request(lambda _: None)
        with self.assertRaises(Timeout):
            script.client.read(timeout=0.05)
        script.close()
        self.assertEqual(set(threading.enumerate()) - before, set())


if __name__ == "__main__":
    unittest.main()
