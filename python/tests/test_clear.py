"""Tests of a device clear beside other threads of a session: it ends what they wait for."""
import threading
import time
import unittest

from psu import Cleared
from psu.frames import FIRST_MESSAGE_ID, MessageType
from psu.turn import Turn
from scripted import Script, receive, send

ROOM = 1000
WAITS = 10  # seconds, the longest wait of a test


class Server:
    """Answers messages and device clears until the session ends; after one with `WAIT` none until a device clear."""

    def __init__(self, script):
        self.script = script
        self.messages = []
        for work in (self.serve_messages, self.serve_asks):
            threading.Thread(target=work, daemon=True).start()

    def serve_messages(self):
        waits = False
        try:
            while True:
                message = receive(self.script.sync)
                if message.kind == MessageType.DEVICE_CLEAR_COMPLETE:
                    waits = False
                    send(self.script.sync, MessageType.DEVICE_CLEAR_ACKNOWLEDGE)
                    continue
                self.messages.append((message.parameter, message.payload))
                waits |= b"WAIT" in message.payload
                if not waits:
                    self.script.respond(message.parameter, message.payload)
        except (EOFError, OSError):
            pass

    def serve_asks(self):
        try:
            while receive(self.script.asynchronous).kind == MessageType.ASYNC_DEVICE_CLEAR:
                send(self.script.asynchronous, MessageType.ASYNC_DEVICE_CLEAR_ACKNOWLEDGE)
        except (EOFError, OSError):
            pass


class Clears(unittest.TestCase):
    def setUp(self):
        self.script = Script(ROOM, timeout=WAITS)
        self.addCleanup(self.script.close)
        self.client = self.script.client
        self.server = Server(self.script)
        self.results = []

    def in_thread(self, work):
        def kept():
            try:
                self.results.append(work())
            except Exception as fault:  # what it raises is its result
                self.results.append(fault)

        thread = threading.Thread(target=kept, daemon=True)
        thread.start()
        self.addCleanup(thread.join, WAITS)
        return thread

    def await_message(self, count):
        deadline = time.monotonic() + WAITS
        while len(self.server.messages) < count and time.monotonic() < deadline:
            time.sleep(0.001)
        self.assertEqual(len(self.server.messages), count)

    def test_a_query_of_another_thread_ends_at_once(self):
        asking = self.in_thread(lambda: self.client.query("WAIT?"))
        self.await_message(1)
        began = time.monotonic()
        self.client.clear()
        asking.join(WAITS)
        self.assertLess(time.monotonic() - began, WAITS / 2)
        self.assertIsInstance(self.results[0], Cleared)
        self.assertEqual(str(self.results[0]), "clear() of another thread discarded WAIT? or its response")
        self.assertEqual(self.client.query("A?"), "A?")
        self.assertEqual(self.server.messages[-1], (FIRST_MESSAGE_ID, b"A?\n"))

    def test_a_query_that_waits_for_its_turn_is_sent_after_the_clear(self):
        first = self.in_thread(lambda: self.client.query("WAIT?"))
        self.await_message(1)
        second = self.in_thread(lambda: self.client.query("B?"))
        time.sleep(0.05)
        self.client.clear()
        first.join(WAITS)
        second.join(WAITS)
        self.assertIsInstance(self.results[0], Cleared)
        self.assertEqual(self.results[1], "B?")

    def test_a_sequence_of_another_thread(self):
        has_written, may_read = threading.Event(), threading.Event()

        def work():
            with self.client.sequence():
                self.client.write("WAIT?")
                has_written.set()
                may_read.wait(WAITS)
                return self.client.read()

        asking = self.in_thread(work)
        has_written.wait(WAITS)
        clearing = self.in_thread(self.client.clear)
        time.sleep(0.05)
        may_read.set()
        asking.join(WAITS)
        clearing.join(WAITS)
        self.assertIsInstance(self.results[0], Cleared)
        self.assertEqual(self.client.query("A?"), "A?")

    def test_clears_at_once_and_a_clear_in_a_sequence(self):
        asking = self.in_thread(lambda: self.client.query("WAIT?"))
        self.await_message(1)
        clearing = [self.in_thread(self.client.clear) for _ in range(5)]
        with self.client.sequence():
            self.client.clear()
            self.assertEqual(self.client.query("A?"), "A?")
        for it in [asking, *clearing]:
            it.join(WAITS)
        self.assertEqual([type(it) for it in self.results if it is not None], [Cleared])
        self.assertEqual(self.client.query("B?"), "B?")

    def test_with_a_check_of_errors(self):
        self.client.check_errors = True
        asking = self.in_thread(lambda: self.client.query("WAIT?"))
        self.await_message(2)
        self.client.clear()
        asking.join(WAITS)
        self.assertIsInstance(self.results[0], Cleared)

    def test_many_threads(self):
        """Each query has its own response, or was cleared."""
        over = threading.Event()

        def ask(name):
            for number in range(100):
                text = f"{name} {number}?"
                try:
                    self.assertEqual(self.client.query(text), text)
                except Cleared:
                    pass
            return "asked"

        def clear():
            while not over.wait(0.002):
                self.client.clear()
            return "cleared"

        asking = [self.in_thread(lambda name=name: ask(name)) for name in "ABCD"]
        clearing = self.in_thread(clear)
        for it in asking:
            it.join(WAITS)
        over.set()
        clearing.join(WAITS)
        self.assertEqual(self.results, ["asked"] * 4 + ["cleared"])


class Turns(unittest.TestCase):
    def test_a_clear_comes_before_those_that_wait(self):
        order, events = [], []
        turn = Turn(lambda: events.append("interrupt"), lambda: events.append("resume"))

        def take(name, taking):
            with taking:
                order.append(name)

        with turn:
            waiting = [threading.Thread(target=take, args=(it, turn)) for it in range(3)]
            for it in waiting:
                it.start()
            clearing = threading.Thread(target=take, args=("clear", turn.before_others()))
            clearing.start()
            deadline = time.monotonic() + WAITS
            while not events and time.monotonic() < deadline:
                time.sleep(0.001)
            self.assertEqual(events, ["interrupt"])
            with turn:  # its thread may take it again
                order.append("inner")
        for it in [*waiting, clearing]:
            it.join(WAITS)
        self.assertEqual(order[:2], ["inner", "clear"])
        self.assertEqual(sorted(order[2:]), [0, 1, 2])
        self.assertEqual(events, ["interrupt", "resume"])


if __name__ == "__main__":
    unittest.main()
