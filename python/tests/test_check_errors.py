"""Tests of `check_errors`: each message is followed by a query for its errors, which a scripted server answers."""
import threading
import time
import unittest

from psu import InstrumentError, ScpiError, Timeout
from psu.frames import MessageType
from scripted import Script, receive, send

ROOM = 1000
WAITS = 10  # seconds, the longest wait of a test
NO_ERROR = b'0,"No error"'
RANGE = b'-222,"Data out of range"'
HEADER = b'-113,"Undefined header"'
BACK = 0xFFFF_FFFF  # a MessageID that no message has


class CheckCase(unittest.TestCase):
    def setUp(self):
        self.script = Script(ROOM, timeout=WAITS, check_errors=True)
        self.addCleanup(self.script.close)
        self.client = self.script.client
        self.seen = []

    def serve(self, *responses, message_id=None):
        """Answers one message after another with these responses; None is no response."""

        def run():
            for response in responses:
                message = receive(self.script.sync)
                self.seen.append(message.payload)
                if response is not None:
                    self.script.respond(message.parameter if message_id is None else message_id, response + b"\n")

        thread = threading.Thread(target=run, daemon=True)
        thread.start()
        self.addCleanup(thread.join, WAITS)

    def raised(self, call, *arguments):
        began = time.monotonic()
        with self.assertRaises(InstrumentError) as caught:
            call(*arguments)
        self.assertLess(time.monotonic() - began, WAITS / 2, "it waited")
        return caught.exception


class Checks(CheckCase):
    def test_a_query_is_followed_by_one_for_its_errors(self):
        self.serve(b"5.000", NO_ERROR)
        self.assertEqual(self.client.query("VOLT?"), "5.000")
        self.assertEqual(self.seen, [b"VOLT?\n", b"SYST:ERR?\n"])

    def test_a_refused_query_costs_no_timeout(self):
        self.serve(None, RANGE, HEADER, NO_ERROR)
        fault = self.raised(self.client.query, "FOO?")
        self.assertEqual(str(fault), 'FOO?: -222,"Data out of range"; -113,"Undefined header"')
        self.assertEqual((fault.number, fault.response), (-113, None))
        self.assertEqual(fault.errors[0], ScpiError(-222, "Data out of range"))

    def test_a_refused_command_raises(self):
        self.serve(None, RANGE, NO_ERROR)
        self.assertEqual(str(self.raised(self.client.write, "VOLT 99")), 'VOLT 99: -222,"Data out of range"')

    def test_a_command(self):
        self.serve(None, NO_ERROR)
        self.client.write("VOLT 5")

    def test_a_block_that_is_refused(self):
        self.serve(None, HEADER, NO_ERROR)
        self.assertEqual(self.raised(self.client.write_block, "FOO ", b"abc").number, -113)

    def test_a_query_with_a_response_and_an_error(self):
        self.serve(b"0.000", RANGE, NO_ERROR)
        self.assertEqual(self.raised(self.client.query, "VOLT 99;VOLT?").response, b"0.000")

    def test_a_response_is_kept_for_a_later_read(self):
        self.serve(b"5.000", NO_ERROR, b"6.000", RANGE, NO_ERROR)
        self.client.write("VOLT?")
        self.assertEqual(self.client.read(), "5.000")
        self.assertEqual(self.raised(self.client.write, "VOLT?;VOLT 99").response, b"6.000")

    def test_a_command_that_is_sent_as_a_query(self):
        self.serve(None, NO_ERROR)
        fault = self.raised(self.client.query, "VOLT 5")
        self.assertEqual(str(fault), "VOLT 5: no response, and no error in the queue")
        self.assertEqual((fault.errors, fault.number), ([], 0))

    def test_it_may_be_changed(self):
        self.client.check_errors = False
        self.serve(b"5.000", b"6.000", NO_ERROR)
        self.assertEqual(self.client.query("VOLT?"), "5.000")
        self.client.check_errors = True
        self.assertEqual(self.client.query("VOLT?"), "6.000")
        self.assertEqual(self.seen, [b"VOLT?\n", b"VOLT?\n", b"SYST:ERR?\n"])


class Delays(CheckCase):
    def test_what_comes_after_a_timeout_is_still_read(self):
        with self.assertRaisesRegex(Timeout, r"^no response to \*OPC\? in 0.1 s; the session continues$") as caught:
            self.client.query("*OPC?", timeout=0.1)
        self.assertIs(caught.exception.session_continues, True)
        self.serve(b"1", NO_ERROR, b"5.000", NO_ERROR)
        self.assertEqual(self.client.read(), "1")
        self.assertEqual(self.client.query("VOLT?"), "5.000")

    def test_a_refusal_that_comes_after_a_timeout(self):
        with self.assertRaises(Timeout):
            self.client.query("FOO?", timeout=0.1)
        self.serve(None, HEADER, NO_ERROR)
        self.assertEqual(str(self.raised(self.client.read)), 'FOO?: -113,"Undefined header"')

    def test_a_command_that_waits(self):
        self.client.timeout = 0.1
        with self.assertRaisesRegex(Timeout, r"^no response to SYST:ERR\? after VOLT 5 in 0.1 s; the session continues$"):
            self.client.write("VOLT 5")
        self.client.timeout = WAITS
        self.serve(None, NO_ERROR, b"5.000", NO_ERROR)
        self.assertEqual(self.client.query("VOLT?"), "5.000")

    def test_errors_after_a_timeout(self):
        with self.assertRaises(Timeout):
            self.client.query("FOO?", timeout=0.1)
        self.serve(None, HEADER, NO_ERROR, b"5.000", NO_ERROR)
        self.assertEqual(self.client.errors(), [])  # the first query for errors took the error
        self.assertEqual(self.client.query("VOLT?"), "5.000")

    def test_a_server_that_does_not_say_to_what_it_responds(self):
        self.serve(b"5.000", NO_ERROR, None, NO_ERROR, message_id=BACK)
        self.assertEqual(self.client.query("VOLT?"), "5.000")
        self.client.write("VOLT 5")

    def test_an_instrument_that_takes_a_second_message_for_an_interruption(self):
        def run():
            first, second = receive(self.script.sync), receive(self.script.sync)
            send(self.script.sync, MessageType.INTERRUPTED, 0, second.parameter)
            self.script.respond(second.parameter, b'-410,"Query INTERRUPTED"\n')
            self.script.respond(receive(self.script.sync).parameter, NO_ERROR + b"\n")
            self.assertEqual(first.payload, b"VOLT?\n")

        threading.Thread(target=run, daemon=True).start()
        self.assertEqual(self.raised(self.client.query, "VOLT?").number, -410)


if __name__ == "__main__":
    unittest.main()
