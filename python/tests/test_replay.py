"""Tests of psu-replay: what it sends of a log, and what it says of the answers."""
import contextlib
import io
import json
import os
import tempfile
import unittest

from fake_server import FakeServer, run_main
from psu.client import Instrument
from psu.errors import HislipError
from psu.relay import Relay
from psu.replay import main

LONG = 10.0


def logged(talk, rules=()):
    """Returns the lines of the log of a session with a server that echoes."""
    log = io.StringIO()
    with FakeServer() as server, Relay(server.port, rules, log, is_json=True) as relay:
        with contextlib.suppress(HislipError, OSError), Instrument(port=relay.port, timeout=0.5) as client:
            talk(client)
    return log.getvalue().splitlines()


class ReplayTest(unittest.TestCase):
    def setUp(self):
        self.server = FakeServer().__enter__()
        self.addCleanup(self.server.__exit__)

    def replay(self, lines, timeout="0.3"):
        """Returns the exit status, the lines of standard output, and standard error."""
        with tempfile.TemporaryDirectory() as folder, contextlib.redirect_stdout(io.StringIO()) as printed:
            path = os.path.join(folder, "traffic.log")
            with open(path, "w") as file:
                file.write("".join(f"{line}\n" for line in lines))
            status, said = run_main(main, ["--to", str(self.server.port), "--timeout", timeout, path])
        return status, printed.getvalue().splitlines(), said

    def edited(self, lines, has, **fields):
        """Returns the log with other fields in the line that has this text, and that line's number."""
        place = next(place for place, line in enumerate(lines) if has in line)
        item = {**json.loads(lines[place]), **fields}
        return [*lines[:place], json.dumps(item), *lines[place + 1 :]], place + 1

    def test_the_same_answers(self):
        def talk(client):
            self.assertEqual(client.query("VOLT 5;VOLT?"), "VOLT 5;VOLT?")
            client.write("a\x00b")
            client.query("BIG?" + "x" * 65_525)  # in two frames, and the response in four
            client.write("SRQ")
            client.wait_for_service_request(LONG)
            client.read_stb()
            client.clear()
            client.query("last?")

        status, printed, _ = self.replay(logged(talk))
        # Initialize, AsyncInitialize, the size, three responses, a service request, a status byte and two of the clear.
        self.assertEqual((status, printed), (0, ["10 answers, of which 0 differ"]))
        self.assertEqual([it[:8] for it in self.server.messages], [b"VOLT 5;V", b"a\0b\n", b"BIG?xxxx", b"SRQ\n", b"last?\n"])

    def test_an_answer_that_differs(self):
        lines = logged(lambda client: [client.query("A?"), client.query("B?")])
        lines, number = self.edited(lines, '"from": "server", "connection": "synchronous", "type": "DataEnd"',
                                    data="Qz8K", payload="C?\\n")
        status, printed, _ = self.replay(lines)
        self.assertEqual(status, 1)
        self.assertEqual(printed, [f"line {number}, session 1: C?\\n in the log, A?\\n now", "5 answers, of which 1 differ"])

    def test_an_answer_that_does_not_come(self):
        lines = logged(lambda client: client.query("A?"))
        lines, _ = self.edited(lines, '"from": "client", "connection": "synchronous", "type": "DataEnd"', data="QSEK")
        status, printed, _ = self.replay(lines)
        self.assertEqual(status, 1)
        self.assertRegex(printed[0], r"^line \d+, session 1: A\?\\n in the log, nothing now$")

    def test_an_answer_that_the_log_does_not_have(self):
        lines = logged(lambda client: [client.query("A?"), client.query("B?")])
        place = next(place for place, line in enumerate(lines) if '"payload": "A?\\\\n"' in line and '"server"' in line)
        status, printed, _ = self.replay(lines[:place] + lines[place + 1 :])
        self.assertEqual((status, printed[0]), (1, "session 1: not in the log: A?\\n"))

    def test_several_sessions_in_the_order_of_the_log(self):
        log = io.StringIO()
        with FakeServer() as server, Relay(server.port, (), log, is_json=True) as relay:
            with Instrument(port=relay.port) as one, Instrument(port=relay.port) as other:
                for number in range(10):
                    one.query(f"one {number}?")
                    other.query(f"other {number}?")
        status, printed, _ = self.replay(log.getvalue().splitlines())
        self.assertEqual((status, printed), (0, ["26 answers, of which 0 differ"]))
        expected = [f"{name} {number}?\n".encode() for number in range(10) for name in ("one", "other")]
        self.assertEqual(self.server.messages, expected)

    def test_what_a_rule_kept_from_the_server_is_left_out(self):
        def talk(client):
            with contextlib.suppress(HislipError):
                client.query("held?")
            with contextlib.suppress(HislipError):
                client.query("refused?")
            client.query("last?")

        lines = logged(talk, ["hold command with held", "error 1 command with refused"])
        status, printed, _ = self.replay(lines)
        self.assertEqual((status, printed), (0, ["4 answers, of which 0 differ"]))
        self.assertEqual(self.server.messages, [b"last?\n"])

    def test_a_log_that_cannot_be_read(self):
        for line, text in (("21:47:56.623566    1 --> DataEnd", "line 1 is not of a log of psu-relay --json"), ("[]", "line 1 is not"),
                           (json.dumps({"type": "DataEnd", "session": 1}), "line 1 is not")):
            status, _, said = self.replay([line])
            self.assertEqual(status, 2)
            self.assertIn(text, said)
        lines = logged(lambda client: client.query("A?"))
        lines, number = self.edited(lines, '"from": "client", "connection": "synchronous", "type": "DataEnd"', length=70_000)
        self.assertIn(f"line {number}: of 70000 bytes the log has 3", self.replay(lines)[2])

    def test_without_a_server_or_a_file(self):
        self.server.__exit__()
        status, _, said = self.replay(logged(lambda client: client.query("A?")))
        self.assertEqual(status, 2)
        self.assertIn("nothing listens", said)
        self.assertEqual(run_main(main, ["/nope/traffic.log"])[0], 2)


if __name__ == "__main__":
    unittest.main()
