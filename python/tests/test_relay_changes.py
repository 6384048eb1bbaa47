"""Tests of the rules that change what is passed on, in psu-relay, and of rules by functions of Python."""
import io
import os
import random
import signal
import subprocess
import sys
import tempfile
import time
import unittest

from fake_server import FakeServer, wait_until
from psu.client import Instrument
from psu.errors import ServerError, Timeout
from psu.frames import MessageType
from psu.relay import Relay
from psu.relay_changes import changed, corrupted
from psu.relay_rules import RuleError, Side, parse_action, parse_rule

LONG = 10.0
SIGMA = 0.01


class Changes(unittest.TestCase):
    def by(self, line, payload, seed=1):
        return changed(parse_rule(line, ""), payload, random.Random(seed))

    def test_replace(self):
        rule = 'replace "EXAMPLE,PSU4,0" by "ACME,P1,77" response'
        self.assertEqual(self.by(rule, b"example,PSU4,0,1.0\n"), b"ACME,P1,77,1.0\n")
        self.assertEqual(self.by("replace 1 by '' response", b"1.1\\1\n"), b".\\\n")
        self.assertEqual(self.by("replace x by \\\\1 response", b"axb"), b"a\\1b")  # it is no pattern

    def test_noise(self):
        values = [float(self.by(f"noise {SIGMA} response", b"5.000\n", seed)) for seed in range(2000)]
        mean = sum(values) / len(values)
        deviation = (sum((it - mean) ** 2 for it in values) / len(values)) ** 0.5
        self.assertAlmostEqual(mean, 5.0, delta=5 * SIGMA / len(values) ** 0.5)
        self.assertAlmostEqual(deviation, SIGMA, delta=0.1 * SIGMA)
        # As many decimals as before; whole numbers are counts and stay.
        self.assertRegex(self.by("noise 1 response", b'-5.25;1.000;3;0,"No error"\n'),
                         rb'^-?\d+\.\d\d;-?\d\.\d{3};3;0,"No error"\n$')
        self.assertEqual(self.by("noise 0 response", b"5.250;-0.5\n"), b"5.250;-0.5\n")

    def test_corrupt(self):
        for count in (1, 3, 6, 100):
            content = corrupted(b"5.0000\n", count, random.Random(1))
            self.assertEqual((len(content), content[-1:]), (7, b"\n"))
            differing = sum(one != other for one, other in zip(content, b"5.0000\n"))
            self.assertEqual(differing, min(count, 6))
        self.assertEqual(corrupted(b"\n", 1, random.Random(1)), b"\n")
        self.assertEqual(corrupted(b"", 1, random.Random(1)), b"")

    def test_what_is_no_rule(self):
        for line in ("replace response", "replace a with b response", "replace '' by b response", "noise response",
                     "trickle 1 response", "trickle 0 1 response", "trickle 1.5 1 response", "corrupt 0 response"):
            with self.subTest(line), self.assertRaises(RuleError):
                parse_rule(line, "")
        for text in ("delay", "delay 2 response", "", "slow"):
            with self.subTest(text), self.assertRaises(RuleError):
                parse_action(text, "")


class RelayCase(unittest.TestCase):
    def setUp(self):
        self.server = FakeServer().__enter__()
        self.addCleanup(self.server.__exit__)

    def client(self, *rules, seed=0):
        self.log = io.StringIO()
        self.relay = Relay(self.server.port, rules, self.log, seed=seed).__enter__()
        self.addCleanup(self.relay.__exit__)
        client = Instrument(port=self.relay.port, timeout=LONG)
        self.addCleanup(client.close)
        return client

    def test_a_replaced_response_and_its_line_in_the_log(self):
        client = self.client('replace "EXAMPLE" by "A longer name" response')
        self.assertEqual(client.query("EXAMPLE?"), "A longer name?")
        self.assertEqual(client.query("VOLT?"), "VOLT?")
        self.relay.flush_log()
        self.assertIn("EXAMPLE?\\n  [passed on as A longer name?\\n: rule 1]", self.log.getvalue())

    def test_every_frame_of_a_response_is_changed(self):
        client = self.client('replace "part" by "piece" response to "BIG?"')
        self.assertEqual(client.query("BIG?"), "piece of a response, piece of a response, BIG?")

    def test_a_command_that_is_changed(self):
        client = self.client("replace 5 by 6 command")
        self.assertEqual(client.query("VOLT 5?"), "VOLT 6?")

    def test_the_same_seed_corrupts_the_same_bytes(self):
        responses = []
        for _ in range(2):
            client = self.client("corrupt 2 response", seed=7)
            responses.append([client.query(f"{number}0000000?") for number in range(5)])
        self.assertEqual(responses[0], responses[1])
        self.assertNotIn("00000000?", responses[0])

    def test_a_response_trickles(self):
        client = self.client("trickle 5 0.02 response")
        began = time.monotonic()
        self.assertEqual(client.query("A?" * 10), "A?" * 10)  # 16 bytes of header, 21 of text: eight pieces
        self.assertGreater(time.monotonic() - began, 0.13)
        with self.assertRaises(Timeout):
            client.query("B?" * 10, timeout=0.05)
        self.assertEqual(client.query("C?"), "C?")

    def test_a_function_decides(self):
        seen = []

        def decide(it):
            seen.append((it.side, it.kind, it.text, it.session))
            return "error 4" if it.text == b"NEVER?\n" and it.side is Side.CLIENT else None

        client = self.client(decide, "delay 0 response")
        self.assertEqual(client.query("A?"), "A?")
        self.assertEqual(self.relay.unused_rules(), ["the function decide"])
        with self.assertRaises(ServerError):
            client.query("NEVER?")
        self.assertEqual(self.relay.unused_rules(), [])
        self.assertIn((Side.SERVER, MessageType.DATA_END, b"A?\n", 1), seen)


class Program(unittest.TestCase):
    def test_a_hang_up_reads_the_rules_again(self):
        with FakeServer() as server, tempfile.TemporaryDirectory() as folder:
            rules = os.path.join(folder, "rules")
            write(rules, "replace A by B response")
            command = [sys.executable, "-m", "psu.relay", "--quiet", "--listen", "0", "--to", str(server.port), "--rules", rules]
            how = {"stdout": subprocess.PIPE, "stderr": subprocess.PIPE, "universal_newlines": True}
            with subprocess.Popen(command, **how) as process:
                self.addCleanup(process.kill)
                port = int(process.stdout.readline().rpartition(":")[2])
                with Instrument(port=port, timeout=LONG) as client:
                    self.assertEqual(client.query("A?"), "B?")
                    write(rules, "replace A by C response")
                    process.send_signal(signal.SIGHUP)
                    self.assertTrue(wait_until(lambda: client.query("A?") == "C?"))
                    write(rules, "slow")
                    process.send_signal(signal.SIGHUP)
                    self.assertEqual(process.stderr.readline(), "psu-relay: the rules were read again\n")
                    self.assertRegex(process.stderr.readline(), "psu-relay: the rules stay as they were: .*line 1: ")
                    self.assertEqual(client.query("A?"), "C?")
                process.terminate()
                self.assertEqual(process.wait(LONG), 0)


def write(path, text):
    with open(path, "w", encoding="ascii") as file:
        file.write(text + "\n")


if __name__ == "__main__":
    unittest.main()
