"""Tests that docs/BENCH.md, the guide of psu-relay and psu-socket, says what the programs do."""
import os
import re
import unittest

from psu import relay, relay_rules

GUIDE = os.path.join(os.path.dirname(os.path.abspath(__file__)), "..", "..", "docs", "BENCH.md")
BLOCK = re.compile(r"^```(\w+)\n(.*?)^```", re.MULTILINE | re.DOTALL)
NAME = re.compile(r"`([a-z-]+)")


def read_guide():
    with open(GUIDE, encoding="utf-8") as file:
        return file.read()


def words_of_table(guide, heading):
    """Returns the names in the first column of the table with this heading."""
    table = guide[guide.index(heading):].split("\n\n")[0]
    return [name for row in table.splitlines()[2:] for name in NAME.findall(row.split("|")[1])]


@unittest.skipUnless(os.path.exists(GUIDE), "the guide is not beside the package")
class GuideTest(unittest.TestCase):
    def setUp(self):
        self.guide = read_guide()

    def test_each_rule_in_it_can_be_read(self):
        actions = tuple(action.value for action in relay_rules.Action)
        lines = [line for kind, text in BLOCK.findall(self.guide) if kind == "text" for line in text.splitlines()
                 if line.startswith(actions)]
        lines += re.findall(r"--rule '([^']*)'", self.guide)
        self.assertGreater(len(lines), 8)
        for line in lines:
            relay_rules.parse_rule(line, "")

    def test_it_lists_every_action_and_condition(self):
        actions = words_of_table(self.guide, "| action |")
        self.assertEqual(sorted(actions), sorted(action.value for action in relay_rules.Action))
        conditions = words_of_table(self.guide, "| condition |")
        self.assertEqual(sorted(conditions), sorted(relay_rules.CONDITIONS))

    def test_it_lists_every_option(self):
        options = {word for action in relay.make_parser()._actions for word in action.option_strings}
        table = self.guide[self.guide.index("| option |"):].split("\n\n")[0]
        named = set(re.findall(r"`(--[a-z-]+)", table))
        self.assertEqual(named, options - {"-h", "--help"})

    def test_its_numbers_are_those_of_the_programs(self):
        for text in (f"127.0.0.1:{relay.DEFAULT_PORT}", "20,000 lines wait", "At most 128 connections"):
            self.assertIn(text, self.guide)


if __name__ == "__main__":
    unittest.main()
