"""Tests of the rules of psu-relay: how lines are read, and which messages a rule applies to."""
import unittest

from psu.frames import MessageType
from psu.relay_rules import Action, RuleError, Rules, Seen, Side, parse_rule, parse_rules


def command(text, session=1):
    return Seen(Side.CLIENT, MessageType.DATA_END, text, b"", session)


def response(text, query, session=1):
    return Seen(Side.SERVER, MessageType.DATA_END, text, query, session)


def applied(line, messages, seed=0):
    """Returns for each message whether the rule applies to it."""
    rules, counts = Rules([parse_rule(line, "rule 1")], seed), {}
    return [rules.choose(seen, counts.setdefault(seen.session, {})) is not None for seen in messages]


class ReadingTest(unittest.TestCase):
    def test_action_value_subject_conditions(self):
        rule = parse_rule('delay 1.5 response to "MEAS:VOLT?" session 2 times 3  # slow', "rule 1")
        self.assertEqual((rule.action, rule.value, rule.side), (Action.DELAY, 1.5, Side.SERVER))
        self.assertEqual(rule.kinds, (MessageType.DATA, MessageType.DATA_END))
        self.assertEqual((rule.query, rule.session, rule.times), (b"MEAS:VOLT?", 2, 3))

    def test_a_message_type_is_a_subject(self):
        self.assertEqual(parse_rule("hold AsyncStatusResponse", "").kinds, (MessageType.ASYNC_STATUS_RESPONSE,))

    def test_refuse_and_repeat_need_no_subject(self):
        self.assertEqual(parse_rule("refuse skip 3", "").kinds, (MessageType.INITIALIZE,))
        self.assertEqual(parse_rule("repeat 2", "").kinds, (MessageType.ASYNC_SERVICE_REQUEST,))

    def test_values_may_be_missing_where_they_have_a_default(self):
        for line in ("cut response", "stop-reading client", "fatal-error command", "error command"):
            self.assertIsNone(parse_rule(line, "").value, line)

    def test_each_wrong_word_is_named(self):
        for line, text in (
            ("slow response", "the first word is one of"),
            ("delay response", "'response' is not seconds"),
            ("delay -1 response", "'-1' is not seconds"),
            ("hold", "what the rule is about is missing"),
            ("hold answer", "'answer' is not command"),
            ("hold response twice", "'twice' is not one of"),
            ("hold response times", "a number is missing"),
            ("hold response times 0", "'0' is not a number from 1"),
            ("hold response times 1.5", "whole number"),
            ("hold response probability 1.1", "'1.1' is not a probability"),
            ("hold command to X", "'to' is for a response"),
            ('hold command with "X', "a quote is missing"),
            ("hold command matching (", "the pattern"),
            ("error 256 command", "'256' is not a code"),
        ):
            with self.subTest(line), self.assertRaises(RuleError) as caught:
                parse_rule(line, "")
            self.assertIn(text, str(caught.exception))

    def test_a_file_has_comments_and_names_its_lines(self):
        rules = parse_rules("# a bench\n\nhold response  # all\ndrop-before command\n".splitlines())
        self.assertEqual([rule.name for rule in rules], ["rule 3", "rule 4"])
        for text in ("hold response\nhold nothing\n", 'hold response\nhold "x\n'):
            with self.assertRaisesRegex(RuleError, "line 2"):
                parse_rules(text.splitlines())


class ChoosingTest(unittest.TestCase):
    def test_sides(self):
        both = [command(b"VOLT?\n"), response(b"1\n", b"VOLT?\n")]
        for line, expected in (
            ("hold command", [True, False]),
            ("hold response", [False, True]),
            ("hold client", [True, False]),
            ("hold server", [False, True]),
            ("hold DataEnd", [True, True]),
            ("hold Trigger", [False, False]),
        ):
            self.assertEqual(applied(line, both), expected, line)

    def test_texts_ignore_case(self):
        messages = [command(b"volt 5\n"), command(b"CURR 1\n")]
        self.assertEqual(applied("hold command with VOLT", messages), [True, False])
        self.assertEqual(applied(r"hold command matching '^CURR \d'", messages), [False, True])

    def test_a_response_is_found_by_its_query(self):
        messages = [response(b"1\n", b"MEAS:VOLT?\n"), response(b"2\n", b"MEAS:CURR?\n")]
        self.assertEqual(applied('hold response to "meas:curr?"', messages), [False, True])

    def test_session(self):
        messages = [command(b"A", session) for session in (1, 2, 3)]
        self.assertEqual(applied("hold command session 2", messages), [False, True, False])

    def test_counts(self):
        messages = [command(b"A")] * 6
        for line, expected in (
            ("number 3", "..x..."),
            ("skip 4", "....xx"),
            ("every 2", ".x.x.x"),
            ("times 2", "xx...."),
            ("skip 1 every 2 times 2", "..x.x."),
            ("skip 1 number 2", "..x..."),
        ):
            found = "".join("x" if one else "." for one in applied(f"hold command {line}", messages))
            self.assertEqual(found, expected, line)

    def test_counts_are_of_all_sessions_or_of_each(self):
        messages = [command(b"A", session) for session in (1, 2, 1, 2)]
        self.assertEqual(applied("hold command number 2", messages), [False, True, False, False])
        self.assertEqual(applied("hold command number 2 per-session", messages), [False, False, True, True])

    def test_probability_is_that_of_the_seed(self):
        messages = [command(b"A")] * 1000
        one = applied("hold command probability 0.25", messages, seed=1)
        self.assertEqual(one, applied("hold command probability 0.25", messages, seed=1))
        self.assertNotEqual(one, applied("hold command probability 0.25", messages, seed=2))
        self.assertTrue(200 < sum(one) < 300)
        self.assertEqual(sum(applied("hold command probability 0", messages)), 0)
        self.assertEqual(sum(applied("hold command probability 1", messages)), 1000)

    def test_probability_of_a_session_does_not_depend_on_others(self):
        line = "hold command probability 0.5 per-session"
        alone = applied(line, [command(b"A", 2)] * 50)
        mixed = applied(line, [command(b"A", 1 + place % 2) for place in range(100)])
        self.assertEqual(alone, mixed[1::2])

    def test_the_first_rule_that_applies_decides(self):
        rules = Rules(parse_rules("hold command times 1\ndrop-before command number 1\n".splitlines()), 0)
        chosen = [rules.choose(command(b"A"), {}) for _ in range(3)]
        self.assertEqual([rule and rule.name for rule in chosen], ["rule 1", "rule 2", None])


if __name__ == "__main__":
    unittest.main()
