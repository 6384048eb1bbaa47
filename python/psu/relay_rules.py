"""The rules of psu-relay: which messages get which fault. docs/BENCH.md is their guide.

A rule is a line: an action with its value, a subject, and conditions.

    delay 2 response to "MEAS:VOLT?" times 1
    drop-before command with "*SAV" number 3
    refuse session 4
"""
from __future__ import annotations

import dataclasses
import enum
import random
import re
import shlex
from typing import Callable, Dict, Iterable, List, NamedTuple, Optional, Tuple, Union

from .frames import MessageType, name_of


class RuleError(Exception):
    """A rule that can't be read; the text says which word is wrong."""


class Side(enum.Enum):
    """Who sent a message."""

    CLIENT = "client"
    SERVER = "server"


class Value(NamedTuple):
    """The value of an action: its limits, and whether it may be missing."""

    what: str
    least: float
    most: float
    is_optional: bool = False


SECONDS = Value("seconds", 0, 86400)
CODE = Value("a code", 0, 255, True)


class Action(enum.Enum):
    """What happens to a message to which a rule applies: the word in the rule, its value, and what the log says."""

    needs: Optional[Value]
    text: str

    def __new__(cls, word: str, needs: Optional[Value] = None, text: str = "") -> Action:
        made = object.__new__(cls)
        made._value_, made.needs, made.text = word, needs, text
        return made

    DELAY = "delay", SECONDS, "delayed {} s"
    HOLD = "hold", None, "held back"
    DROP_BEFORE = "drop-before", None, "connection dropped before it"
    DROP_AFTER = "drop-after", None, "connection dropped after it"
    CUT = "cut", Value("a number of bytes", 0, 1 << 32, True), "cut after {} bytes, connection dropped"
    REFUSE = "refuse", None, "session refused"
    STOP_READING = "stop-reading", SECONDS._replace(is_optional=True), "nothing more is read"
    FATAL_ERROR = "fatal-error", CODE, "FatalError instead, connection dropped"
    ERROR = "error", CODE, "Error instead"
    REPEAT = "repeat", SECONDS, "repeated after {} s"
    CORRUPT = "corrupt", Value("a number of bytes", 1, 65536, True)
    REPLACE = "replace"
    NOISE = "noise", Value("a standard deviation", 0, 1e9)
    TRICKLE = "trickle", None, "in pieces, each after {} s"


class Seen(NamedTuple):
    """What a rule looks at: a message, or the first frame of one that has several."""

    side: Side
    kind: int
    text: bytes
    query: bytes  # where the message is a response: the message that it responds to
    session: int


class Counts:
    """How often a rule was considered and applied: of all sessions, or of one."""

    def __init__(self, seed: str) -> None:
        self.matched = 0
        self.applied = 0
        self.random = random.Random(seed)


@dataclasses.dataclass
class Rule:
    """A rule as it was written. Where several messages match, `number`, `skip`, `every` and the others choose."""

    line: str
    name: str
    action: Action
    value: Optional[float] = None
    old: bytes = b""  # what is replaced
    new: bytes = b""
    size: int = 0  # of the pieces in which a message trickles
    side: Optional[Side] = None
    kinds: Optional[Tuple[int, ...]] = None
    text: bytes = b""
    query: bytes = b""
    pattern: Optional["re.Pattern[bytes]"] = None
    session: int = 0
    number: int = 0
    skip: int = 0
    every: int = 1
    times: Optional[int] = None
    probability: float = 1.0
    is_per_session: bool = False

    def matches(self, seen: Seen) -> bool:
        """Returns whether the message is one of those that the rule is about; counts are another matter."""
        return (
            self.side in (None, seen.side)
            and (self.kinds is None or seen.kind in self.kinds)
            and self.session in (0, seen.session)
            and (not self.text or self.text in seen.text.upper())
            and (not self.query or self.query in seen.query.upper())
            and (self.pattern is None or self.pattern.search(seen.text) is not None)
        )

    def count(self, counts: Counts) -> bool:
        """Counts a message that matches; returns whether the rule applies to this one."""
        counts.matched += 1
        position = counts.matched - self.skip
        chosen = position > 0 and position % self.every == 0 and self.number in (0, position)
        if not chosen or self.times is not None and counts.applied >= self.times:
            return False
        if counts.random.random() >= self.probability:
            return False
        counts.applied += 1
        return True

    def __str__(self) -> str:
        return f"{self.name} ({self.line})"


class Decision(NamedTuple):
    """A rule that a function of Python decides: it returns an action with its value, as "delay 2", or None."""

    name: str
    decide: Callable[[Seen], Optional[str]]

    @property
    def line(self) -> str:
        return f"the function {getattr(self.decide, '__name__', 'without a name')}"


class Rules:
    """All rules, in order. The first that applies to a message decides; the later ones do not count it."""

    def __init__(self, rules: Iterable[Union[Rule, Decision]], seed: int) -> None:
        self.rules = list(rules)
        self.seed = seed
        self._counts: Dict[int, Counts] = {}
        self._unused = set(range(len(self.rules)))
        self.generator = random.Random(f"{seed}/changes")  # of the changed bytes and numbers

    def choose(self, seen: Seen, of_session: Dict[int, Counts]) -> Optional[Rule]:
        """Returns the rule that applies to a message. `of_session` has the counts of its session."""
        for place, rule in enumerate(self.rules):
            chosen: Optional[Rule]
            if isinstance(rule, Decision):
                text = rule.decide(seen)
                chosen = None if text is None else parse_action(text, rule.name)
            else:
                is_counted = rule.matches(seen) and rule.count(self._counts_of(place, rule, seen.session, of_session))
                chosen = rule if is_counted else None
            if chosen is not None:
                self._unused.discard(place)
                return chosen
        return None

    def unused(self) -> "List[Union[Rule, Decision]]":
        """Returns the rules that never applied, in order."""
        return [self.rules[place] for place in sorted(self._unused)]

    def _counts_of(self, place: int, rule: Rule, session: int, of_session: Dict[int, Counts]) -> Counts:
        # Each has random numbers of its own, so that a session's faults do not depend on what others send meanwhile.
        counts = of_session if rule.is_per_session else self._counts
        if place not in counts:
            counts[place] = Counts(f"{self.seed}/{place}/{session if rule.is_per_session else 'all'}")
        return counts[place]


# Reading


Subject = Tuple[Optional[Side], Optional[Tuple[int, ...]]]
DATA = (int(MessageType.DATA), int(MessageType.DATA_END))
SUBJECTS: Dict[str, Subject] = {
    "command": (Side.CLIENT, DATA),
    "response": (Side.SERVER, DATA),
    "client": (Side.CLIENT, None),
    "server": (Side.SERVER, None),
    **{name_of(kind).lower(): (None, (int(kind),)) for kind in MessageType},
}
# These actions are for one type of message, so that their rules need no subject. Another message may be repeated too.
ONLY_KIND: Dict[Action, MessageType] = {
    Action.REFUSE: MessageType.INITIALIZE,
    Action.REPEAT: MessageType.ASYNC_SERVICE_REQUEST,
}


class Words:
    """The words of a line, read one after another."""

    def __init__(self, line: str) -> None:
        try:
            self._words = shlex.split(line, comments=True)
        except ValueError:
            raise RuleError("a quote is missing") from None

    def __bool__(self) -> bool:
        return bool(self._words)

    def next(self) -> str:
        """Returns the next word, which stays; an empty one at the end."""
        return self._words[0] if self._words else ""

    def take(self, what: str) -> str:
        if not self._words:
            raise RuleError(f"{what} is missing at the end")
        return self._words.pop(0)

    def number(self, what: str, least: float, most: float) -> float:
        word = self.take(what)
        try:
            value = float(word)
        except ValueError:
            value = -1
        if not least <= value <= most:
            raise RuleError(f"{word!r} is not {what} from {least:g} to {most:g}")
        return value

    def count(self, what: str = "a number") -> int:
        value = self.number(what, 1, 1_000_000_000)
        if value != int(value):
            raise RuleError(f"{what} is a whole number")
        return int(value)

    def probability(self) -> float:
        return self.number("a probability", 0, 1)

    def text(self, what: str = "a text") -> bytes:
        return self.take(what).encode("utf-8", "surrogateescape")

    def any_case(self) -> bytes:
        return self.text().upper()

    def pattern(self) -> "re.Pattern[bytes]":
        try:
            return re.compile(self.text("a pattern"))
        except re.error as fault:
            raise RuleError(f"the pattern is not one of Python's: {fault}") from None


def parse_rule(line: str, name: str) -> Rule:
    """Reads a rule; raises RuleError where it is not one."""
    words = Words(line)
    rule = _read_action(line, name, words)
    _read_subject(rule, words)
    while words:
        _read_condition(rule, words)
    return rule


def parse_action(text: str, name: str) -> Rule:
    """Reads an action and its value alone; raises RuleError where it is none."""
    words = Words(text)
    rule = _read_action(text, name, words)
    if words:
        raise RuleError(f"{text!r} has more than an action and its value")
    return rule


def _read_action(line: str, name: str, words: Words) -> Rule:
    try:
        action = Action(words.take("an action"))
    except ValueError:
        raise RuleError(f"the first word is one of {', '.join(action.value for action in Action)}") from None
    rule = Rule(line.strip(), name, action)
    _read_value(rule, words)
    return rule


def _read_value(rule: Rule, words: Words) -> None:
    if rule.action is Action.REPLACE:
        rule.old = words.text("the text to be replaced")
        if not rule.old or words.take("'by'") != "by":
            raise RuleError("a text is replaced 'by' another one: replace OLD by NEW")
        rule.new = words.text("the new text")
    elif rule.action is Action.TRICKLE:
        rule.size = words.count("a number of bytes")
        rule.value = words.number(*SECONDS[:3])
    value = rule.action.needs
    if value is not None and (re.fullmatch(r"[0-9.]+", words.next()) or not value.is_optional):
        rule.value = words.number(value.what, value.least, value.most)


def _read_subject(rule: Rule, words: Words) -> None:
    only = ONLY_KIND.get(rule.action)
    has_subject = rule.action is Action.REPEAT and words.next().lower() in SUBJECTS
    if only is not None and not has_subject:
        rule.kinds = (int(only),)
        return
    word = words.take("what the rule is about")
    if word.lower() not in SUBJECTS:
        raise RuleError(f"{word!r} is not command, response, client, server or a message type")
    rule.side, rule.kinds = SUBJECTS[word.lower()]


def _read_condition(rule: Rule, words: Words) -> None:
    word = words.take("a condition")
    if word not in CONDITIONS:
        raise RuleError(f"{word!r} is not one of {', '.join(CONDITIONS)}")
    if word == "to" and rule.side is not Side.SERVER:
        raise RuleError("'to' is for a response")
    field, read = CONDITIONS[word]
    setattr(rule, field, read(words))


# The field of a rule that each condition sets, and what reads its value.
CONDITIONS: Dict[str, Tuple[str, Callable[[Words], object]]] = {
    "to": ("query", Words.any_case),
    "with": ("text", Words.any_case),
    "matching": ("pattern", Words.pattern),
    **{field: (field, Words.count) for field in ("session", "number", "skip", "every", "times")},
    "probability": ("probability", Words.probability),
    "per-session": ("is_per_session", lambda _: True),
}


RuleText = Union[str, Rule, Callable[[Seen], Optional[str]]]  # a line, also one that is read, or a function that decides


def parsed_rules(rules: Iterable[RuleText], seed: int) -> Rules:
    """Returns rules by their lines and functions."""
    parsed: List[Union[Rule, Decision]] = []
    for number, rule in enumerate(rules, 1):
        name = f"rule {number}"
        if isinstance(rule, Rule):
            parsed.append(rule)
        else:
            parsed.append(parse_rule(rule, name) if isinstance(rule, str) else Decision(name, rule))
    return Rules(parsed, seed)


def parse_rules(
    lines: Iterable[str], name: str = "rule", where: Callable[[int, str], str] = "line {}".format
) -> List[Rule]:
    """Reads rules, of which a line may be empty or a comment that begins with `#`; `where` says which line is wrong."""
    rules = []
    for number, line in enumerate(lines, 1):
        try:
            if Words(line):
                rules.append(parse_rule(line, f"{name} {number}"))
        except RuleError as fault:
            raise RuleError(f"{where(number, line)}: {fault}") from None
    return rules
