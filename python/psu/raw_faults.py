"""What the rules of psu-socket do to the messages and responses of a raw client."""
from __future__ import annotations

import asyncio
import collections
from typing import Dict, Optional

from .frames import MessageType
from .relay_changes import CHANGES, changed
from .relay_rules import Action, Counts, Rule, RuleError, Rules, Seen, Side

KEPT_TEXTS = 64  # of a client's messages, whose responses are still to come
KEPT_TEXT = 200  # bytes of each
OF_BOTH = (Action.DELAY, Action.HOLD, Action.DROP_BEFORE, Action.DROP_AFTER, *CHANGES)
OF_RESPONSES = (Action.CUT, Action.TRICKLE)


class Disconnected(Exception):
    """A rule ends the connection."""


def check_rules(rules: Rules) -> None:
    """Raises RuleError where a rule is about what a raw socket does not have."""
    for rule in rules.rules:
        is_response = isinstance(rule, Rule) and rule.side is Side.SERVER
        if isinstance(rule, Rule) and rule.action not in OF_BOTH + (OF_RESPONSES if is_response else ()):
            raise RuleError(f"{rule.line!r}: a raw socket has no {rule.action.value} for that")


class RawFaults:
    """The rules for one client."""

    def __init__(self, rules: Rules, session: int) -> None:
        self._rules = rules
        self._session = session
        self._counts: Dict[int, Counts] = {}
        self._texts: "collections.OrderedDict[int, bytes]" = collections.OrderedDict()
        self._chosen: Dict[Side, Optional[Rule]] = {}  # for the message of each side that is passed on

    def note_text(self, message_id: int, text: bytes) -> None:
        """Notes the text of a message, for the rules about the response to it."""
        self._texts[message_id] = text[:KEPT_TEXT]
        if len(self._texts) > KEPT_TEXTS:
            self._texts.popitem(last=False)

    async def take_command(self, data: bytes) -> Optional[bytes]:
        """Returns a piece of a message as it is passed on; None where it is not."""
        return self._changed(await self._rule_for(Side.CLIENT, data, b""), data)

    async def take_response(self, writer: asyncio.StreamWriter, message_id: int, data: bytes) -> None:
        """Passes on a part of a response to the client."""
        rule = await self._rule_for(Side.SERVER, data, self._texts.get(message_id, b""))
        content = self._changed(rule, data) or b""
        size, pause = len(content), 0.0
        if rule is not None and rule.action is Action.CUT:
            writer.write(content[: size // 2 if rule.value is None else min(int(rule.value), size - 1)])
            raise Disconnected(str(rule))
        if rule is not None and rule.action is Action.TRICKLE:
            size, pause = rule.size, rule.value or 0
        for at in range(0, len(content), max(size, 1)):
            writer.write(content[at : at + size])
            await writer.drain()
            if pause:
                await asyncio.sleep(pause)

    def end_message(self, side: Side) -> None:
        """A message of this side was passed on whole."""
        self._drop(self._chosen.pop(side, None), Action.DROP_AFTER)

    async def _rule_for(self, side: Side, data: bytes, query: bytes) -> Optional[Rule]:
        """Returns the rule for a message, which its first piece chooses."""
        if side not in self._chosen:
            seen = Seen(side, MessageType.DATA_END, data, query, self._session)
            rule = self._chosen[side] = self._rules.choose(seen, self._counts)
            self._drop(rule, Action.DROP_BEFORE)
            if rule is not None and rule.action is Action.DELAY:
                await asyncio.sleep(rule.value or 0)
        return self._chosen[side]

    def _changed(self, rule: Optional[Rule], data: bytes) -> Optional[bytes]:
        if rule is None:
            return data
        return None if rule.action is Action.HOLD else changed(rule, data, self._rules.generator)

    def _drop(self, rule: Optional[Rule], action: Action) -> None:
        if rule is not None and rule.action is action:
            raise Disconnected(str(rule))
