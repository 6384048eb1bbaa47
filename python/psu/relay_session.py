"""A session as psu-relay sees it: its two connections, what waits for a response, and which messages are one.

Nothing here sends or receives: relay.py does.
"""
from __future__ import annotations

import collections
import itertools
import re
from typing import TYPE_CHECKING, Deque, Dict, List, NamedTuple, Optional

from .blocks import BLOCK, length_in
from .frames import REQUEST_OF, Header, MessageType
from .relay_rules import Action, Counts, Rule

if TYPE_CHECKING:
    from .relay_connection import Connection

KEPT_QUERIES = 64  # of a session; beyond it the oldest are no longer known
KEPT_TEXT = 200  # bytes of a query's text

REQUESTS = frozenset(REQUEST_OF.values())
# What a rule does to every frame of a message that is sent as several.
ON_EACH_FRAME = (Action.HOLD, Action.DROP_AFTER, Action.REPLACE, Action.NOISE, Action.TRICKLE)


class Query(NamedTuple):
    """A transmission of the client, whose response is expected."""

    message_id: int
    text: bytes
    moment: float


STRING_OR_BLOCK = re.compile(b"\"[^\"]*\"|'[^']*'|" + BLOCK.pattern)


def asks(text: bytes) -> bool:
    """Returns whether a message has a `?` outside of strings and blocks, as queries have."""
    at = 0
    found = STRING_OR_BLOCK.search(text)
    while found is not None and b"?" not in text[at : found.start()]:
        at = found.end() + length_in(found)
        found = STRING_OR_BLOCK.search(text, at)
    return b"?" in text[at : found.start() if found else len(text)]


class Session:
    """A session: its number in the log, and its messages that wait for a response."""

    def __init__(self, number: int) -> None:
        self.number = number
        self.counts: Dict[int, Counts] = {}
        self.messages = 0
        self.end_reason = ""
        self._connections: List[Connection] = []
        self._parts = b""  # the begin of a transmission that is not whole yet
        self._queries: "collections.OrderedDict[int, Query]" = collections.OrderedDict()
        self._unanswered: Dict[int, Query] = {}
        self._requests: Dict[int, Deque[float]] = {}

    def end(self, reason: str) -> None:
        """Notes why the session ends; the first reason counts. Its connections no longer wait for a rule."""
        self.end_reason = self.end_reason or reason
        for connection in self._connections:
            connection.wake()

    def join(self, connection: Connection) -> None:
        self._connections.append(connection)

    def leave(self, connection: Connection) -> bool:
        """Removes a connection; returns whether it was the last one."""
        self._connections.remove(connection)
        return not self._connections

    def close(self) -> None:
        """Closes all its connections."""
        for connection in list(self._connections):
            connection.close()

    def query_of(self, message_id: int) -> bytes:
        """Returns the text of the client's message with this MessageID, as far as it is known."""
        query = self._queries.get(message_id)
        return query.text if query is not None else b""

    def note_request(self, header: Header, payload: bytes, now: float) -> None:
        """Notes a message of the client that has a response."""
        kind = header.kind
        if kind in (MessageType.DATA, MessageType.DATA_END):
            self._parts = (self._parts + payload[:KEPT_TEXT])[:KEPT_TEXT]
        if kind == MessageType.DATA_END:
            self._note_query(Query(header.parameter, self._parts, now))
            self._parts = b""
        elif kind == MessageType.DEVICE_CLEAR_COMPLETE:
            self._parts = b""
        if kind in REQUESTS:
            self._requests.setdefault(kind, collections.deque(maxlen=KEPT_QUERIES)).append(now)

    def forget_queries(self) -> None:
        """Forgets what was sent before a device clear: nothing responds to it any more."""
        self._queries.clear()
        self._unanswered.clear()

    def note_response(self, header: Header, now: float) -> Optional[float]:
        """Returns the seconds since the message that this one of the server responds to, where it is known."""
        if header.kind in (MessageType.DATA, MessageType.DATA_END):
            query = self._queries.get(header.parameter)
            return now - query.moment if query is not None else None
        waiting = self._requests.get(REQUEST_OF.get(header.kind, -1))
        return now - waiting.popleft() if waiting else None

    def note_delivered(self, header: Header) -> None:
        """Notes that a message of the server was passed on to the client."""
        if header.kind == MessageType.DATA_END:
            self._unanswered.pop(header.parameter, None)

    def unanswered(self) -> List[Query]:
        """Returns the queries without a response, the oldest first."""
        return list(self._unanswered.values())

    def _note_query(self, query: Query) -> None:
        self._queries[query.message_id] = query
        if asks(query.text):
            self._unanswered[query.message_id] = query
        if len(self._queries) > KEPT_QUERIES:
            oldest, _ = self._queries.popitem(last=False)
            self._unanswered.pop(oldest, None)


class Transmissions:
    """The frames in one direction of a connection: which begin a message, and what a rule does to the rest of it."""

    def __init__(self) -> None:
        self.rule: Optional[Rule] = None
        self._is_inside = False

    def begins_message(self, header: Header) -> bool:
        """Notes a frame; returns whether it begins a message, so that rules look at it."""
        is_data = header.kind in (MessageType.DATA, MessageType.DATA_END)
        begins = not (is_data and self._is_inside)
        if is_data:
            self._is_inside = header.kind == MessageType.DATA
        elif header.kind in (MessageType.DEVICE_CLEAR_COMPLETE, MessageType.DEVICE_CLEAR_ACKNOWLEDGE):
            self._is_inside = False
        return begins

    def rest_action(self) -> Optional[Action]:
        """Returns what the rule of the message's first frame does to the frames after it."""
        action = self.rule.action if self.rule is not None else None
        if action is Action.ERROR:
            return Action.HOLD
        return action if action in ON_EACH_FRAME else None


class Sessions(Dict[int, Session]):
    """All sessions that are open, by the number that the server gave each: a second connection finds its own by that."""

    def __init__(self) -> None:
        super().__init__()
        self._numbers = itertools.count(1)

    def open(self) -> Session:
        return Session(next(self._numbers))

    def remove(self, session: Session) -> None:
        for number in [number for number, one in self.items() if one is session]:
            del self[number]
