"""What the client and the server of this package raise, beside the OSErrors of sockets and files."""
from __future__ import annotations

import enum
from typing import List, NamedTuple, Optional

from .frames import ERRORS, FATAL_ERRORS


class HislipError(Exception):
    """The base of what a client raises."""


class ServerError(HislipError):
    """The server's Error: it ignored a message, and the session continues."""

    name = "Error"
    texts = ERRORS

    def __init__(self, code: int, text: str = "") -> None:
        super().__init__(f"{self.name} {code} of the server: {text or self.texts.get(code, 'unknown')}")
        self.code = code
        self.text = text


class FatalError(ServerError):
    """The server's FatalError: the session has ended."""

    name = "FatalError"
    texts = FATAL_ERRORS


class ProtocolError(HislipError):
    """The server sent what HiSLIP does not allow here."""


class Timeout(HislipError, TimeoutError):
    """Nothing came in time. The text says of what, in how many seconds, and whether the session continues.

    A message that was sent may still be executed: `Instrument.clear` discards it and its response.
    `session_continues` is None where it is no session that was waited for.
    """

    ENDS = {None: "", True: "; the session continues", False: "; this client closed the session"}

    def __init__(self, text: str, session_continues: Optional[bool] = None) -> None:
        super().__init__(text + self.ENDS[session_continues])
        self.session_continues = session_continues


class Cleared(HislipError):
    """A device clear by another thread discarded this thread's message or its response."""


class ConnectionLost(HislipError, ConnectionError):
    """The server's end of a connection was closed."""


class SessionClosed(HislipError, ConnectionError):
    """This client closed the session, and the message says why."""


class LockRefusal(enum.Enum):
    """Why a lock or a release was refused. HiSLIP has one code for all; the client knows what its session holds."""

    EXCLUSIVE_HELD = "this session holds the exclusive lock already"
    SHARED_HELD = "this session holds a shared lock already"
    REQUEST_WAITS = "another lock request of this session waits"
    KEY_TOO_LONG = "the key of a shared lock has at most 256 bytes"
    NONE_HELD = "this session holds no lock"
    UNKNOWN = "the server does not say why, and this session holds no lock of that kind"


class LockError(HislipError):
    """A lock or a release was refused; `reason` says why. No lock was changed."""

    def __init__(self, reason: LockRefusal) -> None:
        super().__init__(f"refused: {reason.value}")
        self.reason = reason


class ScpiError(NamedTuple):
    """An entry of the error queue."""

    number: int
    text: str

    def __str__(self) -> str:
        return f'{self.number},"{self.text}"'


class InstrumentError(HislipError):
    """The instrument's errors, the oldest first; `number` is that of the newest, which the last message caused.

    `response` has what the message was answered all the same, without the line feed at its end; None where nothing.
    Where a query has no response and the error queue is empty, `errors` is empty and `number` is 0: it was no query, or
    another session read its error. All sessions share the queue, so with several clients an error may be another's.
    """

    def __init__(self, errors: List[ScpiError], message: str = "", response: Optional[bytes] = None) -> None:
        listed = "; ".join(map(str, errors)) or "no response, and no error in the queue"
        super().__init__(f"{message}: {listed}" if message else listed)
        self.errors = errors
        self.number = errors[-1].number if errors else 0
        self.response = response


class ServerNotStarted(RuntimeError):
    """The server program did not start; the message has what it wrote to standard error."""
