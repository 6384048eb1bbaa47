"""psu-replay: sends the messages of a log to a server again, and compares what it answers with what the log has.

    psu-relay --json --log traffic.log          makes the log: with --json it has all bytes
    psu-replay [--to [HOST:]PORT] [--timeout SECONDS] [--pause SECONDS] traffic.log

A message is sent once all has come that the log has before it, on the session and the connection that it has there, and
after a pause as in the log. What a rule of the relay kept from the server is left out. Prints a line for each answer that
differs, and how many there were. The exit status is 1 where one differs or a session was lost.
"""
from __future__ import annotations

import base64
import collections
import datetime
import json
import math
import sys
import time
from typing import Any, Dict, Iterable, Iterator, List, NamedTuple, Optional

from .channel import connected
from .command_line import plain_parser
from .errors import HislipError
from .frames import CutShort, Frame, FrameError, MessageType, SocketFrames, control_in_words, name_of
from .listening import Endpoint, add_server_option
from .relay_changes import KEPT_BACK
from .relay_log import MADE_BY_RELAY, payload_text

REFUSALS = (MessageType.ERROR, MessageType.FATAL_ERROR)
KINDS = {name_of(kind): int(kind) for kind in MessageType}
END = -1  # the type of what ends a session of the log


class Logged(NamedTuple):
    """A message of a log."""

    line: int
    time: float
    session: int
    is_async: bool
    is_from_client: bool
    seconds: float  # that the response took
    frame: Frame


def logged_messages(lines: Iterable[str]) -> Iterator[Logged]:
    """Returns what was sent and what came, in the order of the log."""
    for number, line in enumerate(lines, 1):
        try:
            item = json.loads(line)
            moment = datetime.datetime.fromisoformat(item["time"]).timestamp()
            if item.get("event") == "ended":
                yield Logged(number, moment, item["session"], False, True, 0, Frame(END))
            # What the server did not get, or did not send, is left out.
            left_out = KEPT_BACK if item.get("from") == "client" else MADE_BY_RELAY
            if "type" in item and not item.get("fault", "").startswith(left_out):
                yield message_of(number, moment, item)
        except (ValueError, KeyError, AttributeError, TypeError):
            raise ValueError(f"line {number} is not of a log of psu-relay --json") from None


def message_of(number: int, moment: float, item: Dict[str, Any]) -> Logged:
    payload = base64.b64decode(item.get("data", ""))
    if len(payload) != item["length"]:
        raise CutShort(f"line {number}: of {item['length']} bytes the log has {len(payload)}")
    kind = KINDS.get(item["type"])
    parameter = item["message_id"] if "message_id" in item else item["parameter"]
    frame = Frame(int(item["type"].split()[-1]) if kind is None else kind, item["control"], parameter, payload)
    is_async, is_from_client = item["connection"] == "asynchronous", item["from"] == "client"
    return Logged(number, moment, item["session"], is_async, is_from_client, item.get("response_ms", 0) / 1000, frame)


class Session:
    """A session with the server in place of one of the log."""

    def __init__(self, to: Endpoint, timeout: float) -> None:
        self._to = to
        self._timeout = timeout
        self._connections = {False: self._connected()}
        self.early: Dict[bool, List[Frame]] = collections.defaultdict(list)  # that came before the log has them
        self._expected = b""  # of a response in several frames
        self._number = 0

    def send(self, is_async: bool, frame: Frame) -> None:
        if frame.kind == MessageType.ASYNC_INITIALIZE:
            self._connections[True] = self._connected()
            frame = frame._replace(parameter=self._number)
        self._connections[is_async].connection.sendall(frame.pack())

    def answer(self, is_async: bool, frame: Frame, seconds: float) -> Optional[str]:
        """Compares what comes with what the log has; returns how they differ."""
        if frame.kind in (MessageType.DATA, MessageType.DATA_END):
            self._expected += frame.payload
            if frame.kind == MessageType.DATA:
                return None
            frame, self._expected = frame._replace(payload=self._expected), b""
        try:
            now = self._answer_like(is_async, frame, time.monotonic() + seconds + self._timeout)
        except TimeoutError:
            return f"{shown(frame)} in the log, nothing now"
        if now.kind == frame.kind == MessageType.INITIALIZE_RESPONSE:
            self._number = now.parameter & 0xFFFF
            now = now._replace(parameter=frame.parameter)
        return None if now == frame else f"{shown(frame)} in the log, {shown(now)} now"

    def close(self) -> None:
        for it in self._connections.values():
            it.connection.close()

    def _connected(self) -> SocketFrames:
        return SocketFrames(connected(self._to.address, self._to.port, self._timeout))

    def _answer_like(self, is_async: bool, frame: Frame, deadline: float) -> Frame:
        """Returns what comes of the same type, and of a response with the same MessageID, or a refusal in its place."""
        early, payload = self.early[is_async], b""
        while True:
            for it in early:
                if it.kind == frame.kind and (it.kind != MessageType.DATA_END or it.parameter == frame.parameter):
                    early.remove(it)
                    return it
            now = self._connections[is_async].receive(deadline - time.monotonic())
            if now is None:
                raise ConnectionError("the server closed the connection")
            payload += now.payload if now.kind == MessageType.DATA else b""
            if now.kind in REFUSALS:
                return now
            if now.kind != MessageType.DATA:
                early.append(now._replace(payload=payload + now.payload))
                payload = b""


def shown(frame: Frame) -> str:
    """Returns a message in words: of a response its text alone."""
    name = "" if frame.kind == MessageType.DATA_END else name_of(frame.kind)
    words = (name, control_in_words(frame.kind, frame.control), payload_text(frame.payload, len(frame.payload)))
    return " ".join(it for it in words if it)


class Replay:
    """The sessions of a log, and what was compared."""

    def __init__(self, to: Endpoint, timeout: float, longest_pause: float) -> None:
        self._to, self._timeout, self._longest_pause = to, timeout, longest_pause
        self._last_time = math.inf  # of the log
        self._sessions: Dict[int, Session] = {}
        self.compared = 0
        self.differing = 0

    def run(self, lines: Iterable[str]) -> None:
        """Sends and compares all; prints what differs."""
        try:
            for logged in logged_messages(lines):
                self._take(logged)
        finally:
            for number in list(self._sessions):
                self._close(number)
        print(f"{self.compared} answers, of which {self.differing} differ")

    def _take(self, logged: Logged) -> None:
        pause, self._last_time = logged.time - self._last_time, logged.time
        if logged.is_from_client:
            time.sleep(max(0, min(pause, self._longest_pause)))
        if logged.frame.kind == MessageType.INITIALIZE:
            self._sessions[logged.session] = Session(self._to, self._timeout)
        session = self._sessions.get(logged.session)
        if session is None:
            return  # its begin is not in the log, or it was lost
        try:
            if logged.frame.kind == END:
                self._close(logged.session)
            elif logged.is_from_client:
                session.send(logged.is_async, logged.frame)
            else:
                self.compared += logged.frame.kind != MessageType.DATA
                difference = session.answer(logged.is_async, logged.frame, logged.seconds)
                if difference is not None:
                    self._say(f"line {logged.line}, session {logged.session}: {difference}")
        except (OSError, FrameError) as fault:
            self._say(f"line {logged.line}, session {logged.session} was lost: {fault}")
            self._sessions.pop(logged.session).close()

    def _close(self, number: int) -> None:
        session = self._sessions.pop(number)
        session.close()
        for frame in [*session.early[False], *session.early[True]]:
            self._say(f"session {number}: not in the log: {shown(frame)}")

    def _say(self, text: str) -> None:
        self.differing += 1
        print(text, flush=True)


def main(words: Optional[List[str]] = None) -> int:
    """Runs the program; returns its exit status: 1 where an answer differs, 2 where the log can't be read."""
    parser = plain_parser(__doc__, "psu-replay")
    add_server_option(parser)
    parser.add_argument("--timeout", type=float, default=5.0, help="the longest wait for a response in seconds, beyond "
                        "what it took in the log (5)")
    parser.add_argument("--pause", type=float, default=1.0, help="the longest pause before a message in seconds (1)")
    parser.add_argument("log", metavar="LOG", help="a file that psu-relay wrote with --json")
    arguments = parser.parse_args(words)
    replay = Replay(arguments.to, arguments.timeout, arguments.pause)
    try:
        with open(arguments.log, encoding="utf-8") as file:
            replay.run(file)
    except (CutShort, HislipError, OSError, ValueError) as fault:
        print(f"psu-replay: {fault}", file=sys.stderr)
        return 2
    return 1 if replay.differing else 0


if __name__ == "__main__":
    sys.exit(main())
