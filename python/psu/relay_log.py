"""The log of psu-relay: a line a message, as text or as JSON, written by a thread so that the traffic never waits.

    21:15:12.514301    1 --> DataEnd             ffffff00              RMT-delivered  MEAS:VOLT?\\n
    21:15:12.514822    1 <-- DataEnd             ffffff00     +0.5 ms  5.250\\n
"""
from __future__ import annotations

import base64
import datetime
import functools
import json
import logging.handlers
import queue
import threading
import time
from typing import IO, Any, Callable, Dict, NamedTuple, Optional, Union

from .blocks import BLOCK, length_in
from .frames import WITH_MESSAGE_ID, MessageType, control_in_words, name_of

SHOWN_PAYLOAD = 120  # the most characters of a payload in a line
SHOWN_BLOCK = 16  # the most bytes of a block
WAITING_LINES = 20_000  # beyond so many lines that are not written yet, lines are left out and counted
BATCH_SECONDS = 0.02
MADE_BY_RELAY = "sent by the relay"  # how the fault of an entry begins that no server sent


class Entry(NamedTuple):
    """What the log says of a message."""

    time: float
    session: int  # 0 where the connection belongs to no session yet
    is_async: bool
    is_from_client: bool
    kind: int
    control: int
    parameter: int
    length: int
    payload: bytes  # its first bytes
    seconds: Optional[float]  # since the message that this one responds to
    fault: str  # what a rule does to it; empty where nothing


class Event(NamedTuple):
    """What the log says of a connection, a session or the relay."""

    time: float
    session: int
    name: str
    text: str


# Payloads


def payload_text(payload: bytes, length: int) -> str:
    """Returns a payload as text: bytes that are no characters as `\\x00`, blocks and long texts cut short.

    `payload` has the first bytes, and `length` is the number of all.
    """
    text, at = "", 0
    found = BLOCK.search(payload)
    while found is not None and len(text) <= SHOWN_PAYLOAD:
        size = length_in(found)
        content = payload[found.end() : found.end() + size]
        if size > SHOWN_BLOCK or len(content) < size:
            content = b"%b..(%d bytes)" % (content[:SHOWN_BLOCK], size)
        text += _escaped(payload[at : found.end()] + content)
        at = found.end() + size
        found = BLOCK.search(payload, at)
    rest = payload[at : at + SHOWN_PAYLOAD]
    text += _escaped(rest)
    shown = at + len(rest)
    is_last_byte_alone = len(payload) < shown == length - 1  # the line feed after a block, whose bytes are left out
    if len(text) > SHOWN_PAYLOAD or shown < length and not is_last_byte_alone:
        return f"{text[:SHOWN_PAYLOAD]}..({length} bytes)"
    return text


_ESCAPES: Dict[int, str] = {byte: f"\\x{byte:02x}" for byte in [*range(32), *range(127, 256)]}
_ESCAPES.update({9: "\\t", 10: "\\n", 13: "\\r"})


def _escaped(data: bytes) -> str:
    return data.decode("latin-1").translate(_ESCAPES)


# Lines


ARROWS = {(False, True): "-->", (False, False): "<--", (True, True): "..>", (True, False): "<.."}
ERRORS = (MessageType.FATAL_ERROR, MessageType.ERROR)
SIZES = (MessageType.ASYNC_MAXIMUM_MESSAGE_SIZE, MessageType.ASYNC_MAXIMUM_MESSAGE_SIZE_RESPONSE)
MARKED_EVENTS = ("unanswered", "missing", "no server", "no HiSLIP", "too many")
USUAL_ENDS = ("closed by the client", "the relay stopped")  # how a session may end without a mark


def _shown_payload(entry: Entry) -> str:
    if entry.kind in SIZES and len(entry.payload) == 8:
        return f"{int.from_bytes(entry.payload, 'big')} bytes"
    return payload_text(entry.payload, entry.length)


@functools.lru_cache(maxsize=4)
def _second(moment: int) -> str:
    return time.strftime("%H:%M:%S", time.localtime(moment))


def _clock(moment: float) -> str:
    return f"{_second(int(moment))}.{int(moment % 1 * 1e6):06d}"


def text_line(entry: Entry) -> str:
    """Returns the line of a message. `!` marks the lines of faults and errors."""
    mark = "!" if entry.fault or entry.kind in ERRORS else " "
    arrow = ARROWS[entry.is_async, entry.is_from_client]
    parameter = f"{entry.parameter:08x}" if entry.kind in WITH_MESSAGE_ID or entry.parameter else ""
    seconds = f"+{entry.seconds * 1000:.1f} ms" if entry.seconds is not None else ""
    what = "  ".join(filter(None, (control_in_words(entry.kind, entry.control), _shown_payload(entry))))
    line = (f"{_clock(entry.time)} {mark}{entry.session or '-':>3} {arrow} {name_of(entry.kind):<19} "
            f"{parameter:<8} {seconds:>11}  {what}")
    return (line + f"  [{entry.fault}]" if entry.fault else line).rstrip() + "\n"


def text_event(event: Event) -> str:
    is_unusual_end = event.name == "ended" and not event.text.startswith(USUAL_ENDS)
    mark = "!" if event.name in MARKED_EVENTS or is_unusual_end else " "
    return f"{_clock(event.time)} {mark}{event.session or '-':>3} --- {event.name}: {event.text}\n"


def _moment(moment: float) -> str:
    return datetime.datetime.fromtimestamp(moment, datetime.timezone.utc).isoformat(timespec="microseconds")


def json_line(entry: Entry) -> str:
    """Returns a message as a JSON object: `payload` is the text of `text_line`, `data` all its bytes in base64."""
    item: Dict[str, object] = {
        "time": _moment(entry.time),
        "session": entry.session,
        "from": "client" if entry.is_from_client else "server",
        "connection": "asynchronous" if entry.is_async else "synchronous",
        "type": name_of(entry.kind),
        "control": entry.control,
        "control_words": control_in_words(entry.kind, entry.control),
        "message_id" if entry.kind in WITH_MESSAGE_ID else "parameter": entry.parameter,
        "length": entry.length,
        "payload": _shown_payload(entry),
    }
    if entry.payload:
        item["data"] = base64.b64encode(entry.payload).decode()
    if entry.seconds is not None:
        item["response_ms"] = round(entry.seconds * 1000, 3)
    if entry.fault:
        item["fault"] = entry.fault
    return json.dumps(item) + "\n"


def json_event(event: Event) -> str:
    item = {"time": _moment(event.time), "session": event.session, "event": event.name, "text": event.text}
    return json.dumps(item) + "\n"


# Writing


class RotatingFile(logging.handlers.RotatingFileHandler):
    """A file to which texts are appended. Before it has more than so many bytes it is renamed, and another one begins.

    Of the files before, FILE.1 is the newest. With a size of 0 there is one file.
    """

    terminator = ""

    def __init__(self, path: str, size: int = 0, older: int = 5) -> None:
        super().__init__(path, maxBytes=size, backupCount=older, encoding="utf-8")

    def write(self, text: str) -> None:
        self.emit(logging.makeLogRecord({"msg": text}))

    def handleError(self, record: logging.LogRecord) -> None:
        raise  # what `write` met


class LogWriter(logging.handlers.QueueListener):
    """Writes lines, or bytes, by a thread of its own. Where the file takes none, so many wait; others are left out.

    `missing` returns the line that says of so many lines that they were left out; it comes once there is place again.
    """

    def __init__(
        self, file: Union[IO[Any], RotatingFile], report: Callable[[str], None],
        missing: Optional[Callable[[int], str]] = None, limit: int = WAITING_LINES
    ) -> None:
        super().__init__(queue.SimpleQueue())
        self._file = file
        self._report = report
        self._missing_line = missing
        self._missing = 0
        self._limit = limit
        self._added = self._written = 0
        self.start()

    def add(self, line: Union[str, bytes]) -> bool:
        """Takes a line; returns whether it had place."""
        if self.queue.qsize() >= self._limit:
            self._missing += 1
            return False
        if self._missing and self._missing_line is not None:
            missing, self._missing = self._missing, 0
            self.add(self._missing_line(missing))
        self._added += 1
        self.queue.put(line)
        return True

    def flush(self, seconds: float) -> None:
        """Returns once all lines that were added are written, or after so many seconds."""
        deadline = time.monotonic() + seconds
        while self._written < self._added and time.monotonic() < deadline:
            time.sleep(BATCH_SECONDS / 4)

    def end(self, seconds: float) -> None:
        """Writes what waits; returns after so many seconds at most."""
        stopping = threading.Thread(target=self.stop, daemon=True)
        stopping.start()
        stopping.join(seconds)

    # The listener's thread

    def dequeue(self, block: bool) -> Any:
        """Returns all lines that wait, once there is one; None, which ends the thread, where `stop` was called."""
        lines = [self.queue.get()]
        time.sleep(BATCH_SECONDS)  # so that one write takes many lines
        lines += [self.queue.get() for _ in range(self.queue.qsize())]
        whole = [line for line in lines if line is not None]
        if whole and len(whole) < len(lines):
            self.queue.put(None)
        return whole or None

    def handle(self, record: Any) -> None:
        """Writes lines."""
        try:
            self._file.write(type(record[0])().join(record))
            self._file.flush()
        except (OSError, ValueError) as fault:
            if self._limit:
                self._report(f"the log can't be written, and traffic continues without it: {fault}")
            self._limit = 0
        self._written += len(record)
