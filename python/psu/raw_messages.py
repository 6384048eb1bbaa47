"""Divides what a raw socket receives into messages, as the instrument's grammar divides them.

A line feed ends a message, but not in a definite block (`#15a\\nbcd`), which may contain any byte. A string that is
open at a line feed, a block whose length can't be read or is over 16 MiB, and `#0` all extend to the end of the
message: here the line.
"""
from __future__ import annotations

import re
from typing import Generator, NamedTuple, Optional

LARGEST_PART = 32768  # so many bytes of a message are passed on before its end is known
LARGEST_BLOCK = 1 << 24  # bytes; of a longer one the length is an error of the client, which would take all that follows

ANY = re.compile(rb"(?s).")
SPECIAL = re.compile(rb"[\n\"'#]")
LINE_FEED = re.compile(rb"\n")
NOT_WHITE = re.compile(rb"[^\x00-\x09\x0b-\x20]")
Reading = Generator[None, None, bytes]  # it stops where it needs more bytes


class Piece(NamedTuple):
    """Bytes of a message, and whether they are its last ones."""

    data: bytes
    is_end: bool


class Divider:
    """Takes bytes as they come and gives messages; holds fewer than LARGEST_PART bytes beside those just fed."""

    def __init__(self) -> None:
        self._bytes = bytearray()
        self._at = 0
        self._reading = self._message()

    def feed(self, data: bytes) -> None:
        self._bytes += data

    def next_piece(self) -> Optional[Piece]:
        """Returns the next message, or a part of one that is long; None where more bytes are needed."""
        try:
            next(self._reading)
        except StopIteration:
            return Piece(self.rest(), True)
        return Piece(self._cut(), False) if self._at >= LARGEST_PART else None

    def rest(self) -> bytes:
        """Returns what came of a message, and begins another one."""
        self._reading = self._message()
        return self._cut()

    def _cut(self) -> bytes:
        data = bytes(self._bytes[: self._at])
        del self._bytes[: self._at]
        self._at = 0
        return data

    def _message(self) -> Generator[None, None, None]:
        """Reads up to the end of a message."""
        byte = yield from self._take(SPECIAL)
        while byte != b"\n":
            is_closed = yield from self._block() if byte == b"#" else self._string(byte)
            # Only `,`, `;` or the end may follow a string or a block. What can't be read is one up to the line feed.
            is_right = is_closed and (yield from self._look(NOT_WHITE)) in b",;"
            byte = yield from self._take(SPECIAL if is_right else LINE_FEED)

    def _string(self, quote: bytes) -> Generator[None, None, bool]:
        """Reads the rest of a string; returns whether it is closed. Two quotes in it mean one."""
        end = re.compile(b"[\n" + quote + b"]")
        while (yield from self._look(end)) == quote:
            self._at += 1
            if (yield from self._look(ANY)) != quote:
                return True
            self._at += 1
        return False

    def _block(self) -> Generator[None, None, bool]:
        """Reads the rest of a definite block; returns whether it is one."""
        digits = yield from self._look(ANY)
        if digits not in b"123456789":
            return False
        length = b""
        for _ in range(int(digits)):
            self._at += 1
            length += yield from self._look(ANY)
            if not length.isdigit():
                return False
        self._at += 1
        left = int(length)
        while 0 < left <= LARGEST_BLOCK:
            size = min(left, len(self._bytes) - self._at)
            self._at += size
            left -= size
            if left:
                yield
        return left == 0

    def _take(self, pattern: "re.Pattern[bytes]") -> Reading:
        """Reads up to a byte that fits, and with it; returns it."""
        byte = yield from self._look(pattern)
        self._at += 1
        return byte

    def _look(self, pattern: "re.Pattern[bytes]") -> Reading:
        """Reads up to a byte that fits; returns it."""
        while True:
            found = pattern.search(self._bytes, self._at)
            if found is not None:
                self._at = found.start()
                return found.group()
            self._at = len(self._bytes)
            yield
