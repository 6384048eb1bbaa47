"""Texts of messages: blocks, bytes of a text, and entries of the error queue."""
from __future__ import annotations

import re

from .errors import ProtocolError, ScpiError

MOST_SHOWN = 60  # characters of a message in the text of an exception
# How a definite block begins; the group that is found has its length.
BLOCK = re.compile(b"#(?:%b)" % b"|".join(b"%d([0-9]{%d})" % (digits, digits) for digits in range(1, 10)))


def length_in(found: "re.Match[bytes]") -> int:
    """Returns the length in the begin of a block; 0 where another alternative of a pattern was found."""
    return int(found[found.lastindex]) if found.lastindex else 0


def encoded(text: str) -> bytes:
    # Bytes of a command line that are not UTF-8 are sent as they were typed.
    return text.encode("utf-8", "surrogateescape")


def definite_block(data: bytes) -> bytes:
    """Returns a block with its length, as `#15hello`."""
    length = str(len(data))
    return f"#{len(length)}{length}".encode() + data


def block_content(response: bytes) -> bytes:
    """Returns the bytes of the definite-length block that a response begins with."""
    found = BLOCK.match(response)
    if found is None:
        raise ProtocolError("the response is not a block with its length")
    end = found.end() + length_in(found)
    if end > len(response):
        raise ProtocolError("the block is shorter than its length says")
    return response[found.end() : end]


def error_of(response: bytes) -> ScpiError:
    """Returns the error of a response to SYST:ERR?, as `-113,"Undefined header"`."""
    number, _, text = response.decode("utf-8", "replace").partition(",")
    try:
        return ScpiError(int(number), text.strip().strip('"'))
    except ValueError:
        raise ProtocolError(f"no error of a queue: {response!r}") from None


def shown(message: bytes) -> str:
    """Returns a message as it is named in the text of an exception: its first characters, without the line feed."""
    text = message.rstrip(b"\n").decode("utf-8", "replace")
    return text if len(text) <= MOST_SHOWN else f"{text[:MOST_SHOWN]}.."
