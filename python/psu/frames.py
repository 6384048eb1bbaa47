"""The frames of HiSLIP 1.0 (IVI-6.1): header, message types, control codes in words, and readers of frames.

A frame is a header of 16 bytes and a payload:

    bytes 0, 1     "HS"
    byte 2         the message type
    byte 3         the control code
    bytes 4 to 7   the message parameter, high byte first
    bytes 8 to 15  the length of the payload, high byte first
"""
from __future__ import annotations

import enum
import functools
import selectors
import socket
import struct
import time
from typing import Dict, List, NamedTuple, Optional

PROLOGUE = b"HS"
HEADER = struct.Struct(">2sBBIQ")
HEADER_SIZE = HEADER.size
DEFAULT_PORT = 4880
PROTOCOL_1_0 = 0x0100  # the version in the high half of the parameter of Initialize and InitializeResponse
VENDOR = int.from_bytes(b"PY", "big")  # two letters by which a client names its maker
FIRST_MESSAGE_ID = 0xFFFF_FF00
MESSAGE_ID_STEP = 2
LARGEST_PAYLOAD = 1 << 20  # what the readers take, where the caller names no limit
FIRST_VENDOR_TYPE = 128


class MessageType(enum.IntEnum):
    """The message types of HiSLIP 1.0."""

    INITIALIZE = 0
    INITIALIZE_RESPONSE = 1
    FATAL_ERROR = 2
    ERROR = 3
    ASYNC_LOCK = 4
    ASYNC_LOCK_RESPONSE = 5
    DATA = 6
    DATA_END = 7
    DEVICE_CLEAR_COMPLETE = 8
    DEVICE_CLEAR_ACKNOWLEDGE = 9
    ASYNC_REMOTE_LOCAL_CONTROL = 10
    ASYNC_REMOTE_LOCAL_RESPONSE = 11
    TRIGGER = 12
    INTERRUPTED = 13
    ASYNC_INTERRUPTED = 14
    ASYNC_MAXIMUM_MESSAGE_SIZE = 15
    ASYNC_MAXIMUM_MESSAGE_SIZE_RESPONSE = 16
    ASYNC_INITIALIZE = 17
    ASYNC_INITIALIZE_RESPONSE = 18
    ASYNC_DEVICE_CLEAR = 19
    ASYNC_SERVICE_REQUEST = 20
    ASYNC_STATUS_QUERY = 21
    ASYNC_STATUS_RESPONSE = 22
    ASYNC_DEVICE_CLEAR_ACKNOWLEDGE = 23
    ASYNC_LOCK_INFO = 24
    ASYNC_LOCK_INFO_RESPONSE = 25


# The types whose parameter is a MessageID.
WITH_MESSAGE_ID = frozenset((
    MessageType.DATA, MessageType.DATA_END, MessageType.TRIGGER, MessageType.INTERRUPTED, MessageType.ASYNC_INTERRUPTED,
    MessageType.ASYNC_STATUS_QUERY,
))
# The responses of the asynchronous connection, and of the synchronous one but for Data and DataEnd.
REQUEST_OF: Dict[int, MessageType] = {
    MessageType.INITIALIZE_RESPONSE: MessageType.INITIALIZE,
    MessageType.DEVICE_CLEAR_ACKNOWLEDGE: MessageType.DEVICE_CLEAR_COMPLETE,
    MessageType.ASYNC_LOCK_RESPONSE: MessageType.ASYNC_LOCK,
    MessageType.ASYNC_REMOTE_LOCAL_RESPONSE: MessageType.ASYNC_REMOTE_LOCAL_CONTROL,
    MessageType.ASYNC_MAXIMUM_MESSAGE_SIZE_RESPONSE: MessageType.ASYNC_MAXIMUM_MESSAGE_SIZE,
    MessageType.ASYNC_INITIALIZE_RESPONSE: MessageType.ASYNC_INITIALIZE,
    MessageType.ASYNC_STATUS_RESPONSE: MessageType.ASYNC_STATUS_QUERY,
    MessageType.ASYNC_DEVICE_CLEAR_ACKNOWLEDGE: MessageType.ASYNC_DEVICE_CLEAR,
    MessageType.ASYNC_LOCK_INFO_RESPONSE: MessageType.ASYNC_LOCK_INFO,
}


class FrameError(Exception):
    """What came is no frame: no "HS" at its begin, an end in its middle, or a payload over the reader's limit."""


class CutShort(FrameError):
    """The stream ended in the middle of a frame."""


class Interrupted(Exception):
    """Another thread wants the place of the one that waits for a frame."""


class Header(NamedTuple):
    """The header of a frame. `kind` is a number, since a peer may send types that HiSLIP 1.0 does not have."""

    kind: int
    control: int
    parameter: int
    length: int

    def pack(self) -> bytes:
        return HEADER.pack(PROLOGUE, self.kind, self.control, self.parameter, self.length)


class Frame(NamedTuple):
    """A whole message: what its header says, and its payload."""

    kind: int
    control: int = 0
    parameter: int = 0
    payload: bytes = b""

    def header(self) -> Header:
        return Header(self.kind, self.control, self.parameter, len(self.payload))

    def pack(self) -> bytes:
        return self.header().pack() + self.payload


def unpack_header(data: bytes) -> Header:
    """Returns the header in the first 16 bytes; raises FrameError where they do not begin with "HS"."""
    prologue, kind, control, parameter, length = HEADER.unpack_from(data)
    if prologue != PROLOGUE:
        raise FrameError('a header that does not begin with "HS"')
    return Header(kind, control, parameter, length)


# MessageIDs


def after(message_id: int) -> int:
    """Returns the MessageID that follows."""
    return (message_id + MESSAGE_ID_STEP) % (1 << 32)


def before(message_id: int) -> int:
    """Returns the MessageID that precedes."""
    return (message_id - MESSAGE_ID_STEP) % (1 << 32)


# Readers, of which listening.py has those of asyncio's streams


# On Windows there is no poll.
SELECTOR = getattr(selectors, "PollSelector", selectors.SelectSelector)
LONGEST_SELECT = 86400.0  # seconds; the system takes less than a month


def allowed_length(header: Header, largest: int) -> int:
    """Returns the length of the payload; raises FrameError where it is over the limit."""
    if header.length > largest:
        raise FrameError(f"a payload of {header.length} bytes, over the limit of {largest}")
    return header.length


class Interrupt:
    """Ends the wait of threads for a frame, and keeps them from another, from `set` until `clear`."""

    def __init__(self) -> None:
        self.near, self._far = socket.socketpair()  # a byte is in it while it is set

    def set(self) -> None:
        self._far.send(b"!")

    def clear(self) -> None:
        self.near.recv(1)

    def close(self) -> None:
        self.near.close()
        self._far.close()


class SocketFrames:
    """Reads frames from a socket. After a timeout the bytes so far are kept, and the next call continues."""

    def __init__(
        self, connection: socket.socket, largest: int = LARGEST_PAYLOAD, interrupt: Optional[Interrupt] = None
    ) -> None:
        self.connection = connection
        self._largest = largest
        self._received = bytearray()
        self.is_waiting = True  # for a signal that raises: whether all that was taken from the socket is kept
        self._ready, self._socket_alone = SELECTOR(), SELECTOR()
        self._ready.register(connection, selectors.EVENT_READ)
        self._socket_alone.register(connection, selectors.EVENT_READ)
        if interrupt is not None:
            self._ready.register(interrupt.near, selectors.EVENT_READ)

    def receive(self, timeout: Optional[float] = None, is_interrupted: bool = True) -> Optional[Frame]:
        """Returns the next frame, None where the stream ends before it.

        Raises TimeoutError after so many seconds, CutShort where the stream ends within the frame, and Interrupted
        where another thread ends the wait, unless `is_interrupted` is false.
        """
        deadline = None if timeout is None else time.monotonic() + timeout
        ready = self._ready if is_interrupted else self._socket_alone
        if not self._has_filled(HEADER_SIZE, deadline, ready):
            return None
        header = unpack_header(self._received)
        end = HEADER_SIZE + allowed_length(header, self._largest)
        self._has_filled(end, deadline, ready)
        payload = bytes(self._received[HEADER_SIZE:end])
        del self._received[:end]
        return Frame(header.kind, header.control, header.parameter, payload)

    def _has_filled(self, size: int, deadline: Optional[float], ready: selectors.BaseSelector) -> bool:
        """Reads until `size` bytes are there; False where the stream ended and none are."""
        while len(self._received) < size:
            self._wait(deadline, ready)
            piece = self.connection.recv(65536)
            if piece:
                self._received += piece
            elif self._received:
                raise CutShort("the stream ended in the middle of a frame")
            else:
                return False
        return True

    def _wait(self, deadline: Optional[float], ready: selectors.BaseSelector) -> None:
        """Waits until the socket can be read. Its own timeout is that of a thread which sends."""
        self.is_waiting = True
        files: List[object] = []
        while not files:
            left = LONGEST_SELECT if deadline is None else deadline - time.monotonic()
            files = [key.fileobj for key, _ in ready.select(min(max(left, 0), LONGEST_SELECT))]
            if not files and left < LONGEST_SELECT:
                raise TimeoutError("no frame in time")
        if files != [self.connection]:
            raise Interrupted
        self.is_waiting = False


# In words


FATAL_ERRORS: Dict[int, str] = {
    0: "unidentified error",
    1: "poorly formed message header",
    2: "a message before both connections were established",
    3: "invalid initialization sequence",
    4: "the server serves its maximum number of clients",
}
ERRORS: Dict[int, str] = {
    0: "unidentified error",
    1: "unrecognized message type",
    2: "unrecognized control code",
    3: "unrecognized vendor defined message",
    4: "message too large",
}
LOCK_REQUESTS: Dict[int, str] = {0: "release", 1: "request"}
# One code has a meaning for a request and one for a release; which it was, the response does not say.
LOCK_RESPONSES: Dict[int, str] = {
    0: "not granted in time",
    1: "granted, or exclusive lock released",
    2: "shared lock released",
    3: "refused, or no lock was held",
}
REMOTE_LOCAL: Dict[int, str] = {
    0: "disable remote",
    1: "enable remote",
    2: "disable remote and go to local",
    3: "enable remote and go to remote",
    4: "enable remote and lock out local",
    5: "enable remote, go to remote and lock out local",
    6: "go to local",
}
DELIVERED: Dict[int, str] = {0: "", 1: "RMT-delivered"}
MODES: Dict[int, str] = {0: "synchronized", 1: "overlapped"}
LOCK_INFO: Dict[int, str] = {0: "no exclusive lock", 1: "exclusive lock held"}
STATUS_BITS = ("bit 0", "bit 1", "error queue", "QUES", "MAV", "ESB", "RQS", "OPER")

_CONTROL_WORDS: Dict[int, Dict[int, str]] = {
    MessageType.FATAL_ERROR: FATAL_ERRORS,
    MessageType.ERROR: ERRORS,
    MessageType.ASYNC_LOCK: LOCK_REQUESTS,
    MessageType.ASYNC_LOCK_RESPONSE: LOCK_RESPONSES,
    MessageType.ASYNC_REMOTE_LOCAL_CONTROL: REMOTE_LOCAL,
    MessageType.ASYNC_LOCK_INFO_RESPONSE: LOCK_INFO,
    **dict.fromkeys((MessageType.DATA, MessageType.DATA_END, MessageType.TRIGGER,
                     MessageType.ASYNC_STATUS_QUERY), DELIVERED),
    **dict.fromkeys((MessageType.INITIALIZE_RESPONSE, MessageType.DEVICE_CLEAR_COMPLETE,
                     MessageType.DEVICE_CLEAR_ACKNOWLEDGE, MessageType.ASYNC_DEVICE_CLEAR_ACKNOWLEDGE), MODES),
}
_STATUS_BYTES = (MessageType.ASYNC_SERVICE_REQUEST, MessageType.ASYNC_STATUS_RESPONSE)


@functools.lru_cache(maxsize=256)
def name_of(kind: int) -> str:
    """Returns the name that IVI-6.1 gives a message type, as `DataEnd`."""
    try:
        return MessageType(kind).name.title().replace("_", "")
    except ValueError:
        return f"vendor type {kind}" if kind >= FIRST_VENDOR_TYPE else f"unknown type {kind}"


_KNOWN = frozenset(int(it) for it in MessageType)


def is_known(kind: int) -> bool:
    """Whether HiSLIP 1.0 has a message of this type."""
    return kind in _KNOWN


def refusal_of(frame: Frame) -> Frame:
    """Returns the Error by which a message of an unknown type is answered before it is ignored."""
    code = 3 if frame.kind >= FIRST_VENDOR_TYPE else 1
    return Frame(MessageType.ERROR, code, 0, ERRORS[code].encode())


@functools.lru_cache(maxsize=1024)
def control_in_words(kind: int, control: int) -> str:
    """Returns what the control code of a message of this type means; empty where it means nothing."""
    if kind in _STATUS_BYTES:
        bits = [word for bit, word in enumerate(STATUS_BITS) if control >> bit & 1]
        return f"status {control} {'+'.join(bits) or 'no bit'}"
    words = _CONTROL_WORDS.get(kind)
    if words is None:
        return "" if control == 0 else f"control {control}"
    return words.get(control, f"control {control}")
