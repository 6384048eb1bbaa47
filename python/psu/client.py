"""A client of HiSLIP 1.0 in synchronized mode, as IVI-6.1 prescribes it.

    with Instrument(port=4880) as supply:
        supply.write("VOLT 5;:CURR 1;:OUTP ON")
        print(supply.query("MEAS:VOLT?"))
"""
from __future__ import annotations

import contextlib
import math
import struct
import threading
from typing import Iterator, List, NamedTuple, Optional

from .asynchronous import Asynchronous, Callback
from .blocks import block_content, definite_block, encoded
from .channel import Channel, Ending, closed_by_client
from .errors import HislipError, LockError, LockRefusal, ProtocolError, ScpiError, Timeout
from .exchange import Exchange, Wait, wait_of
from .frames import DEFAULT_PORT, HEADER_SIZE, LARGEST_PAYLOAD, PROTOCOL_1_0, VENDOR, Frame, Interrupt, MessageType
from .resource import Resource, parse_resource
from .synchronous import Synchronous
from .turn import Turn

LONGEST_KEY = 256  # bytes of the key of a shared lock
LONGEST_LOCK_TIMEOUT = (1 << 32) - 1  # milliseconds
LEAST_WAIT = 5.0  # seconds, for what a server answers at once and without which the session can't continue


class LockInfo(NamedTuple):
    is_exclusive: bool
    holders: int


class Instrument:
    """A session with an instrument, which several threads may use.

    A query of one thread is whole: messages of other threads wait until its response has come. For a `write` and a
    `read` that belong together take `sequence`. Status byte, service requests and locks do not wait for that.
    `timeout`, the longest wait for a response in seconds (None: without end), may be changed; what a server answers at
    once (status byte, locks, device clear) has five seconds at least, since the session ends where it is not answered.
    With `check_errors`, which may be changed too, each message is followed by the query SYST:ERR?, a message of its own,
    and InstrumentError is raised where the error queue is not empty.
    """

    def __init__(
        self, host: str = "127.0.0.1", port: int = DEFAULT_PORT, timeout: Optional[float] = 5.0,
        sub_address: str = "hislip0", check_errors: bool = False
    ) -> None:
        self.timeout = timeout
        self.check_errors = check_errors
        self._where = Resource(host, port, sub_address)
        self._interrupt = Interrupt()  # of the thread that waits for a response, by a device clear
        self._turn = Turn(self._interrupt.set, self._interrupt.clear)
        self._order = threading.RLock()  # keeps a status query that says RMT-delivered apart from a message
        self._lock_call = threading.Lock()  # of the thread that asks for a lock or a release
        self._has_exclusive = False
        self._has_shared = False
        self._end_all = Ending()
        try:
            self._initialize()
        except BaseException:
            self.close()
            raise

    @classmethod
    def open(cls, resource: str, timeout: Optional[float] = 5.0, check_errors: bool = False) -> Instrument:
        """Returns a session with the instrument of a VISA resource, as TCPIP::127.0.0.1::hislip0,4881::INSTR."""
        where = parse_resource(resource)
        return cls(where.host, where.port, timeout, where.sub_address, check_errors)

    def __enter__(self) -> Instrument:
        return self

    def __exit__(self, *_: object) -> None:
        self.close()

    def __repr__(self) -> str:
        end = self._end_all.reason
        return f"<Instrument {self.resource}, {'open' if end is None else end[1]}>"

    def __del__(self) -> None:
        if hasattr(self, "_end_all"):
            self._end_all(*closed_by_client("it was not used any more"))
            self._interrupt.close()

    @property
    def resource(self) -> str:
        """The resource string of VISA."""
        return str(self._where)

    def close(self) -> None:
        """Ends the session, also while other threads wait. Its locks are released, its waiting messages discarded."""
        self._end_all(*closed_by_client("close() was called"))
        if hasattr(self, "_asynchronous"):
            self._asynchronous.join()
        # The sockets are given back once the thread that was woken has left them.
        with self._turn.for_a_while(1.0) as is_taken:
            for channel in self._end_all.channels if is_taken else ():
                channel.release()

    # Messages

    @contextlib.contextmanager
    def sequence(self) -> Iterator[Instrument]:
        """Keeps the messages of other threads waiting in a `with` block."""
        with self._turn:
            yield self

    def write(self, text: str) -> None:
        """Sends a program message; the line feed at its end is added."""
        self.write_bytes(encoded(text) + b"\n")

    def write_bytes(self, message: bytes) -> None:
        """Sends the bytes of a message in as many parts as the server's largest message asks for."""
        with self._turn:
            self._exchange.send(message, self.check_errors)
            self._exchange.finish_check(wait_of(self.timeout))

    def write_block(self, header: str, data: bytes) -> None:
        """Sends a header (and parameters, as in 'MMEM:DATA "name",') and bytes of any value as a block."""
        self.write_bytes(encoded(header) + definite_block(data) + b"\n")

    def read(self, timeout: Optional[float] = None) -> str:
        """Returns the text of the response to the message that was sent last, without the line feed at its end."""
        return self.read_bytes(timeout=timeout).decode("utf-8", "replace").rstrip("\n")

    def read_bytes(self, *, timeout: Optional[float] = None) -> bytes:
        """Returns a response as it was sent. After a Timeout the next read continues with it."""
        with self._turn:
            return self._exchange.read(self._wait(timeout))

    def query(self, text: str, timeout: Optional[float] = None) -> str:
        """Sends a message and returns its response, as `read` does."""
        return self._query(text, timeout).decode("utf-8", "replace").rstrip("\n")

    def query_block(self, text: str, timeout: Optional[float] = None) -> bytes:
        """Sends a query whose response is a block, and returns the block's bytes."""
        return block_content(self._query(text, timeout))

    def errors(self) -> List[ScpiError]:
        """Reads the error queue until it is empty, and returns its errors, the oldest first."""
        with self._turn:
            return self._exchange.errors(self.timeout)

    def clear(self) -> None:
        """Device clear: discards messages that were not executed and responses that were not read. A query of another
        thread ends at once, with Cleared.

        What was executed remains, and so do locks, registers and the error queue.
        """
        with self._turn.before_others(), self._order:
            self._ask(Frame(MessageType.ASYNC_DEVICE_CLEAR), MessageType.ASYNC_DEVICE_CLEAR_ACKNOWLEDGE)
            self._exchange.forget()
            if not self._messages.finish_clear(self._patience):
                self._end_all(*closed_by_client("the server does not leave overlap mode"))
                raise ProtocolError("the server does not leave overlap mode, which this client does not have")

    # Status

    def read_stb(self) -> int:
        """Returns the status byte with RQS in bit 6, which this clears."""
        with self._order:
            query = Frame(MessageType.ASYNC_STATUS_QUERY, int(self._messages.is_delivered), self._messages.sent_id)
            return self._ask(query, MessageType.ASYNC_STATUS_RESPONSE).control

    def on_service_request(self, callback: Optional[Callback]) -> None:
        """Has a function called with the status byte of each service request, those that wait first; None ends it.

        A thread of its own calls it, one request at a time, so it may use this session. What it raises goes to
        `threading.excepthook`. Read the status byte in it: the next request comes only after that.
        """
        self._asynchronous.set_callback(callback)

    def wait_for_service_request(self, timeout: Optional[float]) -> int:
        """Returns the status byte of the oldest service request; raises Timeout where none comes in so many seconds."""
        return self._asynchronous.wait_for_request(math.inf if timeout is None else timeout)

    def drop_service_requests(self) -> int:
        """Forgets the service requests that came and were not fetched, and returns how many they were."""
        return self._asynchronous.drop_requests()

    # Locks

    def lock(self, timeout: Optional[float], key: Optional[str] = None) -> None:
        """Takes the exclusive lock, or with a key the lock that all sessions with the same key share.

        The lock is the session's, so all its threads have it. Raises Timeout where it can't be granted in so many
        seconds (None: 49 days, the longest there is), LockError where it is refused.
        """
        payload = b"" if key is None else key.encode()
        if key is not None and not 0 < len(payload) <= LONGEST_KEY:
            raise LockError(LockRefusal.KEY_TOO_LONG) if payload else ValueError("the key of a shared lock is empty")
        seconds = LONGEST_LOCK_TIMEOUT / 1000 if timeout is None else timeout
        milliseconds = round(min(max(seconds * 1000, 0), LONGEST_LOCK_TIMEOUT))
        control = self._ask_lock(Frame(MessageType.ASYNC_LOCK, 1, milliseconds, payload), milliseconds / 1000)
        if control == 0:
            raise Timeout(f"the lock was not granted in {milliseconds / 1000:g} s", session_continues=True)
        if control != 1:
            raise LockError(self._refusal(is_shared=key is not None))
        self._has_exclusive |= key is None
        self._has_shared |= key is not None

    def unlock(self) -> None:
        """Releases the exclusive lock, else the shared one, after all messages that were sent before."""
        control = self._ask_lock(Frame(MessageType.ASYNC_LOCK, 0, self._messages.sent_id), 0)
        if control not in (1, 2):
            raise LockError(LockRefusal.NONE_HELD)
        self._has_exclusive &= control != 1
        self._has_shared &= control != 2

    @contextlib.contextmanager
    def locked(self, timeout: Optional[float] = 5.0, key: Optional[str] = None) -> Iterator[Instrument]:
        """Holds a lock in a `with` block."""
        self.lock(timeout, key)
        try:
            yield self
        finally:
            self.unlock()

    def lock_info(self) -> LockInfo:
        """Returns whether a session holds the exclusive lock, and how many sessions hold a lock."""
        info = self._ask(Frame(MessageType.ASYNC_LOCK_INFO), MessageType.ASYNC_LOCK_INFO_RESPONSE)
        return LockInfo(info.control == 1, info.parameter)

    # The protocol

    def _query(self, text: str, timeout: Optional[float]) -> bytes:
        with self._turn:
            wait = self._wait(timeout)
            self._exchange.send(encoded(text) + b"\n", self.check_errors)
            response = self._exchange.read(wait)
            self._exchange.finish_check(wait, response)
            return response

    def _wait(self, timeout: Optional[float]) -> Wait:
        return wait_of(self.timeout if timeout is None else timeout)

    def _ask_lock(self, frame: Frame, timeout: float) -> int:
        # The responses to two requests at once could not be distinguished: one that waits is answered after a later one.
        if not self._lock_call.acquire(blocking=False):
            raise LockError(LockRefusal.REQUEST_WAITS)
        try:
            return self._ask(frame, MessageType.ASYNC_LOCK_RESPONSE, timeout).control
        except (HislipError, OSError):
            raise
        except BaseException:
            # Ctrl-C: whether the lock is granted later would not be known.
            self._end_all(*closed_by_client("a lock request was interrupted"))
            raise
        finally:
            self._lock_call.release()

    def _refusal(self, is_shared: bool) -> LockRefusal:
        if is_shared and self._has_shared:
            return LockRefusal.SHARED_HELD
        if not is_shared and self._has_exclusive:
            return LockRefusal.EXCLUSIVE_HELD
        return LockRefusal.UNKNOWN

    def _initialize(self) -> None:
        self._messages = Synchronous(self._opened(self._interrupt), self._end_all)
        self._exchange = Exchange(self._messages, self._order, lambda: self._patience)
        parameter = PROTOCOL_1_0 << 16 | VENDOR
        response = self._messages.initialize(parameter, self._where.sub_address.encode(), self._patience)
        self._asynchronous = Asynchronous(self._opened(), self._end_all)
        session = Frame(MessageType.ASYNC_INITIALIZE, 0, response.parameter & 0xFFFF)
        self._ask(session, MessageType.ASYNC_INITIALIZE_RESPONSE)
        self._messages.room = self._ask_for_room()
        if response.control & 1:
            self.clear()  # the server prefers overlap mode; the end of a device clear agrees on synchronized mode

    def _ask_for_room(self) -> int:
        """Returns how many bytes of a message's payload the server takes."""
        largest = Frame(MessageType.ASYNC_MAXIMUM_MESSAGE_SIZE, payload=struct.pack(">Q", LARGEST_PAYLOAD))
        size = self._ask(largest, MessageType.ASYNC_MAXIMUM_MESSAGE_SIZE_RESPONSE).payload
        room = int.from_bytes(size, "big") - HEADER_SIZE
        if len(size) != 8 or room < 1:
            raise ProtocolError(f"the server's largest message has a size that is none: {size.hex() or 'no bytes'}")
        return room

    def _opened(self, interrupt: Optional[Interrupt] = None) -> Channel:
        channel = Channel(self._where.host, self._where.port, self._patience, self._end_all, interrupt)
        self._end_all.channels.append(channel)
        return channel

    @property
    def _patience(self) -> float:
        return math.inf if self.timeout is None else max(self.timeout, LEAST_WAIT)

    def _ask(self, frame: Frame, response_kind: int, more: float = 0.0) -> Frame:
        return self._asynchronous.ask(frame, response_kind, self._patience, self._patience + more)
