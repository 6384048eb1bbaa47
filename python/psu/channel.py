"""One of the two connections of a HiSLIP session, on which whole messages are sent and received."""
from __future__ import annotations

import contextlib
import errno
import ipaddress
import socket
import threading
from typing import List, Optional, Tuple, Type

from .errors import ConnectionLost, ProtocolError, SessionClosed, Timeout
from .frames import CutShort, Frame, FrameError, Interrupt, SocketFrames

LOST = "the server closed the connection"
End = Tuple[Type[ConnectionError], str]  # why a connection has ended


class Ending:
    """How a session ends: all its connections at once, for one reason, the first. It does not hold the session itself."""

    def __init__(self) -> None:
        self.channels: List[Channel] = []
        self.reason: Optional[End] = None

    def __call__(self, kind: Type[ConnectionError], why: str) -> None:
        self.reason = self.reason or (kind, why)
        for channel in self.channels:
            channel.shut()

    def check(self) -> None:
        """Raises the reason where the session has ended."""
        if self.reason is not None:
            kind, why = self.reason
            raise kind(why)


def finite(seconds: float) -> Optional[float]:
    """Returns what the system takes as the longest wait: None where it is without end."""
    return seconds if seconds <= threading.TIMEOUT_MAX else None


def is_of_this_machine(host: str) -> bool:
    try:
        return ipaddress.ip_address(host).is_loopback
    except ValueError:
        return host == "localhost"


def connected(host: str, port: int, timeout: float) -> socket.socket:
    try:
        made = socket.create_connection((host, port), finite(timeout))
    except ConnectionRefusedError:
        start = " (start: psu serve IMAGE)" if is_of_this_machine(host) else ""
        refused = ConnectionRefusedError(f"nothing listens on {host}:{port}{start}")
        refused.errno = errno.ECONNREFUSED
        raise refused from None
    except socket.timeout:
        raise Timeout(f"{host}:{port} takes no connection in {timeout:g} s", session_continues=False) from None
    made.setsockopt(socket.IPPROTO_TCP, socket.TCP_NODELAY, 1)
    return made


class Channel:
    """A connection. One thread at a time may send, and one receive; any thread may end it.

    `end_all` ends both connections of the session, where this one is lost. `interrupt` ends the wait in `receive`.
    """

    def __init__(
        self, host: str, port: int, timeout: float, end_all: Ending, interrupt: Optional[Interrupt] = None
    ) -> None:
        self._end_all = end_all
        self._socket = connected(host, port, timeout)
        self._frames = SocketFrames(self._socket, interrupt=interrupt)

    def send(self, message: bytes, timeout: float) -> None:
        """Sends a packed message. Where that fails the session ends: nothing can follow a part of a message."""
        self._end_all.check()
        # With a timeout of 0 the socket would not wait, and would not raise the exception of a timeout.
        self._socket.settimeout(finite(max(timeout, 0.001)))
        try:
            self._socket.sendall(message)
        except socket.timeout:
            self._end_all(*closed_by_client("the server did not read"))
            raise Timeout(f"the server has not read in {timeout:g} s", session_continues=False) from None
        except OSError:
            raise self._lost(LOST) from None
        except BaseException:
            # Ctrl-C, or a signal's handler that raises.
            self._end_all(*closed_by_client("a write was interrupted"))
            raise

    def receive(self, timeout: float, is_interrupted: bool = True) -> Frame:
        """Returns the next message. After a Timeout its bytes so far are kept, and the next call continues.

        Raises Interrupted where the channel's interrupt is set, unless `is_interrupted` is false.
        """
        # What came before the server closed the other connection is still read.
        reason = self._end_all.reason
        if reason is not None and (reason[0] is SessionClosed or self._socket.fileno() < 0):
            self._end_all.check()
        try:
            frame = self._frames.receive(finite(timeout), is_interrupted)
        except TimeoutError:
            raise Timeout(f"no message in {timeout:g} s") from None
        except CutShort:
            raise self._lost(f"{LOST} in the middle of a message") from None
        except FrameError as fault:
            self._end_all.check()
            raise ProtocolError(f"the server sent no HiSLIP message: {fault}") from None
        except OSError:
            raise self._lost(LOST) from None
        if frame is None:
            raise self._lost(LOST)
        return frame

    @property
    def is_waiting(self) -> bool:
        """Whether all that came is kept: a frame that `receive` returned is, once its caller waits for the next."""
        return self._frames.is_waiting

    def shut(self) -> None:
        """Ends the connection, and wakes a thread that waits in `receive`."""
        with contextlib.suppress(OSError):  # the other end has closed it already
            self._socket.shutdown(socket.SHUT_RDWR)

    def release(self) -> None:
        """Gives back the socket of a connection that has ended, once no thread uses it."""
        self._socket.close()

    def _lost(self, why: str) -> ConnectionError:
        """Ends the session; returns why it has ended, which may have been noted before."""
        self._end_all(ConnectionLost, why)
        assert self._end_all.reason is not None
        kind, why = self._end_all.reason
        return kind(why)


def closed_by_client(why: str) -> End:
    return SessionClosed, f"this client closed the session: {why}"


def unanswered(name: str, timeout: float, end_all: Ending) -> Timeout:
    """Ends the session; returns the exception for a message that has no response, without which it can't continue."""
    end_all(*closed_by_client(f"the server did not answer {name} in time"))
    return Timeout(f"no response to {name} in {timeout:g} s", session_continues=False)
