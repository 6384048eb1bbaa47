"""The asynchronous connection of a session: one thread reads it, and hands out responses and service requests."""
from __future__ import annotations

import collections
import concurrent.futures
import math
import sys
import threading
import time
from typing import Callable, Deque, List, NamedTuple, Optional

from .channel import Channel, Ending, closed_by_client, finite, unanswered
from .errors import FatalError, HislipError, ProtocolError, ServerError, Timeout
from .frames import Frame, MessageType, is_known, name_of, refusal_of

JOIN_TIMEOUT = 1.0  # seconds
REFUSAL_TIMEOUT = 1.0  # seconds in which a server reads that one of its messages is unknown
MOST_REQUESTS = 1000  # service requests that are kept; of more the oldest are forgotten

Callback = Callable[[int], object]


class Ask(NamedTuple):
    """A message that waits for its response."""

    response_kind: int
    answer: "concurrent.futures.Future[Frame]"


class Asynchronous:
    """The asynchronous connection. All methods may be called by any thread.

    `end_all` is called with the reason where the session can't continue.
    """

    def __init__(self, channel: Channel, end_all: Ending) -> None:
        self._channel = channel
        self._end_all = end_all
        self._changed = threading.Condition()
        self._sending = threading.Lock()
        self._asks: List[Ask] = []  # in the order in which they were sent
        self._requests: Deque[int] = collections.deque(maxlen=MOST_REQUESTS)
        self._callback: Optional[Callback] = None
        self._fault: Optional[HislipError] = None  # an Error that came while nothing was asked
        self._end: Optional[Exception] = None
        self._reader = threading.Thread(target=self._read, name="psu-asynchronous", daemon=True)
        self._notifier = threading.Thread(target=self._notify, name="psu-service-requests", daemon=True)
        self._reader.start()

    # Called by the threads of the program

    def ask(self, frame: Frame, response_kind: int, send_timeout: float, timeout: float) -> Frame:
        """Sends a message and returns the response to it."""
        ask = Ask(response_kind, concurrent.futures.Future())
        deadline = time.monotonic() + timeout
        self._send(frame, ask, send_timeout)
        try:
            return ask.answer.result(finite(deadline - time.monotonic()))
        except concurrent.futures.TimeoutError:
            if ask.answer.done():
                raise
            # The response, if it came later, would be taken for the response to the next message.
            raise unanswered(name_of(frame.kind), timeout, self._end_all) from None

    def wait_for_request(self, timeout: float) -> int:
        """Returns the status byte of the oldest service request."""
        deadline = time.monotonic() + timeout
        with self._changed:
            if self._callback is not None:
                raise HislipError("a callback takes the service requests: on_service_request(None) first")
            while not self._requests:
                self._raise_end()
                remaining = deadline - time.monotonic()
                if remaining <= 0:
                    raise Timeout(f"no service request in {timeout:g} s", session_continues=True)
                self._changed.wait(finite(remaining))
            return self._requests.popleft()

    def drop_requests(self) -> int:
        """Forgets the service requests that came and were not fetched, and returns how many they were."""
        with self._changed:
            count = len(self._requests)
            self._requests.clear()
        return count

    def set_callback(self, callback: Optional[Callback]) -> None:
        with self._changed:
            self._callback = callback
            if callback is not None and self._notifier.ident is None:
                self._notifier.start()
            self._changed.notify_all()

    def join(self) -> None:
        """Waits for the threads to end, once the connection has ended. A callback that takes long is not waited for."""
        for thread in (self._reader, self._notifier):
            if thread.ident is not None and thread is not threading.current_thread():
                thread.join(JOIN_TIMEOUT)

    def _send(self, frame: Frame, ask: Ask, timeout: float) -> None:
        message = frame.pack()  # what can't be packed raises here, before its ask stands among the others
        # The list of asks is in the order of sending, since responses of a kind come in that order.
        with self._sending:
            with self._changed:
                self._raise_end()
                self._asks.append(ask)
            self._channel.send(message, timeout)

    def _raise_end(self) -> None:
        """Raises why the connection has ended, or an Error that came while nothing was asked."""
        end, self._fault = self._end_now() or self._fault, None
        if end is not None:
            raise end

    def _end_now(self) -> Optional[Exception]:
        """Returns why the connection has ended: an exception for one raise, since several threads may raise it."""
        end = self._end
        return FatalError(end.code, end.text) if isinstance(end, FatalError) else end and type(end)(*end.args)

    # The reading thread

    def _read(self) -> None:
        try:
            while True:
                self._take(self._channel.receive(math.inf))
        except (HislipError, OSError) as end:
            with self._changed:
                self._end = end
                for ask in self._asks:
                    ask.answer.set_exception(self._end_now())
                self._changed.notify_all()
            if isinstance(end, (FatalError, ProtocolError)):
                self._end_all(*closed_by_client(str(end)))

    def _take(self, frame: Frame) -> None:
        text = frame.payload.decode("utf-8", "replace")
        if frame.kind == MessageType.FATAL_ERROR:
            raise FatalError(frame.control, text)
        if not is_known(frame.kind):
            with self._sending:
                self._channel.send(refusal_of(frame).pack(), REFUSAL_TIMEOUT)
            return
        with self._changed:
            if frame.kind == MessageType.ASYNC_SERVICE_REQUEST:
                self._requests.append(frame.control)
            elif frame.kind == MessageType.ERROR:
                self._take_error(ServerError(frame.control, text))
            elif frame.kind != MessageType.ASYNC_INTERRUPTED:
                asked = next((it for it in self._asks if it.response_kind == frame.kind), None)
                if asked is None:
                    raise ProtocolError(f"{name_of(frame.kind)} on the asynchronous connection, to which nothing was asked")
                self._asks.remove(asked)
                asked.answer.set_result(frame)
            self._changed.notify_all()

    def _take_error(self, error: ServerError) -> None:
        # A lock request may wait for long, so the error is that of another message where there is one.
        ordered = sorted(self._asks, key=lambda it: it.response_kind == MessageType.ASYNC_LOCK_RESPONSE)
        if ordered:
            self._asks.remove(ordered[0])
            ordered[0].answer.set_exception(error)
        else:
            self._fault = error

    # The thread that calls the callback

    def _notify(self) -> None:
        while True:
            with self._changed:
                while not (self._requests and self._callback):
                    if self._end is not None:
                        return
                    self._changed.wait()
                callback, status = self._callback, self._requests.popleft()
            try:
                callback(status)
            except BaseException:
                # As for any thread: it is reported, and the next request is handed out all the same.
                threading.excepthook(threading.ExceptHookArgs((*sys.exc_info(), threading.current_thread())))
            del callback
