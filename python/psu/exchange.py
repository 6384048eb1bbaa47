"""A message of a session, the response to it, and the query for its errors, which may come right after it."""
from __future__ import annotations

import math
import time
from typing import Callable, ContextManager, List, NamedTuple, Optional

from .blocks import error_of, shown
from .errors import Cleared, InstrumentError, ScpiError, Timeout
from .frames import Interrupted
from .synchronous import Response, Synchronous

MOST_ERRORS = 100  # that are read of an error queue of 16: another session may cause more meanwhile
ERROR_QUERY = b"SYST:ERR?\n"


class Wait(NamedTuple):
    """The longest wait for a response."""

    seconds: float
    deadline: float


def wait_of(seconds: Optional[float]) -> Wait:
    """Returns the wait that begins now; None is one without end."""
    longest = math.inf if seconds is None else seconds
    return Wait(longest, time.monotonic() + longest)


class Exchange:
    """The message that was sent last. One thread at a time may use it.

    `order` is held while a message is sent, and `patience` says how many seconds a server has to read it.
    """

    def __init__(self, messages: Synchronous, order: ContextManager[object], patience: Callable[[], float]) -> None:
        self._messages = messages
        self._order = order
        self._patience = patience
        self._message = b""
        self.forget()

    def forget(self) -> None:
        """Forgets what is still to come: a device clear discards it, or another message follows."""
        self._response: Optional[bytes] = None  # to the message, where it came while its errors were asked for
        self._error_query: Optional[int] = None  # the MessageID of the query for its errors, while that is not answered

    def send(self, message: bytes, is_checked: bool) -> None:
        """Sends a message, and where that is asked for, the query for its errors right after it."""
        with self._order:
            self.forget()
            self._message = message
            self._messages.send_message(message, self._patience())
            if is_checked:
                self._error_query = self._messages.send_more(ERROR_QUERY, self._patience())

    def read(self, wait: Wait) -> bytes:
        """Returns the response to the message; raises its errors where the query for them is answered instead."""
        if self._response is not None:
            response, self._response = self._response, None
            return response
        message_id, response = self._next_response(wait, shown(self._message))
        if message_id == self._error_query:
            self._raise_errors(response, wait, None, has_response=False)
        return response

    def finish_check(self, wait: Wait, response: Optional[bytes] = None) -> None:
        """Waits for the response to the query for errors, where one was sent, and raises them."""
        what = f"{shown(ERROR_QUERY)} after {shown(self._message)}"
        while self._error_query is not None:
            message_id, content = self._next_response(wait, what)
            # Under an unknown MessageID it is the next response that is due.
            if message_id == self._error_query or not self._messages.has_sent(message_id):
                self._raise_errors(content, wait, self._response if response is None else response)
            else:
                self._response = content

    def errors(self, seconds: Optional[float]) -> List[ScpiError]:
        """Reads the error queue until it is empty; waits so long for each response."""
        errors: List[ScpiError] = []
        while len(errors) < MOST_ERRORS:
            with self._order:
                self.forget()
                self._messages.send_message(ERROR_QUERY, self._patience())
            error = error_of(self._next_response(wait_of(seconds), shown(ERROR_QUERY)).content)
            if error.number == 0:
                break
            errors.append(error)
        return errors

    def _raise_errors(self, first: bytes, wait: Wait, response: Optional[bytes], has_response: bool = True) -> None:
        """Takes the response to the query for errors, and raises the error in it with those after it in the queue."""
        self._error_query = None
        error = error_of(first)
        if error.number == 0 and has_response:
            return
        errors = [error, *self.errors(wait.seconds)] if error.number != 0 else []
        answered = None if response is None else response.rstrip(b"\n")
        raise InstrumentError(errors, shown(self._message), answered)

    def _next_response(self, wait: Wait, what: str) -> Response:
        try:
            return self._messages.receive_response(wait.deadline)
        except Timeout:
            raise Timeout(f"no response to {what} in {wait.seconds:g} s", session_continues=True) from None
        except Interrupted:
            raise Cleared(f"clear() of another thread discarded {what} or its response") from None
