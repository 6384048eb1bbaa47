"""The synchronous connection of a session: messages, cut to the server's size, and the responses to them."""
from __future__ import annotations

import time
from typing import NamedTuple

from .channel import Channel, Ending, closed_by_client, unanswered
from .errors import FatalError, HislipError, ProtocolError, ServerError, Timeout
from .frames import (
    FIRST_MESSAGE_ID, MESSAGE_ID_STEP, Frame, Interrupted, MessageType, after, before, is_known, name_of, refusal_of,
)


class Response(NamedTuple):
    """A whole response, and the MessageID that its last frame has."""

    message_id: int
    content: bytes


class Synchronous:
    """The synchronous connection. One thread at a time may use it.

    `end_all` is called with the reason where the session can't continue.
    """

    def __init__(self, channel: Channel, end_all: Ending) -> None:
        self._channel = channel
        self._end_all = end_all
        self.room = 1  # bytes of payload that the server takes, once it has said so
        self._response = bytearray()  # what came of a response that is not whole yet
        self.reset()

    def reset(self) -> None:
        """Both sides begin with the same MessageID, at the start and after a device clear."""
        self.sent_id = before(FIRST_MESSAGE_ID)
        self._frames = 0  # that were sent
        self._frames_before = 0  # that were sent before the message whose response is read
        self.is_delivered = False  # RMT-delivered: a response was read whole since the last message was sent
        self._response.clear()

    def initialize(self, parameter: int, sub_address: bytes, timeout: float) -> Frame:
        """Begins the session; returns the InitializeResponse."""
        self.send(Frame(MessageType.INITIALIZE, 0, parameter, sub_address), timeout)
        try:
            response = self.receive(timeout)
        except Timeout:
            raise unanswered("Initialize", timeout, self._end_all) from None
        if response.kind != MessageType.INITIALIZE_RESPONSE:
            raise ProtocolError("the server begins no session")
        return response

    # Messages

    def send_message(self, message: bytes, timeout: float) -> int:
        """Sends a message, and returns the MessageID that the response to it will have.

        Responses to the messages before it are dropped from now on.
        """
        self._frames_before = self._frames
        return self.send_more(message, timeout)

    def send_more(self, message: bytes, timeout: float) -> int:
        """Sends a message after which the response to the one before it can still be read."""
        parts = [message[at : at + self.room] for at in range(0, len(message), self.room)] or [b""]
        for part in parts[:-1]:
            self._send_data(MessageType.DATA, part, timeout)
        self._send_data(MessageType.DATA_END, parts[-1], timeout)
        return self.sent_id

    def receive_response(self, deadline: float) -> Response:
        """Returns the next response, but none to a message before the last `send_message`.

        After a Timeout what came of a response is kept, and the next call continues with it.
        """
        try:
            while True:
                frame = self.receive(deadline - time.monotonic())
                if frame.kind == MessageType.INTERRUPTED:
                    self._response.clear()
                elif frame.kind not in (MessageType.DATA, MessageType.DATA_END):
                    self._refuse(frame)
                elif not self._is_of_earlier_message(frame.parameter):
                    self._response += frame.payload
                    if frame.kind == MessageType.DATA_END:
                        response = Response(frame.parameter, bytes(self._response))
                        self._response.clear()
                        self.is_delivered = True
                        return response
        except (HislipError, OSError, Interrupted):
            raise
        except BaseException:
            # Ctrl-C: while nothing comes it takes nothing away, but bytes that were just received would be lost.
            if not self._channel.is_waiting:
                self._end_all(*closed_by_client("a read was interrupted"))
            raise

    def has_sent(self, message_id: int) -> bool:
        """Whether a frame with this MessageID was sent. A server may leave open to which message it responds."""
        return self._place_of(message_id) < self._frames

    def _is_of_earlier_message(self, message_id: int) -> bool:
        return self._place_of(message_id) < self._frames_before

    def _place_of(self, message_id: int) -> float:
        """Returns how many frames were sent before the one with this MessageID; infinity where it is of none."""
        steps, rest = divmod((message_id - FIRST_MESSAGE_ID) % (1 << 32), MESSAGE_ID_STEP)
        return float("inf") if rest else steps

    def _send_data(self, kind: int, payload: bytes, timeout: float) -> None:
        message_id = after(self.sent_id)
        self.send(Frame(kind, int(self.is_delivered), message_id, payload), timeout)
        self.sent_id = message_id
        self._frames += 1
        self.is_delivered = False
        self._response.clear()

    def _refuse(self, frame: Frame) -> None:
        if is_known(frame.kind):
            raise ProtocolError(f"{name_of(frame.kind)} instead of a response")
        self.send(refusal_of(frame), 1.0)

    # Device clear

    def finish_clear(self, timeout: float) -> bool:
        """Completes a device clear; returns whether the server agrees to synchronized mode."""
        self.send(Frame(MessageType.DEVICE_CLEAR_COMPLETE), timeout)
        deadline = time.monotonic() + timeout
        frame = Frame(MessageType.ERROR)
        while frame.kind != MessageType.DEVICE_CLEAR_ACKNOWLEDGE:
            try:
                frame = self.receive(deadline - time.monotonic(), is_interrupted=False)
            except Timeout:
                # The acknowledgement, if it came later, would end the next device clear too early.
                raise unanswered("DeviceClearComplete", timeout, self._end_all) from None
            except ServerError as error:
                if isinstance(error, FatalError):
                    raise  # any other is that of a message that is discarded
        self.reset()
        return not frame.control & 1

    # Frames

    def send(self, frame: Frame, timeout: float) -> None:
        self._channel.send(frame.pack(), timeout)

    def receive(self, timeout: float, is_interrupted: bool = True) -> Frame:
        """Returns the next message; raises what an Error, a FatalError or the end of the connection is."""
        frame = self._channel.receive(timeout, is_interrupted)
        text = frame.payload.decode("utf-8", "replace")
        if frame.kind == MessageType.FATAL_ERROR:
            error = FatalError(frame.control, text)
            self._end_all(*closed_by_client(str(error)))
            raise error
        if frame.kind == MessageType.ERROR:
            raise ServerError(frame.control, text)
        return frame
