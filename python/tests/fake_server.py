"""What tests of psu-relay and psu-socket share: a small server of HiSLIP that echoes queries, and calls that wait."""
from __future__ import annotations

import asyncio
import contextlib
import io
import threading
import time
from typing import Callable, Dict, List, Tuple

from psu.frames import PROTOCOL_1_0, Frame, FrameError, MessageType
from psu.listening import SERVER_ADDRESS, Endpoint, LoopServer, read_frame

LARGEST_MESSAGE = 65536


class FakeServer(LoopServer):
    """Echoes each message that has a `?`; `SRQ` gives a service request, `BIG?` a response of three frames."""

    def __init__(self, most_sessions: int = 100) -> None:
        super().__init__(Endpoint(SERVER_ADDRESS, 0))
        self.messages: List[bytes] = []
        self.open_sessions = 0
        self._most = most_sessions
        self._last = 0
        self._async: Dict[int, asyncio.StreamWriter] = {}

    async def serve(self, reader: asyncio.StreamReader, writer: asyncio.StreamWriter) -> None:
        try:
            first = await read_frame(reader)
            if first is not None and first.kind == MessageType.INITIALIZE:
                await self._serve_sync(reader, writer)
            elif first is not None:
                await self._serve_async(first.parameter, reader, writer)
        except (ConnectionError, FrameError):
            pass  # the client is gone, or sends no HiSLIP

    async def _serve_sync(self, reader: asyncio.StreamReader, writer: asyncio.StreamWriter) -> None:
        if self.open_sessions >= self._most:
            writer.write(Frame(MessageType.FATAL_ERROR, 4).pack())
            return
        self._last += 1
        self.open_sessions += 1
        session, message = self._last, b""
        writer.write(Frame(MessageType.INITIALIZE_RESPONSE, 0, PROTOCOL_1_0 << 16 | session).pack())
        try:
            frame = await read_frame(reader)
            while frame is not None:
                message += frame.payload
                if frame.kind == MessageType.DATA_END:
                    self._execute(session, frame.parameter, message, writer)
                    message = b""
                elif frame.kind == MessageType.DEVICE_CLEAR_COMPLETE:
                    writer.write(Frame(MessageType.DEVICE_CLEAR_ACKNOWLEDGE).pack())
                await writer.drain()
                frame = await read_frame(reader)
        finally:
            self.open_sessions -= 1
            if session in self._async:
                self._async.pop(session).close()

    def _execute(self, session: int, message_id: int, message: bytes, writer: asyncio.StreamWriter) -> None:
        self.messages.append(message)
        parts = [b"part of a response, "] * 2 + [message] if b"BIG?" in message else [message]
        if b"SRQ" in message:
            self._async[session].write(Frame(MessageType.ASYNC_SERVICE_REQUEST, 0x60).pack())
        if b"?" in message:
            for part in parts[:-1]:
                writer.write(Frame(MessageType.DATA, 0, message_id, part).pack())
            writer.write(Frame(MessageType.DATA_END, 0, message_id, parts[-1]).pack())

    async def _serve_async(self, session: int, reader: asyncio.StreamReader, writer: asyncio.StreamWriter) -> None:
        self._async[session] = writer
        writer.write(Frame(MessageType.ASYNC_INITIALIZE_RESPONSE).pack())
        frame = await read_frame(reader)
        while frame is not None:
            is_size = frame.kind == MessageType.ASYNC_MAXIMUM_MESSAGE_SIZE
            payload = LARGEST_MESSAGE.to_bytes(8, "big") if is_size else b""
            kind = ANSWERS.get(MessageType(frame.kind))
            if kind is not None:
                writer.write(Frame(kind, 0, 0, payload).pack())
            frame = await read_frame(reader)


ANSWERS = {
    MessageType.ASYNC_MAXIMUM_MESSAGE_SIZE: MessageType.ASYNC_MAXIMUM_MESSAGE_SIZE_RESPONSE,
    MessageType.ASYNC_STATUS_QUERY: MessageType.ASYNC_STATUS_RESPONSE,
    MessageType.ASYNC_DEVICE_CLEAR: MessageType.ASYNC_DEVICE_CLEAR_ACKNOWLEDGE,
    MessageType.ASYNC_LOCK_INFO: MessageType.ASYNC_LOCK_INFO_RESPONSE,
}


def run_main(main: Callable[[List[str]], int], words: List[str]) -> Tuple[int, str]:
    """Runs a program's `main` that ends by itself; returns its exit status and what it wrote to standard error."""
    written = io.StringIO()
    with contextlib.redirect_stderr(written):
        try:
            status = main(words)
        except SystemExit as end:
            status = int(end.code or 0)
    return status, written.getvalue()


def wait_until(is_true: Callable[[], bool], timeout: float = 10.0) -> bool:
    """Waits until a condition holds; returns whether it did in time."""
    deadline = time.monotonic() + timeout
    while not is_true():
        if time.monotonic() > deadline:
            return False
        threading.Event().wait(0.01)
    return True
