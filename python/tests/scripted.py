"""A scripted server: the test plays the server's side of one session."""
from __future__ import annotations

import socket
import struct
import threading
from typing import List, Optional, Tuple

from psu.client import Instrument
from psu.frames import HEADER, HEADER_SIZE, Frame, MessageType

ROOM = 8  # bytes of payload that the scripted server takes
SESSION = 7
FIRST_REQUEST = 0x60  # the status byte of a service request that comes while the session begins


def send(channel: socket.socket, kind: int, control: int = 0, parameter: int = 0, payload: bytes = b"") -> None:
    channel.sendall(Frame(kind, control, parameter, payload).pack())


def receive(channel: socket.socket) -> Frame:
    """Returns the next message; raises EOFError where the client has closed the connection."""
    header = channel.recv(HEADER_SIZE, socket.MSG_WAITALL)
    if len(header) < HEADER_SIZE:
        raise EOFError
    _, kind, control, parameter, length = HEADER.unpack(header)
    return Frame(kind, control, parameter, channel.recv(length, socket.MSG_WAITALL) if length else b"")


class Script:
    """A client, and the server's two connections to it.

    `size` is the payload that says the server's largest message; `modes` are the control codes of InitializeResponse
    and, after a device clear that the client begins for another mode, of DeviceClearAcknowledge.
    """

    def __init__(
        self,
        room: int = ROOM,
        timeout: Optional[float] = 10.0,
        size: Optional[bytes] = None,
        modes: Tuple[int, int] = (0, 0),
        check_errors: bool = False,
    ) -> None:
        self._channels: List[socket.socket] = []
        self._size = struct.pack(">Q", HEADER_SIZE + room) if size is None else size
        self._modes = modes
        with socket.create_server(("127.0.0.1", 0)) as listener:
            listener.settimeout(10)
            thread = threading.Thread(target=self._begin, args=(listener,), daemon=True)
            thread.start()
            try:
                port = listener.getsockname()[1]
                self.client = Instrument(port=port, timeout=timeout, check_errors=check_errors)
            except BaseException:
                self.close_channels()
                raise
            thread.join()
        self.sync, self.asynchronous = self._channels

    def close(self) -> None:
        self.client.close()
        self.close_channels()

    def close_channels(self) -> None:
        for it in self._channels:
            it.close()

    def respond(self, parameter: int, *parts: bytes) -> None:
        """Sends a response in these parts, under a MessageID."""
        for part in parts[:-1]:
            send(self.sync, MessageType.DATA, 0, parameter, part)
        send(self.sync, MessageType.DATA_END, 0, parameter, parts[-1])

    def _begin(self, listener: socket.socket) -> None:
        sync = self._accepted(listener)
        assert receive(sync)[:3] == (MessageType.INITIALIZE, 0, 0x0100_5059)
        send(sync, MessageType.INITIALIZE_RESPONSE, self._modes[0], 0x0100_0000 | SESSION)
        asynchronous = self._accepted(listener)
        assert receive(asynchronous)[:3] == (MessageType.ASYNC_INITIALIZE, 0, SESSION)
        send(asynchronous, MessageType.ASYNC_INITIALIZE_RESPONSE)
        assert receive(asynchronous).kind == MessageType.ASYNC_MAXIMUM_MESSAGE_SIZE
        # A service request may come at any place of the asynchronous connection.
        send(asynchronous, MessageType.ASYNC_SERVICE_REQUEST, FIRST_REQUEST)
        send(asynchronous, MessageType.ASYNC_MAXIMUM_MESSAGE_SIZE_RESPONSE, 0, 0, self._size)
        if self._modes[0]:
            assert receive(asynchronous).kind == MessageType.ASYNC_DEVICE_CLEAR
            send(asynchronous, MessageType.ASYNC_DEVICE_CLEAR_ACKNOWLEDGE, self._modes[0])
            assert receive(sync) == (MessageType.DEVICE_CLEAR_COMPLETE, 0, 0, b"")
            send(sync, MessageType.DEVICE_CLEAR_ACKNOWLEDGE, self._modes[1])

    def _accepted(self, listener: socket.socket) -> socket.socket:
        channel, _ = listener.accept()
        channel.settimeout(10)
        channel.setsockopt(socket.IPPROTO_TCP, socket.TCP_NODELAY, 1)
        self._channels.append(channel)
        return channel
