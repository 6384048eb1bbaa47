"""The traffic of psu-relay as a file that Wireshark opens: each message as HiSLIP over TCP, at port 4880."""
from __future__ import annotations

import struct
from typing import Dict, List, Tuple

from .frames import DEFAULT_PORT, Frame
from .relay_log import Entry

FILE_HEADER = struct.pack("<IHHiIII", 0xA1B2C3D4, 2, 4, 0, 0, 262144, 101)  # packets that begin with an IP header
LARGEST_PIECE = 60000  # bytes of a message in a packet, whose length has sixteen bits
FIRST_PORT = 20000  # of the clients: two for each session, for its connections
ADDRESS = b"\x7f\0\0\1"

Ends = Tuple[int, int]


class Packets:
    """Makes packets of messages. The ports and the sequence numbers are made up, the times are those of the log."""

    def __init__(self) -> None:
        self._sent: Dict[Ends, int] = {}  # bytes, by the ports of sender and receiver

    def of(self, entry: Entry) -> bytes:
        """Returns the packets of a message."""
        message = Frame(entry.kind, entry.control, entry.parameter, entry.payload).pack()
        client = FIRST_PORT + 2 * (entry.session % 20000) + entry.is_async
        ends = (client, DEFAULT_PORT) if entry.is_from_client else (DEFAULT_PORT, client)
        pieces: List[bytes] = []
        for begin in range(0, len(message), LARGEST_PIECE):
            pieces.append(self._packet(entry.time, ends, message[begin : begin + LARGEST_PIECE]))
        return b"".join(pieces)

    def _packet(self, moment: float, ends: Ends, data: bytes) -> bytes:
        sent, received = self._sent.get(ends, 1), self._sent.get(ends[::-1], 1)
        self._sent[ends] = (sent + len(data)) & 0xFFFFFFFF
        # The flags are PSH and ACK; checksums of 0 are not looked at.
        tcp = struct.pack(">HHIIBBHHH", *ends, sent, received, 0x50, 0x18, 65535, 0, 0)
        size = 20 + len(tcp) + len(data)
        ip = struct.pack(">BBHHHBBH4s4s", 0x45, 0, size, 0, 0x4000, 64, 6, 0, ADDRESS, ADDRESS)
        return struct.pack("<IIII", int(moment), int(moment % 1 * 1e6), size, size) + ip + tcp + data
