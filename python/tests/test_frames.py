"""Tests of the frames of HiSLIP: their bytes, their readers and their words."""
import asyncio
import socket
import unittest

from psu.frames import (
    Frame,
    FrameError,
    Header,
    MessageType,
    SocketFrames,
    after,
    before,
    control_in_words,
    name_of,
    unpack_header,
)
from psu.listening import read_frame

# DataEnd with RMT-delivered, the first MessageID and a payload of four bytes, as IVI-6.1 writes it.
QUERY = b"HS\x07\x01\xff\xff\xff\x00\x00\x00\x00\x00\x00\x00\x00\x04VOL?"


async def read_all(data, largest=100):
    reader = asyncio.StreamReader()
    reader.feed_data(data)
    reader.feed_eof()
    frames = []
    frame = await read_frame(reader, largest)
    while frame is not None:
        frames.append(frame)
        frame = await read_frame(reader, largest)
    return frames


class BytesTest(unittest.TestCase):
    def test_a_frame_has_these_bytes(self):
        self.assertEqual(Frame(MessageType.DATA_END, 1, 0xFFFFFF00, b"VOL?").pack(), QUERY)

    def test_a_header_is_read_from_its_bytes(self):
        self.assertEqual(unpack_header(QUERY), Header(7, 1, 0xFFFFFF00, 4))
        self.assertEqual(unpack_header(QUERY).pack(), QUERY[:16])

    def test_another_begin_is_refused(self):
        with self.assertRaises(FrameError):
            unpack_header(b"HT" + QUERY[2:])

    def test_message_ids_return_to_zero(self):
        self.assertEqual(after(0xFFFFFFFE), 0)
        self.assertEqual(before(0), 0xFFFFFFFE)


class AsyncioReaderTest(unittest.TestCase):
    def test_frames_one_after_another(self):
        frame = Frame(7, 1, 0xFFFFFF00, b"VOL?")
        self.assertEqual(asyncio.run(read_all(QUERY * 3)), [frame] * 3)
        self.assertEqual(asyncio.run(read_all(b"")), [])

    def test_an_end_in_the_middle_is_refused(self):
        for size in (1, 15, 16, 19):
            with self.assertRaises(FrameError):
                asyncio.run(read_all(QUERY + QUERY[:size]))

    def test_the_limit_of_a_payload(self):
        self.assertEqual(len(asyncio.run(read_all(QUERY, largest=4))), 1)
        with self.assertRaises(FrameError):
            asyncio.run(read_all(QUERY, largest=3))


class SocketReaderTest(unittest.TestCase):
    def setUp(self):
        self.near, self.far = socket.socketpair()
        self.addCleanup(self.near.close)
        self.addCleanup(self.far.close)
        self.frames = SocketFrames(self.near)

    def test_a_timeout_keeps_what_came(self):
        self.far.sendall(QUERY[:18])
        with self.assertRaises(TimeoutError):
            self.frames.receive(0.01)
        self.far.sendall(QUERY[18:] + QUERY)
        self.assertEqual(self.frames.receive(5), self.frames.receive(5))

    def test_an_end(self):
        self.far.sendall(QUERY)
        self.far.shutdown(socket.SHUT_WR)
        self.assertEqual(self.frames.receive(5).payload, b"VOL?")
        self.assertIsNone(self.frames.receive(5))

    def test_an_end_in_the_middle_is_refused(self):
        self.far.sendall(QUERY[:18])
        self.far.shutdown(socket.SHUT_WR)
        with self.assertRaises(FrameError):
            self.frames.receive(5)


class WordsTest(unittest.TestCase):
    def test_names_are_those_of_the_standard(self):
        for kind, name in ((0, "Initialize"), (7, "DataEnd"), (16, "AsyncMaximumMessageSizeResponse"),
                           (25, "AsyncLockInfoResponse"), (26, "unknown type 26"), (128, "vendor type 128")):
            self.assertEqual(name_of(kind), name)

    def test_control_codes(self):
        for kind, control, words in (
            (MessageType.DATA_END, 0, ""),
            (MessageType.DATA_END, 1, "RMT-delivered"),
            (MessageType.FATAL_ERROR, 4, "the server serves its maximum number of clients"),
            (MessageType.ERROR, 1, "unrecognized message type"),
            (MessageType.ASYNC_SERVICE_REQUEST, 96, "status 96 ESB+RQS"),
            (MessageType.ASYNC_STATUS_RESPONSE, 0, "status 0 no bit"),
            (MessageType.ASYNC_INITIALIZE, 3, "control 3"),
            (MessageType.ERROR, 9, "control 9"),
        ):
            self.assertEqual(control_in_words(kind, control), words)


if __name__ == "__main__":
    unittest.main()
