"""Tests of what the programmer's guide says under "A client of your own": frames, sizes and raw text, byte for byte."""
import socket
import struct
import time

import pytest
from psu.frames import FIRST_MESSAGE_ID, HEADER, HEADER_SIZE, Frame, MessageType

LARGEST_PAYLOAD = 65536
FATAL_ERROR_1 = b"HS\x02\x01" + bytes(12)
WAITS = 5.0  # seconds


def receive(channel):
    """Returns the next frame, None where the server has closed the connection."""
    header = channel.recv(HEADER_SIZE, socket.MSG_WAITALL)
    if not header:
        return None
    _, kind, control, parameter, length = HEADER.unpack(header)
    return Frame(kind, control, parameter, channel.recv(length, socket.MSG_WAITALL) if length else b"")


class Session:
    """The two connections of a session, as the guide says that they begin."""

    def __init__(self, port, size=None):
        self.sync = socket.create_connection(("127.0.0.1", port), WAITS)
        self.sync.sendall(bytes.fromhex("48530000 01005858 0000000000000007") + b"hislip0")
        response = receive(self.sync)
        assert response.kind == MessageType.INITIALIZE_RESPONSE and response.control == 0
        assert response.parameter >> 16 == 0x0100
        self.number = response.parameter & 0xFFFF
        self.asynchronous = socket.create_connection(("127.0.0.1", port), WAITS)
        assert self.ask(MessageType.ASYNC_INITIALIZE, 0, self.number) == Frame(MessageType.ASYNC_INITIALIZE_RESPONSE)
        if size is not None:
            answer = self.ask(MessageType.ASYNC_MAXIMUM_MESSAGE_SIZE, payload=struct.pack(">Q", size))
            assert answer.payload == struct.pack(">Q", 65536)

    def ask(self, *fields, **more):
        self.asynchronous.sendall(Frame(*fields, **more).pack())
        return receive(self.asynchronous)

    def send(self, payload, message_id=FIRST_MESSAGE_ID, control=0, kind=MessageType.DATA_END):
        self.sync.sendall(Frame(kind, control, message_id, payload).pack())

    def response(self):
        """Returns the frames of a response."""
        frames = [receive(self.sync)]
        while frames[-1].kind == MessageType.DATA:
            frames.append(receive(self.sync))
        assert frames[-1].kind == MessageType.DATA_END
        return frames

    def close(self):
        self.sync.close()
        self.asynchronous.close()


@pytest.fixture
def begin(server):
    sessions = []

    def begun(size=None):
        sessions.append(Session(server.port, size))
        return sessions[-1]

    yield begun
    for it in sessions:
        it.close()


def test_a_message_of_several_frames_is_answered_under_the_id_of_its_last(begin):
    session = begin()
    session.send(b"VOLT 5;VO", 0xFFFF_FF00, kind=MessageType.DATA)
    session.send(b"LT?", 0xFFFF_FF02)
    assert session.response() == [Frame(MessageType.DATA_END, 0, 0xFFFF_FF02, b"5.000\n")]


def test_the_size_of_the_client_counts_the_header(begin):
    for size, largest in ((HEADER_SIZE + 4, 4), (HEADER_SIZE + 1, 1), (HEADER_SIZE, 1), (0, 1)):
        session = begin(size)
        session.send(b"*IDN?")
        parts = [it.payload for it in session.response()]
        assert b"".join(parts) == b"EXAMPLE,PSU4,0,1.0\n"
        assert max(map(len, parts)) == largest
        session.close()


def test_without_a_size_a_frame_of_a_response_has_65520_bytes(begin, supply):
    supply.write_block('MMEM:DATA "a",', bytes(32768))
    session = begin()
    session.send(b'MMEM:DATA? "a";DATA? "a";DATA? "a"')
    assert max(len(it.payload) for it in session.response()) == 65520


def test_the_server_takes_payloads_of_65536_bytes(begin):
    session = begin()
    session.send(b"*OPC?".rjust(LARGEST_PAYLOAD))
    assert session.response()[0].payload == b"1\n"
    session.send(b"*OPC?".rjust(LARGEST_PAYLOAD + 1))
    assert receive(session.sync) == Frame(MessageType.ERROR, 4)
    session.send(b"*OPC?")
    assert session.response()[0].payload == b"1\n"


def test_the_parameter_of_async_initialize_is_the_session_number_alone(server):
    with socket.create_connection(("127.0.0.1", server.port), WAITS) as sync:
        sync.sendall(Frame(MessageType.INITIALIZE, 0, 0x0100_5858, b"hislip0").pack())
        parameter = receive(sync).parameter
        with socket.create_connection(("127.0.0.1", server.port), WAITS) as asynchronous:
            asynchronous.sendall(Frame(MessageType.ASYNC_INITIALIZE, 0, parameter).pack())
            assert receive(asynchronous) == Frame(MessageType.FATAL_ERROR, 3)


def test_rmt_delivered_clears_mav(begin):
    session = begin()
    session.send(b"*OPC?")
    session.response()
    assert session.ask(MessageType.ASYNC_STATUS_QUERY, 0, FIRST_MESSAGE_ID).control & 0x10
    assert session.ask(MessageType.ASYNC_STATUS_QUERY, 1, FIRST_MESSAGE_ID).control & 0x10 == 0


def test_a_refused_query_has_no_response(begin):
    session = begin()
    session.send(b"FOO?")
    session.send(b"FOO?;:SYST:ERR?;ERR?", FIRST_MESSAGE_ID + 2)
    expected = b'-113,"Undefined header";-113,"Undefined header"\n'
    assert session.response() == [Frame(MessageType.DATA_END, 0, FIRST_MESSAGE_ID + 2, expected)]


def test_locks_and_releases(begin):
    one, other = begin(), begin()
    assert one.ask(MessageType.ASYNC_LOCK, 1, 0).control == 1
    assert other.ask(MessageType.ASYNC_LOCK, 1, 50).control == 0
    assert one.ask(MessageType.ASYNC_LOCK, 1, 0).control == 3
    assert one.ask(MessageType.ASYNC_LOCK, 0, FIRST_MESSAGE_ID - 2).control == 1
    assert one.ask(MessageType.ASYNC_LOCK, 0, FIRST_MESSAGE_ID - 2).control == 3
    assert one.ask(MessageType.ASYNC_LOCK, 1, 0, b"k" * 256).control == 1
    assert other.ask(MessageType.ASYNC_LOCK, 1, 0, b"k" * 257).control == 3
    assert one.ask(MessageType.ASYNC_LOCK_INFO) == Frame(MessageType.ASYNC_LOCK_INFO_RESPONSE, 0, 1)
    assert one.ask(MessageType.ASYNC_LOCK, 0, FIRST_MESSAGE_ID - 2).control == 2


def test_a_device_clear_in_its_order(begin):
    session = begin()
    session.send(b"*OPC?")
    assert session.ask(MessageType.ASYNC_DEVICE_CLEAR).kind == MessageType.ASYNC_DEVICE_CLEAR_ACKNOWLEDGE
    session.send(b"", 0, kind=MessageType.DEVICE_CLEAR_COMPLETE)
    kinds = [receive(session.sync).kind]
    while kinds[-1] != MessageType.DEVICE_CLEAR_ACKNOWLEDGE:
        kinds.append(receive(session.sync).kind)
    assert kinds[:-1] in ([], [MessageType.DATA_END])
    session.send(b"VOLT?")
    assert session.response() == [Frame(MessageType.DATA_END, 0, FIRST_MESSAGE_ID, b"0.000\n")]


def raw(port, text, timeout):
    """Sends bytes to the HiSLIP port; returns what comes, and after how many seconds the server closes."""
    began, came = time.monotonic(), b""
    with socket.create_connection(("127.0.0.1", port), timeout) as it:
        it.sendall(text)
        for piece in iter(lambda: it.recv(4096), b""):
            came += piece
    return came, time.monotonic() - began


@pytest.mark.parametrize("text", [b"*IDN?;*OPC?;*ESR?\n", b"GET / HTTP/1.1\r\nHost: example\r\n\r\n"])
def test_raw_text_gets_a_fatal_error(server, text):
    assert raw(server.port, text, WAITS)[0] == FATAL_ERROR_1


def test_less_than_a_header_gets_nothing_and_is_closed_after_ten_seconds(server):
    came, seconds = raw(server.port, b"*IDN?\n", 20)
    assert came == b""
    assert 9 < seconds < 15
