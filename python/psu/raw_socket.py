"""psu-socket: raw SCPI sockets before a server of HiSLIP. Each TCP connection is a session.

    psu-socket --listen 127.0.0.1:5025 --to 4880

A line is a message, and a response is a line; docs/BENCH.md says what takes the place of device clear and service
requests.
"""
from __future__ import annotations

import asyncio
import functools
import sys
from typing import Iterable, List, Optional, Tuple

from .frames import (
    FATAL_ERRORS, FIRST_MESSAGE_ID, PROTOCOL_1_0, VENDOR, Frame, FrameError, MessageType, after, control_in_words,
    name_of,
)
from .listening import (
    SERVER_ADDRESS, Endpoint, LoopServer, Target, close_soon, connect, endpoint_of, listening_parser, parsed, read_frame,
    report, run_until_signal, status_of,
)
from .raw_faults import Disconnected, RawFaults, check_rules
from .raw_messages import LARGEST_PART, Divider
from .relay_rules import RuleText, Side, parsed_rules

PROGRAM = "psu-socket"
DEFAULT_PORT = 5025
BEGIN_SECONDS = 10.0  # the longest wait for the server to begin a session
# It changes nothing, and its response comes after those to all messages before it.
LAST_MESSAGE = b"*STB?\n"
say = functools.partial(report, PROGRAM)

Stream = Tuple[asyncio.StreamReader, asyncio.StreamWriter]


class Refused(Exception):
    """The server begins no session, or ended it."""


async def ask(stream: Stream, frame: Frame, response: MessageType) -> Frame:
    """Sends a message and returns its response; raises Refused where another message or none comes."""
    reader, writer = stream
    writer.write(frame.pack())
    answer = await asyncio.wait_for(read_frame(reader), BEGIN_SECONDS)
    if answer is None:
        raise Refused("the server closed the connection")
    if answer.kind == MessageType.FATAL_ERROR:
        raise Refused(FATAL_ERRORS.get(answer.control, f"FatalError {answer.control}"))
    if answer.kind != response:
        raise Refused(f"{name_of(answer.kind)} instead of {name_of(response)}")
    return answer


class Session:
    """A session with the server: both its connections."""

    def __init__(self, to: Target) -> None:
        self._to = to
        self._writers: List[asyncio.StreamWriter] = []
        self._next_id = FIRST_MESSAGE_ID
        self.is_delivered = False  # RMT-delivered: a response was passed on whole since the last message was sent

    async def begin(self) -> None:
        self._sync = await self._connect()
        initialize = Frame(MessageType.INITIALIZE, 0, PROTOCOL_1_0 << 16 | VENDOR, b"hislip0")
        begun = await ask(self._sync, initialize, MessageType.INITIALIZE_RESPONSE)
        self._async = await self._connect()
        second = Frame(MessageType.ASYNC_INITIALIZE, 0, begun.parameter & 0xFFFF)
        await ask(self._async, second, MessageType.ASYNC_INITIALIZE_RESPONSE)

    def close(self) -> None:
        for writer in self._writers:
            writer.close()

    async def send(self, data: bytes, is_end: bool) -> int:
        """Sends bytes of a message; returns their MessageID. Waits while the server takes nothing."""
        kind = MessageType.DATA_END if is_end else MessageType.DATA
        message_id, self._next_id = self._next_id, after(self._next_id)
        writer = self._sync[1]
        writer.write(Frame(kind, int(self.is_delivered), message_id, data).pack())
        self.is_delivered = False
        await writer.drain()
        return message_id

    async def receive(self) -> Frame:
        """Returns the next frame of a response."""
        while True:
            frame = await read_frame(self._sync[0])
            if frame is None:
                raise Refused("the server closed the connection")
            if frame.kind in (MessageType.DATA, MessageType.DATA_END):
                return frame
            if frame.kind == MessageType.FATAL_ERROR:
                raise Refused(control_in_words(frame.kind, frame.control))
            say(f"{name_of(frame.kind)} of the server: {control_in_words(frame.kind, frame.control)}")

    async def discard_requests(self) -> None:
        """Reads the asynchronous connection until it ends: a raw socket has no place for service requests."""
        while await read_frame(self._async[0]) is not None:
            pass

    async def _connect(self) -> Stream:
        stream = await connect(self._to)
        self._writers.append(stream[1])
        return stream


class Client:
    """A client at a raw socket, with its session."""

    def __init__(
        self, reader: asyncio.StreamReader, writer: asyncio.StreamWriter, session: Session, faults: RawFaults
    ) -> None:
        self._reader = reader
        self._writer = writer
        self._session = session
        self._faults = faults
        self._last_id: Optional[int] = None  # of the message after the client's last one
        self._is_gone = False  # it takes no more responses

    async def run(self) -> None:
        """Passes messages and responses on until the client or the server ends."""
        messages = asyncio.ensure_future(self._pass_messages())
        responses = asyncio.ensure_future(self._pass_responses())
        requests = asyncio.ensure_future(self._session.discard_requests())
        try:
            await asyncio.wait([messages, responses], return_when=asyncio.FIRST_EXCEPTION)
            for task in (messages, responses):
                if task.done():
                    task.result()
        finally:
            for task in (messages, responses, requests):
                task.cancel()
            await asyncio.gather(messages, responses, requests, return_exceptions=True)

    async def _pass_messages(self) -> None:
        divider = Divider()
        while True:
            data = await self._reader.read(LARGEST_PART)
            divider.feed(data)
            piece = divider.next_piece()
            while piece is not None:
                await self._pass_message(piece.data, piece.is_end)
                piece = divider.next_piece()
            if not data:
                break
        rest = divider.rest()
        if rest:
            await self._pass_message(rest, True)
        self._last_id = await self._session.send(LAST_MESSAGE, True)

    async def _pass_message(self, data: bytes, is_end: bool) -> None:
        passed = await self._faults.take_command(data)
        if passed is not None:
            self._faults.note_text(await self._session.send(passed, is_end), passed)
        if is_end:
            self._faults.end_message(Side.CLIENT)

    async def _pass_responses(self) -> None:
        while True:
            frame = await self._session.receive()
            if frame.parameter == self._last_id:
                return
            is_end = frame.kind == MessageType.DATA_END
            try:
                if not self._is_gone:
                    await self._faults.take_response(self._writer, frame.parameter, frame.payload)
            except ConnectionError:
                self._is_gone = True  # its messages are executed all the same
            if is_end:
                self._faults.end_message(Side.SERVER)
                self._session.is_delivered = True


class RawSocket(LoopServer):
    """The raw sockets of a server. In a test: `with RawSocket(to=server.port) as raw: .. raw.port`."""

    def __init__(
        self, to: Target, listen: Endpoint = Endpoint(SERVER_ADDRESS, 0), rules: Iterable[RuleText] = (), seed: int = 0
    ) -> None:
        super().__init__(listen)
        self.to = to
        self._rules = parsed_rules(rules, seed)
        check_rules(self._rules)
        self._clients = 0

    async def serve(self, reader: asyncio.StreamReader, writer: asyncio.StreamWriter) -> None:
        session = Session(self.to)
        self._clients += 1
        faults = RawFaults(self._rules, self._clients)
        try:
            await session.begin()
            await Client(reader, writer, session, faults).run()
        except ConnectionRefusedError:
            say(f"a client was disconnected: nothing listens on {endpoint_of(self.to)}")
        except (Refused, FrameError, Disconnected) as fault:
            say(f"a client was disconnected: {fault}")
        except asyncio.TimeoutError:
            say("a client was disconnected: the server did not respond")
        except OSError as fault:
            say(f"a connection was lost: {fault.strerror or fault}")
        finally:
            session.close()
            close_soon(writer)

    def report_full(self) -> None:
        say(f"more than {self.connections_at_once} connections: one was closed")


def main(words: Optional[List[str]] = None) -> int:
    """Runs the program; returns its exit status."""
    parser = listening_parser(PROGRAM, __doc__, DEFAULT_PORT)
    parser.add_argument("--rule", action="append", default=[], metavar="RULE", help="a fault, as the rules of psu-relay")
    parser.add_argument("--seed", type=int, default=0, help="the seed of what a rule leaves to chance (0)")
    given = parsed(parser, words)
    return status_of(PROGRAM, lambda: run_until_signal(RawSocket(given.to, given.listen, given.rule, given.seed)))


if __name__ == "__main__":
    sys.exit(main())
