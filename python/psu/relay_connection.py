"""A connection of psu-relay: the client's and its own to the server, with a task for each direction."""
from __future__ import annotations

import asyncio
import contextlib
import time
from typing import List, Optional, Set

from .frames import HEADER_SIZE, Frame, FrameError, Header, MessageType, unpack_header
from .listening import close_soon, reset
from .relay_changes import CHANGES, changed, fault_text
from .relay_log import MADE_BY_RELAY, Entry, payload_text
from .relay_rules import Rule, Seen, Side
from .relay_session import Session, Transmissions
from .relay_traffic import Outlet, Traffic

# A payload up to this size is read whole before it is passed on: rules and the log see its text. psu takes none beyond.
WHOLE_PAYLOAD = 65536
PIECE = 65536
MOST_REPEATS = 64  # that wait in one connection
ERROR_TEXT = b"by a rule of psu-relay"


class EndOfStream(Exception):
    """The sender ended its stream in the middle of a long frame, of which everything that came was passed on."""


class Dropped(Exception):
    """A rule ended the session."""


class Connection:
    """One connection of a client with the relay's own to the server."""

    def __init__(self, traffic: Traffic, to_client: asyncio.StreamWriter, to_server: asyncio.StreamWriter) -> None:
        self.traffic = traffic
        self.session: Optional[Session] = None
        self.is_async = False
        self.outlets = {Side.SERVER: Outlet(to_client), Side.CLIENT: Outlet(to_server)}  # by who sends
        self._tasks: "List[asyncio.Task[None]]" = []
        self.timers: Set[asyncio.TimerHandle] = set()  # of what is still to be repeated
        self._is_ending = asyncio.Event()

    async def run(self, from_client: asyncio.StreamReader, from_server: asyncio.StreamReader) -> None:
        """Passes frames on until the connection ends."""
        requests = asyncio.ensure_future(self._run_direction(Side.CLIENT, from_client))
        responses = asyncio.ensure_future(self._run_direction(Side.SERVER, from_server))
        self._tasks = [requests, responses]
        try:
            # When the client has sent its last byte the server may still respond. When the server has, it is over.
            await asyncio.wait([responses])
        except asyncio.CancelledError:
            for outlet in self.outlets.values():
                outlet.writer.transport.abort()  # the relay stops, and what waits is not sent
            raise
        finally:
            for task in self._tasks:
                task.cancel()
            self._end()

    async def wait(self, seconds: Optional[float]) -> None:
        """Waits so long, or until the session ends."""
        with contextlib.suppress(asyncio.TimeoutError):
            await asyncio.wait_for(self._is_ending.wait(), seconds)

    def wake(self) -> None:
        self._is_ending.set()

    def join(self, session: Session, is_async: bool) -> None:
        self.session, self.is_async = session, is_async
        session.join(self)

    def close(self) -> None:
        """Closes both sides and ends the tasks, but for the one that calls."""
        for outlet in self.outlets.values():
            close_soon(outlet.writer)
        for task in self._tasks:
            if task is not asyncio.current_task():
                task.cancel()

    def _end(self) -> None:
        for timer in self.timers:
            timer.cancel()
        for outlet in self.outlets.values():
            close_soon(outlet.writer)
        session = self.session
        if session is not None and session.leave(self):
            self.traffic.sessions.remove(session)
            self.traffic.report_unanswered(session)
            reason = session.end_reason or "the relay stopped"
            self.traffic.event(session, "ended", f"{reason}; {session.messages} messages")

    async def _run_direction(self, side: Side, reader: asyncio.StreamReader) -> None:
        outlet = self.outlets[side]
        try:
            await Direction(self, side, reader).run()
            self._note_end(f"closed by the {side.value}")
            if side is Side.CLIENT and outlet.writer.can_write_eof():
                outlet.writer.write_eof()
        except Dropped:
            pass
        except OSError:
            self._note_end(f"the connection of the {side.value} was lost")
            reset(outlet.writer)
        except Exception:
            self.close()
            raise

    def _note_end(self, reason: str) -> None:
        self.wake()
        if self.session is not None:
            self.session.end(reason)


class Direction:
    """One direction of a connection: reads frames, notes them, and does what the rules say."""

    def __init__(self, connection: Connection, side: Side, reader: asyncio.StreamReader) -> None:
        self._connection = connection
        self._traffic = connection.traffic
        self._side = side
        self._reader = reader
        self._outlet = connection.outlets[side]
        self._to_client = connection.outlets[Side.SERVER]
        self._transmissions = Transmissions()

    async def run(self) -> None:
        """Passes frames on until the sender's end of the stream."""
        while True:
            head = b""
            try:
                head = await self._reader.readexactly(HEADER_SIZE)
                header = unpack_header(head)
                size = header.length if header.length <= WHOLE_PAYLOAD else 0
                await self._take(header, await self._reader.readexactly(size) if size else b"")
            except asyncio.IncompleteReadError as end:
                return await self._pass_end(head + end.partial)
            except FrameError:
                return await self._pass_raw(head)
            except EndOfStream:
                return

    async def _take(self, header: Header, payload: bytes) -> None:
        begins = self._transmissions.begins_message(header)
        seconds = self._note(header, payload)
        if begins:
            rule = self._transmissions.rule = self._choose(header, payload)
            action = rule.action if rule is not None else None
        else:
            rule, action = self._transmissions.rule, self._transmissions.rest_action()
        if rule is None or action is None:
            self._write(header, payload)
            self._log(header, payload, seconds, "")
            await self._finish(header, payload)
        elif action in CHANGES:
            await self._pass_changed(rule, header, payload, seconds)
        else:
            self._log(header, payload, seconds, f"{fault_text(rule, action)}: {rule.name}")
            await getattr(self, f"_{action.name.lower()}")(rule, header, payload)

    # What is known of a message

    def _note(self, header: Header, payload: bytes) -> Optional[float]:
        """Notes a message in its session; returns the seconds since the message that it responds to."""
        now = time.monotonic()
        if self._side is Side.CLIENT:
            self._pair(header)
        session = self._connection.session
        if session is None:
            return None
        session.messages += 1
        if self._side is Side.SERVER:
            if header.kind == MessageType.INITIALIZE_RESPONSE:
                self._traffic.sessions[header.parameter & 0xFFFF] = session
            if header.kind == MessageType.DEVICE_CLEAR_ACKNOWLEDGE:
                # Up to here a response may have been under way.
                self._traffic.report_unanswered(session)
                session.forget_queries()
            return session.note_response(header, now)
        session.note_request(header, payload, now)
        return None

    def _pair(self, header: Header) -> None:
        """The first message of a connection says which session it belongs to."""
        connection = self._connection
        if connection.session is not None:
            return
        if header.kind == MessageType.INITIALIZE:
            connection.join(self._traffic.sessions.open(), is_async=False)
            peer = self._to_client.writer.get_extra_info("peername") or ("?", 0)
            self._traffic.event(connection.session, "began", f"a client at {peer[0]} port {peer[1]}")
        elif header.kind == MessageType.ASYNC_INITIALIZE:
            session = self._traffic.sessions.get(header.parameter)
            if session is not None:
                connection.join(session, is_async=True)

    def _choose(self, header: Header, payload: bytes) -> Optional[Rule]:
        if not self._traffic.rules.rules:
            return None
        session = self._connection.session
        number, counts, query = 0, {}, b""
        if session is not None:
            number, counts = session.number, session.counts
            is_response = self._side is Side.SERVER and header.kind in (MessageType.DATA, MessageType.DATA_END)
            query = session.query_of(header.parameter) if is_response else b""
        return self._traffic.rules.choose(Seen(self._side, header.kind, payload, query, number), counts)

    def _log(
        self, header: Header, payload: bytes, seconds: Optional[float], fault: str, side: Optional[Side] = None
    ) -> None:
        connection, is_from_client = self._connection, (side or self._side) is Side.CLIENT
        number = connection.session.number if connection.session is not None else 0
        kind, control, parameter, length = header
        self._traffic.write_entry(Entry(time.time(), number, connection.is_async, is_from_client, kind, control,
                                        parameter, length, payload, seconds, fault))

    # Passing on

    def _note_delivered(self, header: Header) -> None:
        session = self._connection.session
        if session is not None and self._side is Side.SERVER:
            session.note_delivered(header)

    def _write(self, header: Header, payload: bytes) -> None:
        self._note_delivered(header)
        if header.length == len(payload):
            self._outlet.write(header.pack() + payload)
        else:
            self._outlet.is_inside = True
            self._outlet.write(header.pack())

    async def _finish(self, header: Header, payload: bytes) -> None:
        """Passes on what was not read yet, and waits while the receiver takes nothing."""
        await self._outlet.writer.drain()
        left = header.length - len(payload)
        while left > 0:
            piece = await self._read_piece(left)
            self._outlet.write(piece)
            await self._outlet.writer.drain()
            left -= len(piece)
        if self._outlet.is_inside:
            self._outlet.end()

    async def _pass(self, header: Header, payload: bytes) -> None:
        self._write(header, payload)
        await self._finish(header, payload)

    async def _read_piece(self, most: int) -> bytes:
        piece = await self._reader.read(min(most, PIECE))
        if not piece:
            raise EndOfStream
        return piece

    async def _pass_end(self, partial: bytes) -> None:
        if partial:
            self._traffic.event(self._connection.session, "cut short", f"{len(partial)} bytes of a frame at the end")
            self._outlet.write(partial)
            await self._outlet.writer.drain()

    async def _pass_raw(self, head: bytes) -> None:
        """What is no HiSLIP is passed on as it is: the server has the answer to it."""
        text = payload_text(head, len(head))
        self._traffic.event(self._connection.session, "no HiSLIP", f"from the {self._side.value}: {text}")
        piece = head
        while piece:
            self._outlet.write(piece)
            await self._outlet.writer.drain()
            piece = await self._reader.read(PIECE)

    # Faults: a method for each action that changes nothing

    async def _pass_changed(self, rule: Rule, header: Header, payload: bytes, seconds: Optional[float]) -> None:
        new = changed(rule, payload, self._traffic.rules.generator)
        self._log(header, payload, seconds, f"passed on as {payload_text(new, len(new))}: {rule.name}")
        await self._pass(header._replace(length=header.length - len(payload) + len(new)), new)

    async def _trickle(self, rule: Rule, header: Header, payload: bytes) -> None:
        frame = header.pack() + payload
        self._outlet.is_inside = True
        for at in range(0, len(frame), rule.size):
            self._outlet.write(frame[at : at + rule.size])
            await self._outlet.writer.drain()
            await self._connection.wait(rule.value)
        self._note_delivered(header)
        await self._finish(header, payload)

    async def _delay(self, rule: Rule, header: Header, payload: bytes) -> None:
        await self._connection.wait(rule.value or 0)
        await self._pass(header, payload)

    async def _hold(self, _: Rule, header: Header, payload: bytes) -> None:
        left = header.length - len(payload)
        while left > 0:
            left -= len(await self._read_piece(left))

    async def _drop_before(self, rule: Rule, header: Header, payload: bytes) -> None:
        self._drop(rule)

    async def _drop_after(self, rule: Rule, header: Header, payload: bytes) -> None:
        await self._pass(header, payload)
        if header.kind != MessageType.DATA:
            self._drop(rule)

    async def _cut(self, rule: Rule, header: Header, payload: bytes) -> None:
        frame = header.pack() + payload
        size = len(frame) // 2 if rule.value is None else int(rule.value)
        self._outlet.write(frame[: min(size, len(frame) - 1)])
        self._drop(rule)

    async def _refuse(self, rule: Rule, header: Header, payload: bytes) -> None:
        self._answer(rule, MessageType.FATAL_ERROR, 4)
        self._drop(rule)

    async def _stop_reading(self, rule: Rule, header: Header, payload: bytes) -> None:
        await self._pass(header, payload)
        await self._connection.wait(rule.value)

    async def _fatal_error(self, rule: Rule, header: Header, payload: bytes) -> None:
        self._answer(rule, MessageType.FATAL_ERROR, int(rule.value or 0))
        self._drop(rule)

    async def _error(self, rule: Rule, header: Header, payload: bytes) -> None:
        self._answer(rule, MessageType.ERROR, int(rule.value or 0))
        await self._hold(rule, header, payload)

    async def _repeat(self, rule: Rule, header: Header, payload: bytes) -> None:
        await self._pass(header, payload)
        timers = self._connection.timers

        def repeat() -> None:
            timers.remove(timer)
            self._add(rule, Frame(header.kind, header.control, header.parameter, payload))

        if len(timers) < MOST_REPEATS:
            timer = asyncio.get_running_loop().call_later(rule.value or 0, repeat)
            timers.add(timer)

    def _answer(self, rule: Rule, kind: MessageType, code: int) -> None:
        self._add(rule, Frame(kind, code, 0, ERROR_TEXT))

    def _add(self, rule: Rule, frame: Frame) -> None:
        """Sends the client a frame that the server did not send."""
        self._to_client.add(frame)
        self._log(frame.header(), frame.payload, None, f"{MADE_BY_RELAY}: {rule.name}", Side.SERVER)

    def _drop(self, rule: Rule) -> None:
        session = self._connection.session
        if session is not None:
            session.end(f"dropped by {rule}")
            session.close()
        self._connection.close()
        raise Dropped
