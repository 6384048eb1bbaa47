"""What psu-relay and psu-socket share: where they listen, a server on an asyncio loop, alone or in a thread, and frames."""
from __future__ import annotations

import argparse
import asyncio
import concurrent.futures
import contextlib
import ipaddress
import signal
import socket
import struct
import sys
import threading
from typing import Callable, List, NamedTuple, Optional, Set, Tuple, TypeVar, Union

from .command_line import plain_parser
from .errors import ServerNotStarted
from .frames import DEFAULT_PORT, HEADER_SIZE, LARGEST_PAYLOAD, CutShort, Frame, allowed_length, unpack_header
from .relay_rules import RuleError

SERVER_ADDRESS = "127.0.0.1"
ALLOW_REMOTE = "--allow-remote"
OLD_ALLOW_REMOTE = "--yes-i-know-it-has-no-protection"  # as it was called first
LINGER_SECONDS = 2.0  # the longest wait for tasks at the end of the program
SEND_SECONDS = 60.0  # the longest wait for the peer of a closed connection to take what was sent to it


class Endpoint(NamedTuple):
    """An IP address and a port."""

    address: str
    port: int

    def __str__(self) -> str:
        return f"[{self.address}]:{self.port}" if ":" in self.address else f"{self.address}:{self.port}"


def parse_endpoint(text: str) -> Endpoint:
    """Reads `ADDRESS:PORT`, `[ADDRESS]:PORT` for IPv6, or `PORT` alone, which means 127.0.0.1."""
    try:
        address, port = split_endpoint(text, least_port=0)
        return Endpoint(str(ipaddress.ip_address(address)), port)
    except ValueError:
        raise argparse.ArgumentTypeError(f"{text!r} is not ADDRESS:PORT, as 127.0.0.1:4881") from None


def parse_server(text: str) -> Endpoint:
    """Reads where a server is: `PORT` on 127.0.0.1, or `HOST:PORT` with a name or an address."""
    try:
        return split_endpoint(text, least_port=1)
    except ValueError:
        raise argparse.ArgumentTypeError(f"{text!r} is not a port, or HOST:PORT") from None


def split_endpoint(text: str, least_port: int) -> Endpoint:
    host, _, port = text.rpartition(":")
    host = host[1:-1] if host.startswith("[") and host.endswith("]") else host
    if not least_port <= int(port) <= 65535:
        raise ValueError(f"{port} is not a port")
    return Endpoint(host or SERVER_ADDRESS, int(port))


Target = Union[int, Endpoint]  # where a server is; a port alone is one of this machine


def endpoint_of(target: Target) -> Endpoint:
    return target if isinstance(target, Endpoint) else Endpoint(SERVER_ADDRESS, target)


def listening_parser(program: str, description: Optional[str], port: int) -> argparse.ArgumentParser:
    """Returns a parser with --listen, --to and the option that allows another address than a loopback one."""
    parser = plain_parser(description, program)
    default = Endpoint(SERVER_ADDRESS, port)
    parser.add_argument("--listen", type=parse_endpoint, default=default, metavar="ADDRESS:PORT",
                        help=f"where clients connect ({default}); port 0 takes a free one")
    add_server_option(parser)
    parser.add_argument(ALLOW_REMOTE, OLD_ALLOW_REMOTE, action="store_true", dest="is_open",
                        help="listen on an address that other machines reach, where anyone commands the instrument")
    return parser


def add_server_option(parser: argparse.ArgumentParser) -> None:
    """Adds --to."""
    server = Endpoint(SERVER_ADDRESS, DEFAULT_PORT)
    parser.add_argument("--to", type=parse_server, default=server, metavar="[HOST:]PORT", help=f"the server ({server})")


def parsed(parser: argparse.ArgumentParser, words: Optional[List[str]]) -> argparse.Namespace:
    """Returns the options; ends the program where other machines reach the address and that is not allowed."""
    arguments = parser.parse_args(words)
    if not ipaddress.ip_address(arguments.listen.address).is_loopback and not arguments.is_open:
        parser.error(f"anyone who reaches {arguments.listen} would command the instrument: add {ALLOW_REMOTE}")
    return arguments


def status_of(program: str, run: Callable[[], None]) -> int:
    """Runs a program; returns its exit status: 1 for a fault, 2 for a wrong rule, with a line on standard error."""
    try:
        run()
    except (RuleError, ServerNotStarted, OSError) as fault:
        report(program, str(fault))
        return 2 if isinstance(fault, RuleError) else 1
    return 0


Self = TypeVar("Self", bound="LoopServer")


class LoopServer:
    """A TCP server on an asyncio loop. A subclass serves each connection in `serve`.

    In a test: `with Relay(to=4880) as relay: ... relay.port`. The loop runs in a thread of its own then.
    """

    connections_at_once = 128

    def __init__(self, listen: Endpoint) -> None:
        self.listen = listen
        self.port = listen.port
        self._tasks: Set["asyncio.Task[None]"] = set()
        self._server: Optional[asyncio.AbstractServer] = None
        self._thread: Optional[threading.Thread] = None
        self._loop: Optional[asyncio.AbstractEventLoop] = None
        self._stopping: Optional[asyncio.Event] = None

    async def serve(self, reader: asyncio.StreamReader, writer: asyncio.StreamWriter) -> None:
        """Serves one connection until it ends."""
        raise NotImplementedError

    def report_full(self) -> None:
        """Is called where a connection is closed at once since there are too many."""

    async def start(self) -> None:
        self._server = await asyncio.start_server(self._take, self.listen.address, self.listen.port, backlog=64)
        self.port = self._server.sockets[0].getsockname()[1]

    async def stop(self) -> None:
        """Takes no more connections and ends those that are open."""
        if self._server is not None:
            self._server.close()
        for task in self._tasks:
            task.cancel()
        if self._tasks:
            await asyncio.wait(self._tasks, timeout=LINGER_SECONDS)
        await asyncio.sleep(0)  # closed connections are given up at the loop's next turn

    async def run(self, ready: Callable[[], None], stopping: asyncio.Event) -> None:
        """Serves until `stopping` is set; calls `ready` once clients can connect."""
        try:
            await self.start()
            ready()
            await stopping.wait()
        finally:
            await self.stop()

    async def _take(self, reader: asyncio.StreamReader, writer: asyncio.StreamWriter) -> None:
        # asyncio calls this as a task of its own.
        task = asyncio.current_task()
        assert task is not None
        if len(self._tasks) >= self.connections_at_once:
            self.report_full()
            writer.close()
            return
        self._tasks.add(task)
        keep_alive(writer)
        try:
            await self.serve(reader, writer)
        except asyncio.CancelledError:
            pass  # the server stops; asyncio before 3.12 would report this task as failed
        finally:
            self._tasks.discard(task)
            writer.close()

    # In a thread

    def __enter__(self: Self) -> Self:
        ready: "concurrent.futures.Future[None]" = concurrent.futures.Future()
        self._thread = threading.Thread(target=self._run_thread, args=(ready,), daemon=True)
        self._thread.start()
        ready.result()
        return self

    def __exit__(self, *_: object) -> None:
        if self._thread is not None and self._loop is not None and self._stopping is not None:
            self._loop.call_soon_threadsafe(self._stopping.set)
            self._thread.join()
            self._thread = None

    def _run_thread(self, ready: "concurrent.futures.Future[None]") -> None:
        async def run() -> None:
            self._loop, self._stopping = asyncio.get_running_loop(), asyncio.Event()
            await self.run(lambda: ready.set_result(None), self._stopping)

        try:
            asyncio.run(run())
        except OSError as fault:
            ready.set_exception(fault)


async def read_frame(reader: asyncio.StreamReader, largest: int = LARGEST_PAYLOAD) -> Optional[Frame]:
    """Returns the next frame of an asyncio stream, None where the stream ends before it."""
    head = b""
    try:
        head = await reader.readexactly(HEADER_SIZE)
        header = unpack_header(head)
        payload = await reader.readexactly(allowed_length(header, largest))
    except asyncio.IncompleteReadError as end:
        if not head and not end.partial:
            return None
        raise CutShort("the stream ended in the middle of a frame") from None
    return Frame(header.kind, header.control, header.parameter, payload)


async def connect(target: Target) -> Tuple[asyncio.StreamReader, asyncio.StreamWriter]:
    """Connects to the server."""
    where = endpoint_of(target)
    return await asyncio.open_connection(where.address, where.port)


def keep_alive(writer: asyncio.StreamWriter) -> None:
    """Has the kernel look after a silent client: one that has vanished without a word ends within two minutes."""
    connection = writer.get_extra_info("socket")
    connection.setsockopt(socket.SOL_SOCKET, socket.SO_KEEPALIVE, 1)
    for name, value in (("TCP_KEEPIDLE", 60), ("TCP_KEEPINTVL", 10), ("TCP_KEEPCNT", 6)):
        if hasattr(socket, name):
            connection.setsockopt(socket.IPPROTO_TCP, getattr(socket, name), value)


def reset(writer: asyncio.StreamWriter) -> None:
    """Closes a connection at once, without what waits to be sent; the peer gets a reset."""
    connection = writer.get_extra_info("socket")
    if connection is not None:
        with contextlib.suppress(OSError):  # it is closed already
            connection.setsockopt(socket.SOL_SOCKET, socket.SO_LINGER, struct.pack("ii", 1, 0))
    writer.transport.abort()


def run_until_signal(
    server: LoopServer, is_announced: bool = True, hang_up: Optional[Callable[[], None]] = None
) -> None:
    """Serves until SIGTERM or SIGINT, and SIGHUP where that is not for `hang_up`; raises OSError without a port."""
    def announce() -> None:
        if is_announced:
            print(f"listening on {Endpoint(server.listen.address, server.port)}", flush=True)

    async def run() -> None:
        stopping = asyncio.Event()
        loop = asyncio.get_running_loop()
        for number in (signal.SIGTERM, signal.SIGINT):
            loop.add_signal_handler(number, stopping.set)
        loop.add_signal_handler(signal.SIGHUP, hang_up or stopping.set)
        await server.run(announce, stopping)

    asyncio.run(run())


def report(program: str, text: str) -> None:
    """Writes a line on standard error, as psu does; a closed standard error is no fault."""
    with contextlib.suppress(OSError, ValueError):
        print(f"{program}: {text}", file=sys.stderr, flush=True)


def close_soon(writer: asyncio.StreamWriter) -> None:
    """Closes a connection once what waits is sent, and without it where the peer takes nothing for a minute."""
    if writer.is_closing():
        return
    if writer.transport.get_write_buffer_size() > 0:
        asyncio.get_running_loop().call_later(SEND_SECONDS, writer.transport.abort)
    writer.close()
