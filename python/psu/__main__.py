"""A bench in one command: the server of an image, and as options a relay with rules, raw sockets and a panel.

    python3 -m psu bench.psu --socket --relay --panel --rule 'delay 2 response to "MEAS:VOLT?"'

IMAGE is made where it is missing. Prints the address of each, and ends with all of them once the server ends, or at
SIGTERM, SIGINT or SIGHUP. Raw sockets are before the relay, where there is one; the panel has a button for a power cut.
"""
from __future__ import annotations

import argparse
import contextlib
import signal
import sys
import threading
from typing import List, Optional

from . import panel, raw_socket, relay
from .command_line import plain_parser
from .errors import ServerNotStarted
from .frames import DEFAULT_PORT
from .listening import SERVER_ADDRESS, Endpoint, status_of
from .relay_log import RotatingFile
from .resource import Resource
from .server import Server

LOOK_SECONDS = 0.2  # between two looks whether the server runs


class Bench(contextlib.ExitStack):
    """What runs, in a `with` block."""

    def __init__(self, arguments: argparse.Namespace) -> None:
        super().__init__()
        self._arguments = arguments
        self._changing = threading.Lock()  # while the server is killed and started again
        self._shown = ""  # of what it wrote to standard error
        self._server = Server(arguments.image, port=arguments.port)

    def start(self) -> None:
        """Starts all parts, and prints their addresses."""
        given, enter = self._arguments, self.enter_context
        port = enter(self._server).port
        assert port is not None
        say("server", port, str(Resource(SERVER_ADDRESS, port)))
        before = port
        if given.relay is not None:
            log = RotatingFile(given.log) if given.log is not None else None
            before = enter(relay.Relay(port, given.rule, log, Endpoint(SERVER_ADDRESS, given.relay), given.seed)).port
            say("relay", before, str(Resource(SERVER_ADDRESS, before)))
        if given.socket is not None:
            raw = enter(raw_socket.RawSocket(before, Endpoint(SERVER_ADDRESS, given.socket))).port
            say("socket", raw, f"TCPIP::{SERVER_ADDRESS}::{raw}::SOCKET")
        if given.panel is not None:
            page = enter(panel.Panel(port, given.panel, cut_power=self._cut_power))
            threading.Thread(target=page.serve_forever, daemon=True).start()
            self.callback(page.shutdown)
            say("panel", page.server_port, page.address)

    def _cut_power(self) -> None:
        with self._changing:
            self._server.restart()

    def run(self, stopping: threading.Event) -> None:
        """Returns once `stopping` is set; raises ServerNotStarted where the server has ended by itself."""
        while not stopping.wait(LOOK_SECONDS):
            with self._changing:
                self._pass_messages()
                if not self._server.is_running:
                    raise ServerNotStarted("the server has ended")

    def _pass_messages(self) -> None:
        """Passes on what the server wrote to standard error."""
        text = self._server.messages()
        sys.stderr.write(text[len(self._shown) :] if text.startswith(self._shown) else text)
        self._shown = text


def say(name: str, port: int, address: str) -> None:
    print(f"{name:6}  {SERVER_ADDRESS}:{port:<5}  {address}", flush=True)


def made_parser() -> argparse.ArgumentParser:
    made = plain_parser(__doc__, "python3 -m psu")
    made.add_argument("image", metavar="IMAGE", help="the image, as bench.psu")
    made.add_argument("--port", type=int, default=DEFAULT_PORT, help=f"the server's port ({DEFAULT_PORT})")
    for name, of in (("relay", relay), ("socket", raw_socket), ("panel", panel)):
        what = f"psu-{name}, at this port ({of.DEFAULT_PORT})"
        made.add_argument(f"--{name}", type=int, nargs="?", const=of.DEFAULT_PORT, metavar="PORT", help=what)
    made.add_argument("--rule", action="append", default=[], help="a rule of the relay, as `psu-relay --rule`")
    made.add_argument("--log", metavar="FILE", help="where the relay writes the traffic")
    made.add_argument("--seed", type=int, default=0, help="the seed of the rules with a probability (0)")
    return made


def main(words: Optional[List[str]] = None) -> int:
    """Runs the program; returns its exit status."""
    parser = made_parser()
    arguments = parser.parse_args(words)
    if arguments.relay is None and (arguments.rule or arguments.log):
        parser.error("--rule and --log are for a relay: add --relay")
    stopping = threading.Event()
    for number in (signal.SIGTERM, signal.SIGINT, signal.SIGHUP):
        signal.signal(number, lambda *_: stopping.set())

    def run() -> None:
        with Bench(arguments) as bench:
            bench.start()
            bench.run(stopping)

    return status_of("psu", run)


if __name__ == "__main__":
    sys.exit(main())
