"""psu-relay: a relay between clients and a server of HiSLIP that shows the traffic and makes faults on request.

    psu-relay --listen 127.0.0.1:4881 --to 4880 --log traffic.log --rule 'delay 2 response to "MEAS:VOLT?"'

docs/BENCH.md has the rules and worked uses.
"""
from __future__ import annotations

import argparse
import asyncio
import atexit
import functools
import logging
import random
import sys
import time
from typing import BinaryIO, Iterable, List, Optional, TextIO, Union

from .listening import (
    SERVER_ADDRESS, Endpoint, LoopServer, Target, connect, endpoint_of, listening_parser, parsed, report,
    run_until_signal, status_of,
)
from .relay_connection import Connection
from .relay_log import Entry, Event, LogWriter, RotatingFile, json_event, json_line, text_event, text_line
from .relay_pcap import FILE_HEADER, Packets
from .relay_rules import Rule, RuleError, RuleText, parse_rules, parsed_rules
from .relay_summary import Summary
from .relay_traffic import Traffic

PROGRAM = "psu-relay"
DEFAULT_PORT = 4881
say = functools.partial(report, PROGRAM)


class Relay(LoopServer):
    """A relay. In a test: `with Relay(to=server.port, rules=["hold response number 3"]) as relay: .. relay.port`."""

    def __init__(
        self, to: Target, rules: Iterable[RuleText] = (), log: Union[TextIO, RotatingFile, None] = None,
        listen: Endpoint = Endpoint(SERVER_ADDRESS, 0), seed: int = 0, is_json: bool = False,
        pcap: Optional[BinaryIO] = None
    ) -> None:
        super().__init__(listen)
        self.to = to
        self.summary = Summary()
        self._packets = Packets()
        self._pcap = LogWriter(pcap, say) if pcap is not None else None
        if self._pcap is not None:
            self._pcap.add(FILE_HEADER)
        self._traffic = Traffic(parsed_rules(rules, seed), self._write_entry, self._write_event)
        self._entry_line, self._event_line = (json_line, json_event) if is_json else (text_line, text_event)
        self._log = LogWriter(log, say, self._missing_line) if log is not None else None

    def set_rules(self, rules: Iterable[RuleText], seed: int = 0) -> None:
        """Takes other rules, also while it runs: they are for the messages that come from now on, and count anew."""
        self._traffic.rules = parsed_rules(rules, seed)

    def unused_rules(self) -> List[str]:
        """Returns the lines of the rules that never applied: often a word in them is wrong."""
        return [rule.line for rule in self._traffic.rules.unused()]

    def flush_log(self, timeout: float = 1.0) -> None:
        """Returns once what the log has so far is in its file, or after so many seconds."""
        if self._log is not None:
            self._log.flush(timeout)

    async def start(self) -> None:
        await super().start()
        listen = Endpoint(self.listen.address, self.port)
        rules = self._traffic.rules
        self._traffic.event(None, "listening", f"{listen}, to {endpoint_of(self.to)}, seed {rules.seed}, "
                                               f"{time.strftime('%Y-%m-%d %H:%M:%S %z')}")
        for rule in rules.rules:
            self._traffic.event(None, rule.name, rule.line)

    async def stop(self) -> None:
        await super().stop()
        for line in self.summary.lines(self._traffic.unanswered, self.unused_rules()):
            self._traffic.event(None, "summary", line)
        for writer in (self._log, self._pcap):
            if writer is not None:
                await asyncio.get_running_loop().run_in_executor(None, writer.end, 2.0)

    async def serve(self, reader: asyncio.StreamReader, writer: asyncio.StreamWriter) -> None:
        try:
            from_server, to_server = await connect(self.to)
        except OSError as fault:
            self._traffic.event(None, "no server", f"at {endpoint_of(self.to)}: {fault.strerror or fault}")
            return
        await Connection(self._traffic, writer, to_server).run(reader, from_server)

    def report_full(self) -> None:
        self._traffic.event(None, "too many", f"more than {self.connections_at_once} connections: one was closed")

    def _write_entry(self, entry: Entry) -> None:
        self.summary.add(entry)
        if self._pcap is not None:
            self._pcap.add(self._packets.of(entry))
        if self._log is not None:
            self._log.add(self._entry_line(entry))

    def _write_event(self, event: Event) -> None:
        if self._log is not None:
            self._log.add(self._event_line(event))

    def _missing_line(self, count: int) -> str:
        return self._event_line(Event(time.time(), 0, "missing", f"{count} lines had no place here"))


def make_parser() -> argparse.ArgumentParser:
    parser = listening_parser(PROGRAM, __doc__, DEFAULT_PORT)
    parser.add_argument("--log", metavar="FILE", help="where the traffic is written (standard output)")
    parser.add_argument("--log-size", type=int, default=0, metavar="BYTES",
                        help="begin another file before one has more bytes, and keep five older ones (0: one file)")
    parser.add_argument("--pcap", metavar="FILE", help="a file of the traffic for Wireshark, which is written anew")
    parser.add_argument("--json", action="store_true", help="write each line of the log as a JSON object")
    parser.add_argument("--quiet", action="store_true", help="write no log")
    parser.add_argument("--rules", metavar="FILE", help="a file of rules, one a line")
    parser.add_argument("--rule", action="append", default=[], metavar="RULE", help="a rule, after those of the file")
    parser.add_argument("--seed", type=int, help="the seed of the rules with a probability (a new one, in the log)")
    return parser


def read_rules(arguments: argparse.Namespace) -> List[Rule]:
    rules = parse_rules(arguments.rule, "option", lambda _, line: f"--rule {line!r}")
    if arguments.rules is None:
        return rules
    with open(arguments.rules, encoding="utf-8") as file:
        return parse_rules(file, "rule", lambda number, _: f"{arguments.rules}, line {number}") + rules


def open_log(arguments: argparse.Namespace) -> Union[TextIO, RotatingFile, None]:
    if arguments.quiet:
        return None
    if arguments.log is None:
        return sys.stdout
    atexit.unregister(logging.shutdown)  # which would wait for a file that takes nothing
    return RotatingFile(arguments.log, arguments.log_size)


def main(words: Optional[List[str]] = None) -> int:
    """Runs the program; returns its exit status."""
    arguments = parsed(make_parser(), words)
    return status_of(PROGRAM, lambda: run(arguments))


def run(arguments: argparse.Namespace) -> None:
    seed = random.SystemRandom().randrange(1 << 32) if arguments.seed is None else arguments.seed
    rules = read_rules(arguments)
    log = open_log(arguments)
    pcap = open(arguments.pcap, "wb") if arguments.pcap is not None else None
    relay = Relay(arguments.to, rules, log, arguments.listen, seed, arguments.json, pcap)
    read_again = None if arguments.rules is None else lambda: set_again(relay, arguments, seed)
    # Where the log is on standard output, its first line says where the relay listens.
    run_until_signal(relay, log is not sys.stdout, read_again)


def set_again(relay: Relay, arguments: argparse.Namespace, seed: int) -> None:
    """Reads the rules again; where one is wrong those before stay."""
    try:
        relay.set_rules(read_rules(arguments), seed)
        say("the rules were read again")
    except (RuleError, OSError) as fault:
        say(f"the rules stay as they were: {fault}")


if __name__ == "__main__":
    sys.exit(main())
