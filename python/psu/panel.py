"""psu-panel: a live front panel at http://127.0.0.1:8080: the four outputs, a plot, the status registers, and loads.

    psu-panel [--port N] [--listen-port N] [--interval SECONDS] [--minutes N]
    psu-panel [--port N] --once      prints the values once, as text

Prints the address of the page and serves it until it is interrupted; nothing of it comes from the Internet.
It is one session of the sixteen, and reads nothing that clears: no *ESR?, no EVENt?, no SYST:ERR?. Its buttons set the
load of an output, or unplug it; `python3 -m psu` has a button for a power cut too. While another session holds a lock its
messages would wait, so it asks for the lock first, shows the last values and says so.
"""
from __future__ import annotations

import argparse
import collections
import http.server
import json
import pkgutil
import sys
import threading
import time
import urllib.parse
from typing import Any, Callable, Deque, Dict, Iterator, List, Optional, Sequence, Tuple, Union

from .client import Instrument
from .command_line import parser, run
from .errors import HislipError, ProtocolError, Timeout

ADDRESS = "127.0.0.1"
DEFAULT_PORT = 8080
OUTPUT_QUERIES = {
    "set_volts": ":SOUR{}:VOLT?",
    "set_amperes": ":SOUR{}:CURR?",
    "is_on": ":OUTP{}?",
    "volts": ":MEAS{}:VOLT?",
    "amperes": ":MEAS{}:CURR?",
    "level": ":SOUR{}:VOLT:PROT?",
    "is_protected": ":SOUR{}:VOLT:PROT:STAT?",
    "is_tripped": ":SOUR{}:VOLT:PROT:TRIP?",
    "load": ":SIM:LOAD{}?",
}
STATUS_QUERIES = {
    "status_byte": "*STB?",
    "service_request_enable": "*SRE?",
    "event_status_enable": "*ESE?",
    "questionable_condition": ":STAT:QUES:COND?",
    "questionable_enable": ":STAT:QUES:ENAB?",
    "operation_condition": ":STAT:OPER:COND?",
    "operation_enable": ":STAT:OPER:ENAB?",
    "errors": ":SYST:ERR:COUN?",
}
OUTPUTS = (1, 2, 3, 4)
LOADS = range(1, 10_000_001)  # milliohms; an output is unplugged by the highest
QUERIES = ["*IDN?", *STATUS_QUERIES.values(), *(it.format(n) for n in OUTPUTS for it in OUTPUT_QUERIES.values())]
Bits = Sequence[Tuple[int, str]]
# Names of the bits that can be 1. MSS is bit 6 of *STB?: a service request is due by *SRE.
STATUS_BITS = ((7, "OPER"), (6, "MSS"), (5, "ESB"), (4, "MAV"), (3, "QUES"), (2, "ERR"))
EVENT_BITS = ((7, "PON"), (5, "CME"), (4, "EXE"), (3, "DDE"), (0, "OPC"))
QUESTIONABLE_BITS = ((1, "LIMIT"), (0, "TRIP"))
# Title, name of the value, and bits of each register.
REGISTERS: Sequence[Tuple[str, str, Bits]] = (
    ("Status byte *STB?", "status_byte", STATUS_BITS),
    ("enabled by *SRE", "service_request_enable", STATUS_BITS),
    ("enabled by *ESE", "event_status_enable", EVENT_BITS),
    ("QUES condition", "questionable_condition", QUESTIONABLE_BITS),
    ("QUES enable", "questionable_enable", QUESTIONABLE_BITS),
    ("OPER condition", "operation_condition", ()),
    ("OPER enable", "operation_enable", ()),
)
Values = Dict[str, Any]


class Locked(HislipError):
    """Another session's lock: a message would wait for it."""


# Messages


def ask(supply: Instrument, message: str) -> str:
    """Returns the response to a message; raises Locked where a lock of another session is in the way."""
    lock = supply.lock_info()
    if lock.is_exclusive:
        raise Locked("another session holds the exclusive lock")
    if lock.holders:
        raise Locked(f"other sessions share a lock ({lock.holders})")
    try:
        return supply.query(message)
    except Timeout:
        # A lock was taken after the look at it: the message must not wait for that lock's end.
        supply.clear()
        raise Locked("another session took a lock") from None


def look(supply: Instrument) -> Values:
    """Returns the values of all outputs and registers; raises Locked as `ask` does."""
    return values_of(ask(supply, ";".join(QUERIES)).split(";"))


def values_of(responses: List[str]) -> Values:
    """Returns the values by their names, of one response for each query."""
    if len(responses) != len(QUERIES):
        raise ProtocolError(f"{len(responses)} responses to {len(QUERIES)} queries")
    fields = iter(responses)
    values: Values = {"name": next(fields)}
    values.update((key, int(next(fields))) for key in STATUS_QUERIES)
    values["outputs"] = [output_of(number, fields) for number in OUTPUTS]
    return values


def output_of(number: int, fields: Iterator[str]) -> Values:
    output: Values = {key: float(next(fields)) for key in OUTPUT_QUERIES}
    output["load"] /= 1000  # ohms
    output["number"] = number
    output["mode"] = mode_of(output)
    return output


def mode_of(output: Values) -> str:
    if output["is_tripped"]:
        return "TRIP"
    if not output["is_on"]:
        return "OFF"
    # In whole microvolts, as the instrument computes it.
    is_in_limit = round(output["set_volts"] * 1e6) > round(output["set_amperes"] * 1e3) * round(output["load"] * 1e3)
    return "CC" if is_in_limit else "CV"


# As text


def text_of(values: Values) -> str:
    lines = [values["name"], "output  mode     volts  amperes   set V  limit A  protection       load ohm"]
    for it in values["outputs"]:
        level = f"{it['level']:.3f} V {'on' if it['is_protected'] else 'off'}"
        lines.append(
            f"{it['number']:6}  {it['mode']:4} {it['volts']:9.3f} {it['amperes']:8.3f} {it['set_volts']:7.3f}"
            f" {it['set_amperes']:8.3f}  {level:<14} {it['load']:10.3f}"
        )
    for title, key, bits in REGISTERS:
        names = [name for bit, name in bits if values[key] >> bit & 1]
        lines.append(f"{title:<17} {values[key]:5}  {' '.join(names)}".rstrip())
    lines.append(f"{'Errors in queue':<17} {values['errors']:5}")
    return "\n".join(lines)


# As a page


class Watch(threading.Thread):
    """Reads the instrument again and again, and keeps the last values and the points of the plot."""

    def __init__(self, port: int, interval: float, seconds: float) -> None:
        super().__init__(daemon=True)
        self._supply: Optional[Instrument] = None
        self._guard = threading.Lock()
        # What a page shows; `last` is the number of the newest point.
        self._shown: Values = {"state": "lost", "note": "not connected yet", "values": None, "last": 0,
                               "port": port, "seconds": seconds, "interval": interval}
        self._read_at = time.monotonic()
        self._points: Deque[Tuple[int, float, List[float]]] = collections.deque(maxlen=int(seconds / interval) + 1)

    def run(self) -> None:
        while True:
            self._read()
            time.sleep(self._shown["interval"])

    def report(self, last: int) -> Values:
        """Returns what a page shows that has the points up to number `last`: of each new point its age and its values."""
        now = time.monotonic()
        with self._guard:
            points = [[now - at, *point] for number, at, point in self._points if number > last]
            return {**self._shown, "age": now - self._read_at, "points": points}

    def set_load(self, output: int, milliohms: int) -> None:
        """Sets the load of an output; raises Locked, or what the session raises."""
        supply = self._supply
        if supply is None:
            raise Locked("not connected")
        ask(supply, f":SIM:LOAD{output} {milliohms};:SIM:LOAD{output}?")

    def _read(self) -> None:
        """Reads the values; where they can't be read, notes why."""
        try:
            if self._supply is None:
                self._supply = Instrument(port=self._shown["port"], timeout=1.0)
            self._keep(look(self._supply))
        except Locked as fault:
            self._shown.update(state="locked", note=str(fault))
        except (HislipError, OSError) as fault:
            if self._supply is not None:
                self._supply.close()
                self._supply = None
            self._shown.update(state="lost", note=str(fault))

    def _keep(self, values: Values) -> None:
        with self._guard:
            self._read_at = time.monotonic()
            self._shown.update(state="live", note="", values=values, last=self._shown["last"] + 1)
            point = [it[key] for key in ("volts", "amperes") for it in values["outputs"]]
            self._points.append((self._shown["last"], self._read_at, point))


class Panel(http.server.ThreadingHTTPServer):
    """The page of the server at a port; `cut_power` is what its button for a power cut calls, if it has one."""

    daemon_threads = True

    def __init__(
        self, port: int, listen_port: int = DEFAULT_PORT, interval: float = 0.5, minutes: float = 5,
        cut_power: Optional[Callable[[], object]] = None
    ) -> None:
        super().__init__((ADDRESS, listen_port), Handler)
        self.cut_power = cut_power
        self.watch = Watch(port, interval, minutes * 60)
        self.watch.start()

    @property
    def address(self) -> str:
        """Where a browser finds the page."""
        return f"http://{ADDRESS}:{self.server_port}"


class Handler(http.server.BaseHTTPRequestHandler):
    """Answers GET of the page and of its values, POST of its buttons, and nothing else."""

    server: Panel

    def do_GET(self) -> None:
        url = urllib.parse.urlsplit(self.path)
        if url.path == "/":
            self._answer("text/html", file_of("panel.html").replace("REGISTERS_JSON", json.dumps(REGISTERS)))
        elif url.path == "/panel.js":
            self._answer("text/javascript", file_of("panel.js"))
        elif url.path == "/values":
            report = self.server.watch.report(number_in(url.query, "last"))
            report["can_cut_power"] = self.server.cut_power is not None
            self._answer("application/json", json.dumps(report))
        else:
            self.send_error(404)

    def do_POST(self) -> None:
        # The page of another site can have a browser send a POST here, but not with this header and to this address.
        if self.headers["X-Psu-Panel"] is None or self.headers["Host"] != self.server.address[len("http://") :]:
            self.send_error(403)
            return
        url = urllib.parse.urlsplit(self.path)
        output, load = number_in(url.query, "output"), number_in(url.query, "milliohms")
        try:
            if url.path == "/load" and output in OUTPUTS and load in LOADS:
                self.server.watch.set_load(output, load)
            elif url.path == "/power-cut" and self.server.cut_power is not None:
                self.server.cut_power()
            else:
                self.send_error(404)
                return
            self._answer("text/plain", "")
        except (HislipError, OSError, RuntimeError) as fault:
            self._answer("text/plain", str(fault), 409)

    def _answer(self, kind: str, text: str, status: int = 200) -> None:
        body = text.encode()
        self.send_response(status)
        self.send_header("Content-Type", f"{kind}; charset=utf-8")
        self.send_header("Content-Length", str(len(body)))
        self.send_header("Cache-Control", "no-store")
        self.end_headers()
        self.wfile.write(body)

    def log_message(self, *_: object) -> None:
        pass


def file_of(name: str) -> str:
    """Returns a file of the page, which is beside this module."""
    return (pkgutil.get_data("psu", name) or b"").decode()


def number_in(query: str, name: str) -> int:
    """Returns a number of an address; 0 where it has none."""
    text = urllib.parse.parse_qs(query).get(name, [""])[0]
    return int(text) if text.isdecimal() else 0


def serve(arguments: argparse.Namespace) -> None:
    if arguments.once:
        try:
            with Instrument(port=arguments.port) as supply:
                return print(text_of(look(supply)))
        except Locked as fault:
            raise Locked(f"{fault}; no values were read") from None
    with Panel(arguments.port, arguments.listen_port, arguments.interval, arguments.minutes) as page:
        print(f"panel of {ADDRESS}:{arguments.port} at {page.address}", flush=True)
        try:
            page.serve_forever()
        except KeyboardInterrupt:
            pass


def positive(text: str) -> float:
    number = float(text)
    if not 0 < number < 10000:
        raise argparse.ArgumentTypeError("a number above 0 and below 10000 is wanted")
    return number


def main() -> Optional[Union[int, str]]:
    made = parser(__doc__)
    made.add_argument("--listen-port", type=int, default=DEFAULT_PORT, help="the page's port on 127.0.0.1 (8080)")
    made.add_argument("--interval", type=positive, default=0.5, help="seconds between two readings (0.5)")
    made.add_argument("--minutes", type=positive, default=5, help="the length of the plot (5)")
    made.add_argument("--once", action="store_true", help="print the values once, as text")
    return run(serve, made)


if __name__ == "__main__":
    sys.exit(main())
