"""Standard faults for a driver: each is a test of pytest, which the driver survives or not.

    import pytest
    from psu.torture import Driver, psu_torture, test_torture  # noqa: F401

    @pytest.fixture
    def driver(psu_torture):
        supply = MySupply(psu_torture.resource, timeout=1)
        yield Driver(query=lambda: supply.voltage, save=supply.save, recover=supply.reconnect, timeout=1)
        supply.close()

A driver survives a fault where its query raises or returns the right voltage, never another one, in time; where after
`recover` it works again; and where a save that did not raise is in the instrument's memory. Each test has a server of
its own, and a session beside the driver's, which sets another voltage before each query. At its end pytest shows a table.
"""
from __future__ import annotations

import concurrent.futures
import contextlib
import dataclasses
import functools
import itertools
import os
import threading
import time
from typing import Any, Callable, Dict, Iterator, List, Sequence

import pytest

from psu_pytest import TORTURE, started

from .client import Instrument
from .listening import endpoint_of
from .raw_socket import RawSocket
from .relay_rules import RuleText
from .server import Server

REGISTER = 3


@dataclasses.dataclass
class Driver:
    """What a fault is tried on. Each function raises where it could not do it."""

    query: Callable[[], float]  # returns the set voltage of output 1 (VOLT?)
    save: Callable[[int], object]  # saves the settings in a register, and returns once that is confirmed (*SAV n;*OPC?)
    recover: Callable[[], object]  # called after one of the others has raised: a device clear, or a new connection
    timeout: float = 1.0  # the driver's longest wait for a response in seconds
    patience: float = 15.0  # seconds after which a call counts as one that never ends


class NotSurvived(AssertionError):
    """What the driver did wrong."""


Outcome = concurrent.futures.Future  # how a call ended


class Bench(contextlib.ExitStack):
    """The instrument of one test. A driver connects to `resource` or `port`, or to `raw_port` with a raw socket."""

    def __init__(self, server: Server) -> None:
        super().__init__()
        assert server.relay is not None
        self.server, self.relay = server, server.relay
        self.resource, self.port = server.resource, server.relay.port
        self._volts = itertools.count(1)
        self.connect_beside()
        self.callback(lambda: self.beside.close())

    @functools.cached_property
    def raw_port(self) -> int:
        """The port of raw sockets before the relay."""
        return self.enter_context(RawSocket(self.port)).port

    def connect_beside(self) -> None:
        """Opens the session beside the driver's, without the relay."""
        where = endpoint_of(self.relay.to)
        self.beside = Instrument(where.address, where.port, timeout=10.0)

    def next_voltage(self) -> float:
        """Sets another voltage, and returns it: a response to an earlier query has another one."""
        volts = next(self._volts) % 60 + 0.25
        self.beside.query(f"VOLT {volts};VOLT?")
        return volts

    def restart(self) -> None:
        self.beside.close()
        self.server.restart()
        self.connect_beside()


@pytest.fixture
def psu_torture(request: Any, tmp_path: Any) -> Iterator[Bench]:
    """The instrument for the fixture `driver`."""
    with started(request.config, tmp_path / "bench.psu", [], has_relay=True) as server:
        with Bench(server) as bench:
            yield bench
        bench.relay.set_rules([])  # so that none is named as one that never applied


class Trial:
    """A driver on a bench, and what is asked of it."""

    def __init__(self, bench: Bench, driver: Driver) -> None:
        self.bench, self.driver = bench, driver

    def call(self, function: Callable[..., object], *arguments: object) -> "Outcome[Any]":
        """Calls a function of the driver, which has to end in time."""
        outcome: "Outcome[Any]" = Outcome()

        def run() -> None:
            try:
                outcome.set_result(function(*arguments))
            except BaseException as fault:
                outcome.set_exception(fault)

        threading.Thread(target=run, daemon=True).start()
        if not concurrent.futures.wait([outcome], self.driver.patience).done:
            raise NotSurvived(f"a call has not ended in {self.driver.patience:g} s")
        return outcome

    def query(self, when: str = "", must_return: bool = True) -> bool:
        """Has the driver query a voltage; returns whether it did, where it need not."""
        volts = self.bench.next_voltage()
        outcome = self.call(self.driver.query)
        fault = outcome.exception()
        if fault is not None and must_return:
            raise NotSurvived(f"{when}it raised {fault!r}") from fault
        if fault is None and outcome.result() != volts:
            raise NotSurvived(f"{when}it returned {outcome.result()!r} where {volts} is right")
        return fault is None

    def recover(self, tries: int = 1) -> None:
        """Has the driver recover, in so many tries, after which it works."""
        fault = None
        for _ in range(tries):
            fault = self.call(self.driver.recover).exception()
            if fault is None:
                return self.works("after its recovery ")
        raise NotSurvived(f"its recovery raised {fault!r}") from fault

    def query_or_recover(self) -> None:
        """Has the driver query under a fault, and after it; where it did not return, after its recovery."""
        if self.query(must_return=False):
            self.works("after the fault ")
        else:
            self.recover()

    def works(self, when: str) -> None:
        for _ in range(3):
            self.query(when)

    def save(self) -> bool:
        """Has the driver save; returns whether it did. What it saved is there after a restart."""
        return self.call(self.driver.save, REGISTER).exception() is None

    def saved_voltage(self) -> float:
        return float(self.bench.beside.query(f"*RCL {REGISTER};VOLT?"))


# The faults


Fault = Callable[[Trial], None]
FAULTS: Dict[str, Fault] = {}


def fault(name: str) -> Callable[[Fault], Fault]:
    def noted(function: Fault) -> Fault:
        FAULTS[name] = function
        return function

    return noted


def in_a_query(
    name: str, rules: Callable[[float], Sequence[RuleText]], is_survivable: bool = False, tries: int = 1
) -> None:
    """Adds a fault of rules, made for the driver's timeout. Where it is survivable the query has to return."""

    @fault(name)
    def _(trial: Trial) -> None:
        trial.bench.relay.set_rules(rules(trial.driver.timeout))
        has_returned = trial.query(must_return=is_survivable)
        if tries == 1:
            trial.bench.relay.set_rules([])
        if has_returned:
            trial.works("after the fault ")
        else:
            trial.recover(tries)


in_a_query("a slow response, in time", lambda timeout: [f"delay {timeout * 0.15} response times 3"], is_survivable=True)
in_a_query("a response in small pieces, in time", lambda _: ["trickle 3 0.005 response times 3"], is_survivable=True)
in_a_query("two responses", lambda timeout: ["repeat 0 response times 1"], is_survivable=True)
in_a_query("two responses, the second one late", lambda timeout: ["repeat 0.1 response times 1"], is_survivable=True)
in_a_query("a late response", lambda timeout: [f"delay {timeout * 1.5} response times 1"])
in_a_query("a response that is held back", lambda timeout: ["hold response times 1"])
in_a_query("a command that is held back", lambda timeout: ["hold command times 1"])
in_a_query("a response in pieces, too slow", lambda timeout: [f"trickle 4 {timeout / 3} response times 1"])
in_a_query("a connection that is cut in a header", lambda timeout: ["cut 8 response times 1"])
in_a_query("a connection that is cut in a payload", lambda timeout: ["cut 18 response times 1"])
in_a_query("a connection that is lost before the command", lambda timeout: ["drop-before command times 1"])
in_a_query("a connection that is lost before the response", lambda timeout: ["drop-before response times 1"])
in_a_query("a connection that is lost after the response", lambda timeout: ["drop-after response times 1"])
in_a_query("a corrupted response", lambda timeout: ["replace . by ? response times 1"])
in_a_query("Error in place of the response", lambda timeout: ["error 1 command times 1"])
in_a_query("FatalError in place of the response", lambda timeout: ["fatal-error 0 response times 1"])
in_a_query("a connection that is refused once",
           lambda timeout: ["drop-before response times 1", "refuse times 1"], tries=2)
in_a_query("a device clear that is not acknowledged in time",
           lambda timeout: ["hold response times 1", "hold AsyncDeviceClearAcknowledge times 1"], tries=2)


@fault("a full error queue")
def full_error_queue(trial: Trial) -> None:
    trial.bench.beside.write(";".join(["FOO"] * 17))
    trial.query_or_recover()


@fault("service requests that it did not ask for")
def foreign_requests(trial: Trial) -> None:
    trial.bench.relay.set_rules(["repeat 0.01"])
    trial.bench.beside.query("*CLS;*SRE 4;FOO;*SRE 0;*CLS;*OPC?")
    trial.works("after the fault ")


@fault("a lock of another session")
def foreign_lock(trial: Trial) -> None:
    trial.bench.beside.lock(5)
    release = threading.Timer(trial.driver.timeout * 1.5, trial.bench.beside.unlock)
    release.start()
    has_returned = trial.query(must_return=False)
    release.join()
    if not has_returned:
        trial.recover()


@fault("a server that goes and comes back")
def server_restart(trial: Trial) -> None:
    trial.bench.restart()
    trial.query_or_recover()


@fault("a restart within a save")
def restart_within_a_save(trial: Trial) -> None:
    saved = trial.bench.next_voltage()
    outcomes: List[bool] = []
    saving = threading.Thread(target=lambda: outcomes.append(trial.save()), daemon=True)
    # The confirmation is late, so that the server ends before it.
    trial.bench.relay.set_rules([f"delay {trial.driver.timeout / 2} response times 1"])
    saving.start()
    time.sleep(trial.driver.timeout / 4)
    trial.bench.restart()
    saving.join(trial.driver.patience)
    trial.bench.relay.set_rules([])
    if outcomes == [True] and trial.saved_voltage() != saved:
        raise NotSurvived("it called a save confirmed that is not there after a restart")
    trial.recover()


@fault("a service request that is lost in a save")
def lost_service_request(trial: Trial) -> None:
    trial.bench.next_voltage()
    trial.bench.relay.set_rules(["hold AsyncServiceRequest"])
    trial.save()
    trial.bench.relay.set_rules([])
    trial.recover()


@fault("a disk that fails in a save")
def failing_disk(trial: Trial) -> None:
    saved = trial.bench.next_voltage()
    if not trial.save() or trial.saved_voltage() != saved:
        raise NotSurvived("a save without a fault is not there")
    os.remove(trial.bench.server.image)
    trial.bench.next_voltage()
    if trial.save():
        raise NotSurvived("it called a save confirmed that the instrument refused")
    trial.recover()


@pytest.mark.parametrize("fault", list(FAULTS))
def test_torture(fault: str, psu_torture: Bench, driver: Driver, record_property: Callable[[str, object], None]) -> None:
    """A driver under one of the faults."""
    record_property(TORTURE, fault)
    trial = Trial(psu_torture, driver)
    trial.works("before the fault ")
    FAULTS[fault](trial)
