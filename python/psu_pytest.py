"""The plugin of pytest: a server of its own for each test, faults between it and the driver, and their traffic.

    @pytest.mark.psu_faults('delay 2 response to "MEAS:VOLT?"')
    def test_a_slow_answer(psu_server): ..                      a driver connects to psu_server.port, or .resource

Where the package is installed pytest finds it by itself, and `-p no:psu` leaves it out. A fixture of the same name in a
conftest.py replaces one. Which program the server is, `psu.server.find_program` says.
This module is beside the package and not in it, and imports it only where a test uses a fixture: so other tests do not
wait for it, and a project may have a module `psu` of its own, as long as it uses none of the fixtures.
"""
from __future__ import annotations

import collections
import contextlib
import importlib.util
import io
import os
import warnings
from typing import TYPE_CHECKING, Any, Callable, ContextManager, Deque, Iterator, List, Optional, TextIO, cast

import pytest

if TYPE_CHECKING:
    from psu.client import Instrument
    from psu.relay import Relay
    from psu.server import Server

PACKAGE = os.path.join(os.path.dirname(os.path.abspath(__file__)), "psu", "__init__.py")
MARKER = "psu_faults"
TORTURE = "psu_torture"  # the property of a report of psu.torture: the name of the fault
MOST_LINES = 5000  # of traffic in the report of a test: the last ones


def pytest_addoption(parser: Any) -> None:
    group = parser.getgroup("psu", "the simulated power supply psu")
    group.addoption("--psu-log", action="store_true", help="show the traffic and the server's lines of a failed test")
    text = "whether the fixtures psu_server, psu_supply and psu_connect are also called server, supply and connect"
    parser.addini("psu_short_names", text, type="bool", default=True)


def pytest_configure(config: Any) -> None:
    register_marker(config)
    if config.getini("psu_short_names"):
        import psu_pytest_names

        config.pluginmanager.register(psu_pytest_names, "psu_pytest_names")


def register_marker(config: Any) -> None:
    """Has pytest know the marker, also in a conftest.py that only imports the fixtures."""
    config.addinivalue_line("markers", f"{MARKER}(rule, ..): rules of psu-relay for the server of the test")


def pytest_runtest_setup(item: Any) -> None:
    if item.get_closest_marker(MARKER) is not None and "psu_server" not in item.fixturenames:
        pytest.fail(f"the marker {MARKER} is for a test with the fixture psu_server", pytrace=False)
    for it in WATCHED:
        it.begin_test()


@pytest.hookimpl(hookwrapper=True)  # type: ignore[misc]
def pytest_runtest_makereport(item: Any) -> Iterator[None]:
    outcome: Any = yield
    report = outcome.get_result()
    if report.failed:
        for it in WATCHED:
            report.sections += it.sections()


def pytest_terminal_summary(terminalreporter: Any) -> None:
    """Writes a table of the faults of psu.torture, where there were any."""
    reports = [it for key in ("passed", "failed", "error") for it in terminalreporter.stats.get(key, [])]
    results = {}
    for report in reports:
        name = dict(getattr(report, "user_properties", ())).get(TORTURE)
        if name is not None and (report.when == "call" or report.failed):
            results[name] = "survived" if report.passed else f"NOT SURVIVED: {first_line(report)}"
    if results:
        survived = sum(it == "survived" for it in results.values())
        terminalreporter.section(f"psu torture: {survived} of {len(results)} faults survived")
        for name in sorted(results):
            terminalreporter.line(f"{name:50} {results[name]}")


def first_line(report: Any) -> str:
    """Returns why a test failed, in a line."""
    crash = getattr(report.longrepr, "reprcrash", None)
    message: str = crash.message if crash is not None else str(report.longrepr)
    return message.split("\n")[0].rpartition("NotSurvived: ")[2]


# What is watched


class LastLines(io.TextIOBase):
    """A file that keeps the last lines that are written to it."""

    def __init__(self) -> None:
        self.lines: Deque[str] = collections.deque(maxlen=MOST_LINES)

    def write(self, text: str) -> int:
        self.lines.extend(text.splitlines(keepends=True))
        return len(text)


class Watched:
    """A server of a fixture, with what a report says of it."""

    def __init__(self, server: Server, rules: List[str], has_relay: bool, is_logged: bool) -> None:
        self.server = server
        self.traffic = LastLines()
        self.is_logged = is_logged
        if has_relay or rules or is_logged:
            server.put_relay(rules, cast(TextIO, self.traffic))

    def begin_test(self) -> None:
        """Forgets the traffic of the tests before: a server may be that of many."""
        if self.server.relay is not None:
            self.server.relay.flush_log()
        self.traffic.lines.clear()

    def unused_rules(self) -> List[str]:
        return self.server.relay.unused_rules() if self.server.relay is not None else []

    def sections(self) -> List[Any]:
        """What the report of a failed test has: headings with texts."""
        found = [("psu rules that never applied", "\n".join(self.unused_rules()))]
        if self.is_logged and self.server.relay is not None:
            self.server.relay.flush_log()
            found += [("psu traffic", "".join(self.traffic.lines)), ("psu server", self.server.messages())]
        return [it for it in found if it[1]]


WATCHED: List[Watched] = []  # the servers of fixtures that run


def check_package() -> None:
    """Fails a test where `import psu` would find another module."""
    place = importlib.util.find_spec("psu")
    found = place.origin if place is not None and place.origin else "nothing"
    if not (os.path.exists(found) and os.path.samefile(found, PACKAGE)):
        pytest.fail(
            f"this fixture needs the package psu ({os.path.dirname(PACKAGE)}), but `import psu` finds {found}: "
            "give that another name",
            pytrace=False,
        )


@contextlib.contextmanager
def started(config: Any, image: Any, rules: List[str], has_relay: bool = False) -> Iterator[Server]:
    """A server on a new image in a `with` block."""
    check_package()
    from psu.server import Server

    with Server(image) as server:
        watched = Watched(server, rules, has_relay, config.getoption("psu_log", False))
        WATCHED.append(watched)
        try:
            yield server
        finally:
            WATCHED.remove(watched)
            for line in watched.unused_rules():
                warnings.warn(f"a rule never applied: {line}", stacklevel=1)


# Fixtures


@pytest.fixture
def psu_server(request, tmp_path) -> Iterator[Server]:  # type: ignore[no-untyped-def]
    """A server that has just started on a new image; with the marker psu_faults a relay with its rules is before it."""
    rules = [rule for marker in request.node.iter_markers(MARKER) for rule in marker.args]
    with started(request.config, tmp_path / "bench.psu", rules, "psu_relay" in request.fixturenames) as it:
        yield it


@pytest.fixture
def psu_relay(psu_server: Server) -> Optional[Relay]:
    """The relay before that server: `set_rules` gives it rules while the test runs."""
    return psu_server.relay


@pytest.fixture
def psu_supply(psu_server: Server) -> Iterator[Instrument]:
    """A session with that server."""
    with psu_server.connect() as it:
        yield it


@pytest.fixture
def psu_connect(psu_server: Server) -> Iterator[Callable[..., Instrument]]:
    """A function that opens further sessions, which end with the test."""
    with contextlib.ExitStack() as sessions:

        def connected(timeout: Optional[float] = 5.0, check_errors: bool = False) -> Instrument:
            return sessions.enter_context(psu_server.connect(timeout, check_errors))

        yield connected


@pytest.fixture(scope="session")
def psu_servers(request, tmp_path_factory) -> Callable[..., ContextManager[Server]]:  # type: ignore[no-untyped-def]
    """A function that gives a server in a `with` block, for fixtures of a module or of the whole session.

    Its arguments are rules; `has_relay=True` puts a relay before it without one.
    """

    def begun(*rules: str, has_relay: bool = False) -> ContextManager[Server]:
        return started(request.config, tmp_path_factory.mktemp("psu") / "bench.psu", list(rules), has_relay)

    return begun
