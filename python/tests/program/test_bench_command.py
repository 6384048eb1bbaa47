"""Tests of `python3 -m psu`, a bench in one command, and of the buttons of its panel."""
import http.client
import json
import os
import signal
import socket
import subprocess
import sys
import threading
import time
import urllib.request

import pytest
from psu import Instrument, Timeout
from psu.panel import Panel
from psu.server import free_port

MODULES = os.path.dirname(os.path.dirname(os.path.dirname(os.path.abspath(__file__))))
LONG = 20.0


class Bench:
    """A bench that runs, with the addresses that it printed."""

    def __init__(self, image, *words):
        self.image = str(image)
        command = [sys.executable, "-m", "psu", self.image, "--port", str(free_port()), *words]
        environment = {**os.environ, "PYTHONPATH": MODULES if os.path.isdir(os.path.join(MODULES, "psu")) else ""}
        pipes = {"stdout": subprocess.PIPE, "stderr": subprocess.PIPE, "universal_newlines": True}
        self.process = subprocess.Popen(command, env=environment, **pipes)
        lines = [self.process.stdout.readline().split() for _ in range(1 + sum(it in PARTS for it in words))]
        self.addresses = {line[0]: line[2] for line in lines if line}
        self.ports = {line[0]: int(line[1].split(":")[1]) for line in lines if line}

    def server(self):
        """The process of the server; None where there is none."""
        for process in filter(str.isdigit, os.listdir("/proc")):
            try:
                with open(f"/proc/{process}/cmdline", "rb") as file:
                    words = file.read().split(b"\0")
            except OSError:
                continue
            if b"serve" in words and self.image.encode() in words:
                return int(process)
        return None

    def has_ended(self):
        deadline = time.monotonic() + LONG
        while self.server() is not None and time.monotonic() < deadline:
            time.sleep(0.02)
        return self.server() is None

    def end(self):
        """Ends it by SIGTERM; returns its exit status and what it wrote to standard error."""
        self.process.terminate()
        said = self.process.communicate(timeout=LONG)[1]
        return self.process.returncode, said


PARTS = ("--relay", "--socket", "--panel")


@pytest.fixture
def bench(tmp_path):
    benches = []

    def begun(*words):
        benches.append(Bench(tmp_path / "bench.psu", *words))
        return benches[-1]

    yield begun
    for it in benches:
        if it.process.poll() is None:
            it.process.kill()
        it.process.communicate()


def post(port, path, host=None, header="X-Psu-Panel"):
    """The status and the text that a button of a panel gets."""
    connection = http.client.HTTPConnection("127.0.0.1", port, timeout=LONG)
    connection.request("POST", path, headers={"Host": host or f"127.0.0.1:{port}", header: "1"})
    answer = connection.getresponse()
    result = answer.status, answer.read().decode()
    connection.close()
    return result


def values_at(port):
    with urllib.request.urlopen(f"http://127.0.0.1:{port}/values", timeout=LONG) as page:
        return json.load(page)


def test_all_parts(bench, tmp_path):
    log = tmp_path / "traffic.log"
    it = bench("--relay", "0", "--socket", "0", "--panel", "0", "--log", str(log), "--rule",
               'replace "PSU4" by "P1" response to "*IDN?"')
    assert sorted(it.addresses) == ["panel", "relay", "server", "socket"]
    assert it.addresses["socket"] == f"TCPIP::127.0.0.1::{it.ports['socket']}::SOCKET"
    for name, expected in (("server", "EXAMPLE,PSU4,0,1.0"), ("relay", "EXAMPLE,P1,0,1.0")):
        with Instrument.open(it.addresses[name]) as supply:
            assert supply.query("*IDN?") == expected
    with socket.create_connection(("127.0.0.1", it.ports["socket"]), timeout=LONG) as raw:
        raw.sendall(b"*IDN?\n")
        assert raw.recv(100) == b"EXAMPLE,P1,0,1.0\n"  # through the relay
    assert values_at(it.ports["panel"])["can_cut_power"]
    with urllib.request.urlopen(it.addresses["panel"], timeout=LONG) as page:
        assert "</html>" in page.read().decode()
    assert it.end() == (0, "")
    assert it.has_ended()
    assert "summary: from the client: 3 DataEnd" in log.read_text()  # a message, the raw client's, and its last one


@pytest.mark.parametrize("number", [signal.SIGINT, signal.SIGHUP])
def test_other_signals(bench, number):
    it = bench()
    it.process.send_signal(number)
    assert it.process.wait(LONG) == 0
    assert it.has_ended()


def test_the_server_ends_with_a_bench_that_is_killed(bench):
    it = bench("--socket", "0")
    it.process.kill()
    assert it.has_ended()


def test_it_ends_with_the_server(bench):
    it = bench("--relay", "0", "--panel", "0")
    os.kill(it.server(), signal.SIGTERM)
    assert it.process.wait(LONG) == 1
    assert it.process.stderr.read() == "psu: the server has ended\n"


def test_what_the_server_says_is_passed_on(bench):
    it = bench()
    os.remove(it.image)
    with Instrument.open(it.addresses["server"], timeout=0.5) as supply, pytest.raises(Timeout):
        supply.query("*SAV 1;*OPC?")
    status, said = it.end()
    assert status == 0 and "psu: store broken" in said


@pytest.mark.parametrize("part", PARTS)
def test_a_port_that_is_taken(bench, part):
    with socket.create_server(("127.0.0.1", 0)) as taken:
        it = bench(part, str(taken.getsockname()[1]))
        assert it.process.wait(LONG) == 1
    assert it.process.stderr.read().startswith("psu: ")
    assert it.has_ended()


def test_wrong_rules(bench):
    it = bench("--relay", "0", "--rule", "slow")
    assert it.process.wait(LONG) == 2
    assert "the first word is one of" in it.process.stderr.read()
    assert it.has_ended()
    it = bench("--rule", "hold response")
    assert it.process.wait(LONG) == 2
    assert "add --relay" in it.process.stderr.read()


def test_a_power_cut(bench):
    it = bench("--panel", "0")
    with Instrument.open(it.addresses["server"]) as supply:
        assert supply.query("VOLT 5;*SAV 3;*OPC?") == "1"
        supply.write("VOLT 7")
    before = it.server()
    assert post(it.ports["panel"], "/power-cut") == (200, "")
    assert it.server() not in (None, before)
    with Instrument.open(it.addresses["server"]) as supply:
        assert supply.query("VOLT?;*RCL 3;VOLT?") == "0.000;5.000"
    assert it.end() == (0, "")


@pytest.fixture
def panel(psu_server):
    """A panel without a button for a power cut, which has read the instrument."""
    with Panel(psu_server.port, 0, interval=0.05) as page:
        threading.Thread(target=page.serve_forever, daemon=True).start()
        deadline = time.monotonic() + LONG
        while values_at(page.server_port)["values"] is None and time.monotonic() < deadline:
            time.sleep(0.02)
        yield page
        page.shutdown()


def test_the_loads(panel, psu_supply):
    assert post(panel.server_port, "/load?output=2&milliohms=5000") == (200, "")
    assert post(panel.server_port, "/load?output=4&milliohms=10000000") == (200, "")  # unplugged
    loads = psu_supply.query("SIM:LOAD1?;:SIM:LOAD2?;:SIM:LOAD4?;:SYST:ERR?")
    assert loads == '10000;5000;10000000;0,"No error"'
    for words in ("output=0&milliohms=1", "output=5&milliohms=1", "output=1&milliohms=0", "output=1&milliohms=10000001",
                  "output=1", "milliohms=1", "output=x&milliohms=-1"):
        assert post(panel.server_port, f"/load?{words}")[0] == 404
    assert post(panel.server_port, "/nothing")[0] == 404
    assert psu_supply.query("SYST:ERR?") == '0,"No error"'


def test_a_panel_without_a_power_cut(panel, psu_supply):
    psu_supply.write("VOLT 7")
    assert not values_at(panel.server_port)["can_cut_power"]
    assert post(panel.server_port, "/power-cut")[0] == 404
    assert psu_supply.query("VOLT?") == "7.000"


def test_the_page_of_another_site_has_no_buttons(panel, psu_supply):
    for words in ({"host": "example.org"}, {"host": f"example.org:{panel.server_port}"}, {"header": "X-Other"}):
        assert post(panel.server_port, "/load?output=2&milliohms=5000", **words)[0] == 403
    assert psu_supply.query("SIM:LOAD2?") == "10000"


def test_a_load_under_a_lock(panel, psu_supply):
    psu_supply.lock(1)
    status, text = post(panel.server_port, "/load?output=2&milliohms=5000")
    assert (status, text) == (409, "another session holds the exclusive lock")
    psu_supply.unlock()
    assert psu_supply.query("SIM:LOAD2?") == "10000"
