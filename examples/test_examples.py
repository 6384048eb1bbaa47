"""Tests of the example programs: that each prints what its first lines say, and ends with the status that it says.

Needs pytest and the program `psu` (conftest.py says where it is looked for): python3 -m pytest test_examples.py
Prints what pytest prints: one dot a test.
"""
import os
import subprocess
import sys
import urllib.request

import pytest

import psu_path  # noqa: F401  (finds ../python)
from psu.panel import Locked, look
from psu import LockInfo
from psu.server import free_port

FOLDER = os.path.dirname(os.path.abspath(__file__))
PROGRAMS = ["backup.py", "confirm.py", "failing_calls.py", "hislip.py", "idn.py", "images.py", "panel.py", "save_and_cut.py", "session.py"]
# What a driver may rely on that a panel reads: none of it is cleared.
KEPT = "*STB?;:SYST:ERR:COUN?"


def run(program, *arguments):
    command = [sys.executable, os.path.join(FOLDER, program), *map(str, arguments)]
    return subprocess.run(command, stdout=subprocess.PIPE, stderr=subprocess.PIPE, universal_newlines=True, timeout=30)


@pytest.mark.parametrize("program", PROGRAMS)
def test_help_is_answered(program):
    ended = run(program, "--help")
    assert ended.returncode == 0
    assert ended.stdout.startswith("usage: ")


@pytest.mark.parametrize("program", ["idn.py", "session.py"])
def test_nothing_listens(program):
    ended = run(program, "--port", free_port())
    assert ended.returncode == 1
    assert ended.stderr.count("\n") == 1 and "nothing listens" in ended.stderr


def test_idn(server):
    assert run("idn.py", "--port", server.port).stdout == "EXAMPLE,PSU4,0,1.0\n"


def test_hislip(server):
    ended = run("hislip.py", "--port", server.port, "VOLT 5", "VOLT?;:CURR?", "SYST:ERR?")
    assert ended.stdout == '5.000;0.000\n0,"No error"\n'


def test_hislip_of_a_message_that_is_refused(server):
    for message, error in (("VOLT 99", '-222,"Data out of range"'), ("FOO?", '-113,"Undefined header"')):
        ended = run("hislip.py", "--port", server.port, "VOLT?", message, "CURR?")
        assert (ended.returncode, ended.stdout) == (1, "0.000\n")
        assert ended.stderr == f"hislip.py: {message}: {error}\n"


def test_session(server):
    lines = run("session.py", "--port", server.port).stdout.splitlines()
    assert lines[-1] == 'VOLT 99;:SYST:ERR? -> -222,"Data out of range"'
    assert "MEAS:VOLT?;:MEAS:CURR? -> 5.000;0.500" in lines
    assert "*SAV 1;*OPC? -> 1" in lines


def test_save_and_cut(server):
    ended = run("save_and_cut.py", server.program)
    assert ended.returncode == 0
    assert ended.stdout.endswith("as promised\n")


def test_panel_as_text(server, supply):
    supply.write("*CLS;VOLT 5;:CURR 1;:OUTP ON;:SOUR2:VOLT 5;:OUTP2 ON;:FOO")
    before = supply.query(KEPT)
    lines = run("panel.py", "--port", server.port, "--once").stdout.splitlines()
    assert lines[0] == "EXAMPLE,PSU4,0,1.0"
    assert [line.split()[:4] for line in lines[2:6]] == [
        ["1", "CV", "5.000", "0.500"],
        ["2", "CC", "0.000", "0.000"],
        ["3", "OFF", "0.000", "0.000"],
        ["4", "OFF", "0.000", "0.000"],
    ]
    assert lines[-1].split()[-1] == "1"
    assert supply.query(KEPT) == before
    assert supply.query("*ESR?;:STAT:QUES?;:SYST:ERR?") == '32;2;-113,"Undefined header"'


def test_panel_under_a_lock(server, supply):
    supply.lock(1)
    ended = run("panel.py", "--port", server.port, "--once")
    assert ended.returncode == 1
    assert ended.stderr == "panel.py: another session holds the exclusive lock; no values were read\n"


def test_panel_and_a_shared_lock(supply, connect):
    supply.lock(1, "bench")
    with pytest.raises(Locked, match="share a lock"):
        look(connect())


def test_panel_and_a_lock_that_is_taken_after_the_look(supply, connect):
    watcher = connect(0.3)
    watcher.lock_info = lambda: LockInfo(False, 0)
    supply.lock(1)
    with pytest.raises(Locked, match="took a lock"):
        look(watcher)
    supply.unlock()
    # The query that waited was discarded, and the next one is answered.
    watcher.timeout = 10
    assert look(watcher)["errors"] == 0


def test_panel_as_a_page(server):
    port = free_port()
    command = [sys.executable, os.path.join(FOLDER, "panel.py"), "--port", str(server.port), "--listen-port", str(port)]
    panel = subprocess.Popen(command, stdout=subprocess.PIPE, universal_newlines=True)
    try:
        assert panel.stdout.readline() == f"panel of 127.0.0.1:{server.port} at http://127.0.0.1:{port}\n"
        assert b"</html>" in urllib.request.urlopen(f"http://127.0.0.1:{port}/", timeout=10).read()
        assert b'"points"' in urllib.request.urlopen(f"http://127.0.0.1:{port}/values", timeout=10).read()
    finally:
        panel.terminate()
        panel.wait()
        panel.stdout.close()
