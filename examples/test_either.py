"""A test that runs against a simulator of its own, or against the supply that the variable SUPPLY names.

    python3 -m pytest test_either.py                                       the simulator
    SUPPLY=192.168.1.20 python3 -m pytest test_either.py                   a supply at this address, by HiSLIP
    SUPPLY=127.0.0.1:4881 python3 -m pytest test_either.py                 at another port than 4880
    SUPPLY=TCPIP::192.168.1.20::INSTR python3 -m pytest test_either.py     any VISA resource, by PyVISA

It sets output 1 to 5 V with a limit of 1 A, and switches it off at its end: connect nothing, or what stands this.
"""
import contextlib
import os

import psu_path  # noqa: F401  (finds ../python)
import pytest
from psu import Instrument, Server

VOLTS, AMPERES = 5.0, 1.0
SUPPLY = os.environ.get("SUPPLY", "")


@contextlib.contextmanager
def opened(supply):
    """Opens the supply that is named; both ways have `query` and `write`."""
    if not supply:
        with Server() as server, server.connect() as it:
            yield it
    elif "::" in supply:
        import pyvisa

        with contextlib.closing(pyvisa.ResourceManager().open_resource(supply)) as it:
            it.read_termination = it.write_termination = "\n"
            yield it
    else:
        host, _, port = supply.partition(":")
        with Instrument(host, int(port or 4880)) as it:
            yield it


@pytest.fixture
def supply():
    with opened(SUPPLY) as it:
        it.write("*RST;*CLS")
        try:
            yield it
        finally:
            it.write("OUTP OFF")


def test_an_output(supply):
    supply.write(f"CURR {AMPERES};:VOLT {VOLTS};:OUTP ON")
    assert float(supply.query("MEAS:VOLT?")) == pytest.approx(VOLTS, abs=0.05)
    assert float(supply.query("MEAS:CURR?")) <= AMPERES * 1.05
    assert supply.query("SYST:ERR?").startswith(("0,", "+0,"))


def test_an_error(supply):
    supply.write("VOLT 1000000")
    assert supply.query("SYST:ERR?").startswith("-222,")


@pytest.mark.skipif(bool(SUPPLY), reason="only the simulator has SIM:LOAD")
def test_current_limit(supply):
    supply.write(f"SIM:LOAD 1000;:CURR {AMPERES};:VOLT {VOLTS};:OUTP ON")
    assert supply.query("MEAS:VOLT?;:STAT:QUES:COND?") == "1.000;2"
