"""Tests of psu.torture: it finds what is wrong with a driver, and a driver without that survives."""
import os
import subprocess
import sys

import pytest

MODULES = os.path.dirname(os.path.dirname(os.path.dirname(os.path.abspath(__file__))))
PLUGIN = ["-p", "no:psu", "-p", "psu_pytest"] if os.path.exists(os.path.join(MODULES, "psu_pytest.py")) else []
DRIVER = """
import pytest
from psu import Instrument
from psu.torture import Driver, psu_torture, test_torture

class Supply:
    timeout = 0.3

    def __init__(self, resource):
        self.resource = resource
        self.connect()

    def connect(self):
        self.session = Instrument.open(self.resource, self.timeout, check_errors=True)

    def query(self):
        return float(self.session.query("VOLT?"))

    def save(self, register):
        assert self.session.query(f"*SAV {register};*OPC?") == "1"

    def recover(self):
        self.session.close()
        self.connect()
"""
FIXTURE = """
@pytest.fixture
def driver(psu_torture):
    supply = Planted(psu_torture.resource)
    yield Driver(supply.query, supply.save, supply.recover, timeout=0.3, patience=4.0)
    supply.session.close()
"""
SOUND = """
class Planted(Supply):
    pass
"""
# What is wrong with a driver, the fault that finds it, and what is said of it.
PLANTED = (
    ("""
class Planted(Supply):  # takes each response for that of the last query, and does not clear
    def connect(self):
        self.session = Instrument.open(self.resource, self.timeout)
        self.session._messages._is_of_earlier_message = lambda _: False

    def recover(self):
        pass
""", "a late response", "after its recovery it returned 4.25 where 5.25 is right"),
    ("""
class Planted(Supply):  # takes a second response for that of the next query
    def connect(self):
        super().connect()
        self.session.check_errors = False
        self.session._messages._is_of_earlier_message = lambda _: False
""", "two responses", "after the fault it returned 4.25 where 5.25 is right"),
    ("""
class Planted(Supply):  # waits without end
    def connect(self):
        self.session = Instrument.open(self.resource, None)
""", "a response that is held back", "a call has not ended in 4 s"),
    ("""
class Planted(Supply):  # does not connect again
    def recover(self):
        self.session.clear()
""", "a connection that is lost before the response", "its recovery raised ConnectionLost"),
    ("""
class Planted(Supply):  # reads no number as 0
    def query(self):
        try:
            return super().query()
        except ValueError:
            return 0.0
""", "a corrupted response", "it returned 0.0 where 4.25 is right"),
    ("""
class Planted(Supply):  # does not look whether a save was refused
    def save(self, register):
        self.session.check_errors = False
        self.session.write(f"*SAV {register}")
""", "a disk that fails in a save", ""),  # not there yet when it returns, or refused: either is seen
    ("""
class Planted(Supply):  # calls each save confirmed
    def save(self, register):
        try:
            self.session.query(f"*SAV 9;*OPC?")
        except Exception:
            pass
""", "a restart within a save", "it called a save confirmed that is not there after a restart"),
)


@pytest.fixture
def run(tmp_path):
    def ran(planted, *words):
        (tmp_path / "test_driver.py").write_text(DRIVER + planted + FIXTURE)
        command = [sys.executable, "-m", "pytest", "-q", "-p", "no:cacheprovider", *PLUGIN, *words]
        how = {"stdout": subprocess.PIPE, "stderr": subprocess.STDOUT, "universal_newlines": True}
        ended = subprocess.run(command, cwd=tmp_path, env={**os.environ, "PYTHONPATH": MODULES}, **how)
        return ended.returncode, ended.stdout

    return ran


def test_a_driver_that_survives(run):
    status, text = run(SOUND)
    assert status == 0 and "psu torture: 25 of 25 faults survived" in text, text
    assert text.count(" survived\n") == 25


@pytest.mark.parametrize("planted, fault, said", PLANTED, ids=[it[1] for it in PLANTED])
def test_a_driver_with_a_planted_fault(run, planted, fault, said):
    status, text = run(planted, "-k", " and ".join(fault.split()))
    assert status == 1 and f"{fault:50} NOT SURVIVED: {said}" in text, text

