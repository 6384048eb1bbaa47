"""Tests of the plugin of pytest, by runs of pytest over tests in a folder."""
import os
import re
import subprocess
import sys

import pytest

MODULES = os.path.dirname(os.path.dirname(os.path.dirname(os.path.abspath(__file__))))
# Where the package is installed pytest finds its plugin; in a clone it is named, and takes the place of an installed one.
PLUGIN = ["-p", "no:psu", "-p", "psu_pytest"] if os.path.exists(os.path.join(MODULES, "psu_pytest.py")) else []


@pytest.fixture
def run(tmp_path):
    """Runs pytest over a file of tests, and returns its status with what it printed."""

    def ran(tests, *words, ini=""):
        (tmp_path / "pytest.ini").write_text(f"[pytest]\n{ini}\n")
        (tmp_path / "test_it.py").write_text(tests)
        command = [sys.executable, "-m", "pytest", "-p", "no:cacheprovider", *PLUGIN, *words]
        how = {"stdout": subprocess.PIPE, "stderr": subprocess.STDOUT, "universal_newlines": True}
        ended = subprocess.run(command, cwd=tmp_path, env={**os.environ, "PYTHONPATH": MODULES}, **how)
        return ended.returncode, ended.stdout

    return ran


def test_the_fixtures(run):
    status, text = run("""
def test_long(psu_server, psu_supply, psu_connect):
    assert psu_connect().query("VOLT?") == psu_supply.query("VOLT?") == "0.000"
    assert psu_server.relay is None

def test_short(server, supply, connect):
    assert connect().query("VOLT?") == supply.query("VOLT?") == "0.000"

def test_relay(psu_server, psu_relay, psu_supply):
    assert psu_server.port == psu_relay.port != psu_relay.to
    psu_relay.set_rules(['error 4 command with "VOLT?"'])
    import psu
    try:
        psu_supply.query("VOLT?")
    except psu.ServerError as error:
        assert error.code == 4
    psu_server.restart()
    assert psu_server.connect().query("CURR?") == "0.000"
""")
    assert status == 0 and "3 passed" in text, text


def test_the_short_names_are_left_out(run):
    tests = "def test_it(psu_supply): pass\ndef test_other(supply): pass\n"
    status, text = run(tests, ini="psu_short_names = false")
    assert status == 1 and "1 passed, 1 error" in text and "fixture 'supply' not found" in text, text


def test_servers_of_a_module(run):
    status, text = run("""
import pytest
ports = set()

@pytest.fixture(scope="module")
def bench(psu_servers):
    with psu_servers('delay 0.01 response to "VOLT?"') as it:
        yield it

@pytest.mark.parametrize("volts", [1, 2, 3])
def test_it(bench, volts):
    ports.add(bench.port)
    with bench.connect() as supply:
        assert supply.query(f"VOLT {volts};VOLT?") == f"{volts}.000"
    assert len(ports) == 1
""")
    assert status == 0 and "3 passed" in text and "never applied" not in text, text


FAULTS = """
import pytest, psu

@pytest.mark.psu_faults('delay 0.5 response to "MEAS:VOLT?"', "hold response to NEVER")
def test_faults(psu_server, psu_supply):
    with pytest.raises(psu.Timeout):
        psu_supply.query("MEAS:VOLT?", timeout=0.1)
    psu_supply.clear()
    assert psu_supply.query("VOLT?") == {volts!r}
"""


def test_faults_and_a_rule_that_never_applied(run):
    status, text = run(FAULTS.format(volts="0.000"))
    assert status == 0 and "1 passed, 1 warning" in text, text
    assert "a rule never applied: hold response to NEVER" in text
    status, text = run(FAULTS.format(volts="9.000"))
    assert status == 1 and "psu rules that never applied" in text and "psu traffic" not in text, text


def test_the_log_of_a_failed_test(run):
    status, text = run(FAULTS.format(volts="9.000") + """
def test_passed(psu_supply):
    psu_supply.query("CURR?")

def test_without_a_rule(psu_server, psu_supply):
    import os
    os.remove(psu_server.image)
    psu_supply.write("VOLT 7;*SAV 1;*OPC?")
    psu_server.wait_for_message("store broken")
    assert False
""", "--psu-log")
    assert status == 1 and "2 failed, 1 passed" in text, text
    first, second = (it[it.index("listening") :] for it in text.split("psu traffic")[1:])
    assert re.search(r"<-- DataEnd .* 0\.000\\n  \[delayed 0\.5 s: rule 1\]\n", first)
    assert re.search(r"--> DataEnd .* VOLT 7;\*SAV 1;\*OPC\?\\n\n", second)
    assert re.search(r"psu server -+\npsu: store broken\n", second)
    assert "CURR?" not in first + second


def test_the_marker_without_a_server(run):
    status, text = run("import pytest\n@pytest.mark.psu_faults('hold response')\ndef test_it(): pass\n")
    assert status == 1 and "the marker psu_faults is for a test with the fixture psu_server" in text, text


def test_it_does_not_import_the_package(run):
    status, text = run("import sys\ndef test_it(): assert 'psu' not in sys.modules and 'asyncio' not in sys.modules\n")
    assert status == 0, text


def test_it_lists_its_options(run):
    text = run("", "--help")[1]
    assert re.search(r"--psu-log +show the traffic", text) and "psu_short_names (bool)" in text
    assert "@pytest.mark.psu_faults(rule, ..)" in run("", "--markers")[1]
