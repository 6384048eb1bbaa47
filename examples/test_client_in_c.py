"""Tests of the client in C: it is compiled without a warning, and does what its first lines say.

Needs pytest, a C compiler and the program `psu` (conftest.py says where it is looked for):
    python3 -m pytest test_client_in_c.py
Prints what pytest prints: one dot a test.
"""
import os
import shutil
import subprocess

import pytest

FOLDER = os.path.dirname(os.path.abspath(__file__))
WARNINGS = ["-std=c11", "-D_DEFAULT_SOURCE", "-Wall", "-Wextra", "-pedantic", "-Werror"]


@pytest.fixture(scope="module")
def program(tmp_path_factory):
    compiler = shutil.which("cc") or shutil.which("gcc")
    if compiler is None:
        pytest.skip("there is no C compiler")
    made = str(tmp_path_factory.mktemp("client") / "client")
    subprocess.run([compiler, *WARNINGS, "-o", made, os.path.join(FOLDER, "client.c")], check=True)
    return made


@pytest.fixture
def run(program, server):
    """Runs the client with messages."""

    def ran(*messages, port=None):
        command = [program, str(port or server.port), *messages]
        return subprocess.run(command, stdout=subprocess.PIPE, stderr=subprocess.PIPE, timeout=10)

    return ran


def test_messages_and_responses(run):
    ended = run("VOLT 5", "VOLT?;:CURR?", "FOO;:SYST:ERR?")
    assert ended.stdout == b'5.000;0.000\n-113,"Undefined header"\nstatus byte 0\n'
    assert ended.returncode == 0


def test_a_service_request_before_a_response(run):
    # The responses set MAV until they are reported as delivered; the error's bit of the status byte asks for service.
    ended = run("*CLS;*ESE 32;*SRE 32", "FOO", "*OPC?")
    assert ended.stdout == b"1\nstatus byte 100\n"


def test_a_response_of_many_frames(run, supply):
    supply.write_block('MMEM:DATA "a",', bytes(32768))
    supply.query("*OPC?")
    ended = run('MMEM:DATA? "a"' + ';:MMEM:DATA? "a"' * 9, "*OPC?")
    assert len(ended.stdout) == 10 * (7 + 32768) + 10 + len("1\nstatus byte 0\n")


def test_a_fatal_error(run, connect):
    sessions = [connect() for _ in range(16)]
    ended = run("*IDN?")
    assert (ended.returncode, ended.stderr) == (1, b"client: FatalError 4\n")
    assert len(sessions) == 16


def test_nothing_listens(run, server):
    port = server.port
    server.kill()
    assert run("*IDN?", port=port).stderr == b"client: nothing listens\n"


def test_a_refused_query_has_no_response(run):
    ended = run("FOO?")
    assert (ended.returncode, ended.stderr) == (1, b"client: no response in time (SYST:ERR? says why)\n")


def test_a_question_mark_in_a_string_or_a_block(run):
    ended = run('MMEM:DATA "a",#13x?y', "MMEM:DEL 'b?'", "VOLT 'not closed?", 'MMEM:DATA "b",#0?', '*CLS;MMEM:DATA? "a"')
    assert (ended.returncode, ended.stdout) == (0, b"#13x?y\nstatus byte 0\n")
