"""Tests of what an administrator uses: the health check confirm.py, and the backup.

Needs pytest and the program `psu` (conftest.py says where it is looked for): python3 -m pytest test_administration.py
Prints what pytest prints: one dot a test.
"""
import hashlib
import os
import resource
import signal
import subprocess
import sys
import threading

import pytest

import psu_path  # noqa: F401  (finds ../python)
from images import join_pages, make_image, make_root
from psu.server import find_program, free_port

FOLDER = os.path.dirname(os.path.abspath(__file__))
NO_SERVER, SIXTEEN_SESSIONS, LOCKED, STORE = 3, 4, 5, 6
LOCK = "confirm.py: another session holds a lock\n"
BROKEN = "confirm.py: the store is broken: the disk fails\n"


def run(program, *arguments):
    command = [sys.executable, os.path.join(FOLDER, program), *map(str, arguments)]
    ended = subprocess.run(command, stdout=subprocess.PIPE, stderr=subprocess.PIPE, universal_newlines=True, timeout=60)
    return ended.returncode, ended.stdout, ended.stderr


def confirm(server, *words):
    return run("confirm.py", "--port", server.port, "--timeout", 1, *words)


def reported(path):
    """What `psu recover` prints of an image."""
    ended = subprocess.run([find_program(), "recover", str(path)], stdout=subprocess.PIPE, universal_newlines=True)
    assert ended.returncode == 0
    return ended.stdout


# The health check


@pytest.mark.parametrize("words", [(), ("--write",)])
def test_confirm(server, supply, words):
    supply.write("*SAV 1")
    assert confirm(server, *words) == (0, "", "")


@pytest.mark.parametrize("flag, enables", [(0, "32"), (1, "0")])
def test_confirm_by_a_write_leaves_all_as_it_is(server, supply, flag, enables):
    supply.query(f"*PSC {flag};*SRE 32;*ESE 128;*CLS;VOLT 5;*SAV 1;*OPC?")
    assert confirm(server, "--write") == (0, "", "")
    assert supply.query("*PSC?;*SRE?;*ESE?;*ESR?;:SYST:ERR:COUN?;:VOLT?") == f"{flag};32;128;0;0;5.000"
    assert supply.lock_info() == (False, 0)
    server.restart()
    with server.connect() as again:
        assert again.query("*PSC?;*SRE?") == f"{flag};{enables}"


def test_confirm_where_nothing_listens():
    port = free_port()
    status, output, error = run("confirm.py", "--port", port)
    assert (status, output) == (NO_SERVER, "")
    assert error.startswith(f"confirm.py: nothing listens on 127.0.0.1:{port}") and error.count("\n") == 1


def test_confirm_of_a_server_that_stands_still(server):
    server.process.send_signal(signal.SIGSTOP)
    try:
        line = f"confirm.py: the server at 127.0.0.1:{server.port} does not answer in time\n"
        assert confirm(server) == (NO_SERVER, "", line)
    finally:
        server.process.send_signal(signal.SIGCONT)


@pytest.mark.parametrize("words", [(), ("--write",)])
def test_confirm_of_a_crowded_server(server, connect, words):
    sessions = [connect() for _ in range(16)]
    assert confirm(server, *words) == (SIXTEEN_SESSIONS, "", "confirm.py: sixteen sessions are open\n")
    assert len(sessions) == 16


@pytest.mark.parametrize("words", [(), ("--write",)])
@pytest.mark.parametrize("key", [None, "bench"])
def test_confirm_under_a_lock(server, supply, key, words):
    supply.lock(1, key)
    assert confirm(server, *words) == (LOCKED, "", LOCK)


def test_confirm_after_an_image_was_removed(server, supply):
    os.remove(server.image)
    # Nothing has to be written, so only a write shows it.
    assert confirm(server) == (0, "", "")
    assert confirm(server, "--write") == (STORE, "", BROKEN)
    # The errors of the write are not left for another session, which would take them for its own.
    assert supply.query("SYST:ERR:COUN?") == "0"


def test_confirm_leaves_errors_that_were_there(server, supply):
    os.remove(server.image)
    supply.write("FOO")
    assert confirm(server, "--write") == (STORE, "", BROKEN)
    assert supply.query("SYST:ERR?") == '-113,"Undefined header"'


def test_confirm_of_a_store_that_is_broken_already(server, supply):
    os.remove(server.image)
    supply.write("*SAV 1")
    assert confirm(server) == (STORE, "", BROKEN)
    assert confirm(server, "--write") == (STORE, "", BROKEN)


def test_confirm_of_a_wrong_command_line():
    assert run("confirm.py", "--frobnicate")[:2] == (2, "")


# Backup


def backup(*words):
    return run("backup.py", *words)


def failed(text):
    return 1, "", f"backup.py: {text}\n"


def test_backup_of_a_running_server(server, supply, tmp_path):
    supply.write("VOLT 5.25;*SAV 3")
    copy = tmp_path / "copy.psu"
    assert backup("--port", server.port, server.image, copy) == (0, "", "")
    assert supply.query("*OPC?;:SYST:ERR:COUN?") == "1;0"
    assert supply.lock_info() == (False, 0)
    assert (tmp_path / "copy.psu.sha256").read_text() == f"{hashlib.sha256(copy.read_bytes()).hexdigest()}  copy.psu\n"
    assert backup("--check", copy) == (0, "", "")
    assert os.stat(copy).st_mode & 0o077 == 0
    assert sorted(os.listdir(tmp_path)) == ["bench.psu", "copy.psu", "copy.psu.sha256"]
    # The copy is what a restart of it finds.
    ended = subprocess.run([find_program(), "run", str(copy)], input=b"*RCL 3;VOLT?\n", stdout=subprocess.PIPE)
    assert ended.stdout == b"5.250\n"


def test_backup_while_a_session_saves(server, connect, tmp_path):
    """Each copy has what was saved at one moment: the same number in two registers, or the next one in the first."""
    is_over = threading.Event()
    saver = connect(30.0)

    def save():
        for millivolts in range(1, 60000):
            if is_over.is_set():
                break
            # The lock may be granted between two units of a message, so between the two saves.
            saver.query(f"VOLT {millivolts / 1000};*SAV 1;*SAV 2;*OPC?")

    thread = threading.Thread(target=save)
    thread.start()
    try:
        for number in range(5):
            copy = tmp_path / f"{number}.psu"
            assert backup("--port", server.port, server.image, copy) == (0, "", "")
            first, second = saved_in(copy)
            assert 0 <= first - second <= 1
    finally:
        is_over.set()
        thread.join()


def saved_in(image):
    """The voltages of registers 1 and 2 of an image, in millivolts."""
    command = [find_program(), "run", str(image)]
    ended = subprocess.run(command, input=b"*RCL 1;VOLT?\n*RCL 2;VOLT?\n", stdout=subprocess.PIPE)
    return [round(float(it) * 1000) for it in ended.stdout.split()]


def test_backup_without_a_server(tmp_path):
    image = tmp_path / "bench.psu"
    image.write_bytes(make_image())
    assert backup(image, tmp_path / "copy.psu") == (0, "", "")
    assert (tmp_path / "copy.psu").read_bytes() == make_image()


def test_backup_closes_an_older_gate_of_the_copy(tmp_path):
    roots = [make_root(number=4), make_root(number=5)]
    image, copy = tmp_path / "bench.psu", tmp_path / "copy.psu"
    image.write_bytes(join_pages(roots, b""))
    assert backup(image, copy) == (0, "", "")
    assert image.read_bytes() == join_pages(roots, b"")
    assert copy.read_bytes() == join_pages([b"\0" + roots[0][1:], roots[1]], b"")
    assert backup("--check", copy) == (0, "", "")


def test_backup_sees_one_flipped_bit(server, supply, tmp_path):
    """`psu recover` accepts a copy in which a bit of a file is another: only its SHA-256 says so."""
    supply.write_block('MMEM:DATA "notes",', b"Z" * 64)
    copy = tmp_path / "copy.psu"
    assert backup("--port", server.port, server.image, copy) == (0, "", "")
    content = bytearray(copy.read_bytes())
    content[content.index(b"Z" * 64)] ^= 1
    report = reported(copy)
    copy.write_bytes(content)
    assert reported(copy) == report
    assert backup("--check", copy) == failed(f"{copy} is not what was copied: its SHA-256 is another")


def test_backup_of_another_servers_image(server, connect, tmp_path):
    other = tmp_path / "other.psu"
    other.write_bytes(make_image())
    port = free_port()
    command = [find_program(), "serve", str(other), "--port", str(port)]
    process = subprocess.Popen(command, stdout=subprocess.PIPE)
    try:
        process.stdout.readline()
        text = f"the server at 127.0.0.1:{server.port} has another image open: name its own with --port"
        assert backup("--port", server.port, other, tmp_path / "copy.psu") == failed(text)
        assert not (tmp_path / "copy.psu").exists()
        assert backup("--port", port, other, tmp_path / "copy.psu") == (0, "", "")
    finally:
        process.kill()
        process.wait()
        process.stdout.close()


def test_backup_leaves_what_is_there(server, tmp_path):
    for name in ("copy.psu", "copy.psu.sha256"):
        path = tmp_path / name
        path.write_bytes(b"precious")
        assert backup("--port", server.port, server.image, tmp_path / "copy.psu") == failed(f"{path}: File exists")
        assert path.read_bytes() == b"precious"
        path.unlink()
    assert os.listdir(tmp_path) == ["bench.psu"]


def test_backup_of_what_is_no_image(tmp_path):
    path = tmp_path / "text"
    path.write_bytes(b"no image")
    program = find_program()
    assert backup(path, tmp_path / "copy") == failed(f"the copy is refused by {program}: psu: no root")
    assert backup(tmp_path / "none", tmp_path / "copy") == failed(f"{tmp_path / 'none'}: No such file or directory")
    assert os.listdir(tmp_path) == ["text"]


def test_backup_where_the_server_does_not_confirm(server, supply, tmp_path):
    copy = tmp_path / "copy.psu"
    supply.lock(1)
    words = ("--port", server.port, "--timeout", 0.5, server.image, copy)
    assert backup(*words) == failed("another session holds a lock")
    supply.unlock()
    os.link(server.image, tmp_path / "link")
    os.truncate(server.image, 4096)
    assert backup(*words) == failed("the store is broken: the disk fails")
    assert sorted(os.listdir(tmp_path)) == ["bench.psu", "link"]


def test_backup_without_room(server, tmp_path):
    """A copy that can't be finished leaves no file."""
    def apply():
        signal.signal(signal.SIGXFSZ, signal.SIG_IGN)
        resource.setrlimit(resource.RLIMIT_FSIZE, (4096, 4096))

    copy = tmp_path / "copy.psu"
    command = [sys.executable, os.path.join(FOLDER, "backup.py"), "--port", str(server.port), server.image, str(copy)]
    ended = subprocess.run(command, stderr=subprocess.PIPE, preexec_fn=apply)
    assert ended.returncode == 1 and b"File too large" in ended.stderr
    assert os.listdir(tmp_path) == ["bench.psu"]


def test_check_of_a_copy_without_its_sum(tmp_path):
    copy = tmp_path / "copy.psu"
    copy.write_bytes(make_image())
    assert backup("--check", copy) == failed(f"{copy}.sha256: No such file or directory")


@pytest.mark.parametrize("words", [[], ["a"], ["a", "b", "c"], ["--check"], ["--check", "a", "b"]])
def test_backup_of_a_wrong_command_line(words):
    assert backup(*words)[:2] == (2, "")
