"""Tests of the command line as a person meets it: what each command prints, where, and with which exit status.

Needs pytest and the program `psu` (conftest.py says where it is looked for): python3 -m pytest test_command_line.py
Good and damaged images are those of test_images.py.
"""
import errno
import os
import resource
import signal
import socket
import stat
import subprocess
import tempfile

import pytest

import psu_path  # noqa: F401  (finds ../python)
from failing_calls import fail
from images import FORMATTED, SIZE, join_pages, make_image, make_root
from psu.server import Server, find_program, free_port
from running import COMMANDS_ON_AN_IMAGE, fault, image, psu, words_on  # noqa: F401  (image is a fixture)

NOBODY = 65534


# Paths that are no image


@pytest.mark.parametrize("command", COMMANDS_ON_AN_IMAGE)
def test_a_path_without_an_image(tmp_path, command):
    assert psu(*words_on(command, tmp_path / "none.psu")) == fault("no such file")
    assert psu(*words_on(command, tmp_path / "none" / "bench.psu")) == fault("no such file")
    assert os.listdir(tmp_path) == []


@pytest.mark.parametrize("command", COMMANDS_ON_AN_IMAGE)
def test_a_path_that_is_no_plain_file(tmp_path, command):
    os.mkfifo(tmp_path / "pipe")
    for path in (tmp_path, tmp_path / "pipe", "/dev/null"):
        assert psu(*words_on(command, path)) == fault("device fault")


@pytest.mark.parametrize("command", COMMANDS_ON_AN_IMAGE)
def test_an_image_that_another_process_has_open(server, command):
    assert psu(*words_on(command, server.image)) == fault("device fault")
    with server.connect() as supply:
        assert supply.query("*SAV 1;*OPC?") == "1"


# Those who may not read or write


@pytest.fixture
def shared_folder():
    """A folder that everyone may enter; pytest's own are closed to others."""
    with tempfile.TemporaryDirectory() as folder:
        os.chmod(folder, 0o755)
        yield folder


def psu_unprivileged(*words):
    """Runs the program for a user whom permissions stop: this one, or `nobody` where this one is root."""
    if os.geteuid() != 0:
        return psu(*words)
    try:
        return psu(*words, preexec_fn=lambda: (os.setgid(NOBODY), os.setuid(NOBODY)))
    except (OSError, subprocess.SubprocessError):
        pytest.skip("`nobody` may not execute the program")


def owned(path, mode):
    """Gives a file or folder to the user of `psu_unprivileged`, with these permissions."""
    if os.geteuid() == 0:
        os.chown(path, NOBODY, NOBODY)
    os.chmod(path, mode)


@pytest.fixture
def is_executable_by_all():
    if os.geteuid() == 0 and psu_unprivileged("recover", "/nonexistent") != fault("no such file"):
        pytest.skip("`nobody` may not execute the program")


@pytest.mark.parametrize("mode", [0o400, 0o200, 0o000])
def test_an_image_without_permission(is_executable_by_all, shared_folder, mode):
    path = os.path.join(shared_folder, "bench.psu")
    with open(path, "wb") as file:
        file.write(make_image())
    owned(path, mode)
    for command in COMMANDS_ON_AN_IMAGE:
        assert psu_unprivileged(*words_on(command, path)) == fault("device fault")


def test_make_in_a_folder_without_permission(is_executable_by_all, shared_folder):
    folder = os.path.join(shared_folder, "closed")
    os.mkdir(folder)
    owned(folder, 0o500)
    assert psu_unprivileged("make", os.path.join(folder, "bench.psu")) == fault("device fault")
    assert os.listdir(folder) == []


# psu make


def test_make(tmp_path):
    path = tmp_path / "bench.psu"
    assert psu("make", path) == (0, "", "")
    content = path.read_bytes()
    # By the format: root 0 is open with version 2, limit 256, number 1 and no items; gate 1 is closed.
    assert content[:18] == bytes.fromhex("a5 505355 0002 0100 0000000000000001 0000")
    assert content == make_image() and len(content) == SIZE
    assert psu("recover", path) == (0, FORMATTED, "")


@pytest.mark.parametrize("content", [b"", b"precious", make_image()], ids=["empty", "a text", "an image"])
def test_make_leaves_a_file_that_is_there(image, content):
    path = image(content)
    os.chmod(path, 0o640)
    before = os.stat(path)
    assert psu("make", path) == fault("file exists")
    after = os.stat(path)
    assert path.read_bytes() == content
    assert (before.st_ino, before.st_mtime_ns, before.st_mode) == (after.st_ino, after.st_mtime_ns, after.st_mode)


def test_make_leaves_what_is_no_file(tmp_path):
    os.symlink("nowhere", tmp_path / "link")
    os.mkfifo(tmp_path / "pipe")
    for path in (tmp_path, tmp_path / "link", tmp_path / "pipe"):
        assert psu("make", path) == fault("file exists")
    assert sorted(os.listdir(tmp_path)) == ["link", "pipe"]
    assert os.readlink(tmp_path / "link") == "nowhere" and stat.S_ISFIFO(os.stat(tmp_path / "pipe").st_mode)


def test_make_leaves_an_image_that_is_served(server):
    assert psu("make", server.image) == fault("file exists")
    with server.connect() as supply:
        assert supply.query("*SAV 1;*OPC?") == "1"


def test_make_without_a_folder(tmp_path):
    assert psu("make", tmp_path / "none" / "bench.psu") == fault("no such file")
    (tmp_path / "file").write_bytes(b"")
    assert psu("make", tmp_path / "file" / "bench.psu") == fault("device fault")
    assert os.listdir(tmp_path) == ["file"]


def limited_to(count):
    """Returns a function after which a process can write no file past so many bytes."""

    def apply():
        signal.signal(signal.SIGXFSZ, signal.SIG_IGN)
        resource.setrlimit(resource.RLIMIT_FSIZE, (count, count))

    return apply


@pytest.mark.parametrize("room", [0, 1, 4096, SIZE - 1])
def test_make_leaves_nothing_where_there_is_no_room(tmp_path, room):
    assert psu("make", tmp_path / "bench.psu", preexec_fn=limited_to(room)) == fault("device fault")
    assert os.listdir(tmp_path) == []


@pytest.mark.parametrize("call", ["pwrite64", "fsync", "fdatasync"])
def test_make_leaves_nothing_where_the_disk_fails(tmp_path, call):
    assert psu("make", tmp_path / "bench.psu", preexec_fn=fail({call: errno.EIO})) == fault("device fault")
    assert os.listdir(tmp_path) == []


@pytest.mark.parametrize("error", ["ENOLCK", "EIO"])
def test_make_leaves_nothing_where_the_lock_fails(tmp_path, error):
    failing = fail({"flock": getattr(errno, error)})
    assert psu("make", tmp_path / "bench.psu", preexec_fn=failing) == fault("device fault")
    assert os.listdir(tmp_path) == []


# Locks of files


@pytest.mark.parametrize("error", ["ENOSYS", "EOPNOTSUPP", "EINVAL"])
def test_a_file_system_without_locks(tmp_path, error):
    failing = fail({"flock": getattr(errno, error)})
    path = tmp_path / "bench.psu"
    assert psu("make", path, preexec_fn=failing) == (0, "", "")
    assert psu("recover", path, preexec_fn=failing) == (0, FORMATTED, "")
    assert psu("run", path, input=b"*OPC?\n", preexec_fn=failing) == (0, "1\n", "")


@pytest.mark.parametrize("error", ["ENOLCK", "EIO"])
@pytest.mark.parametrize("command", COMMANDS_ON_AN_IMAGE)
def test_a_lock_that_fails_refuses_the_image(image, command, error):
    path = image(make_image())
    failing = fail({"flock": getattr(errno, error)})
    assert psu(*words_on(command, path), preexec_fn=failing) == fault("device fault")
    assert path.read_bytes() == make_image()


# psu serve


def listener():
    """A socket that takes a port."""
    taken = socket.socket()
    taken.bind(("127.0.0.1", 0))
    taken.listen()
    return taken


def test_a_taken_port(image):
    path = image(make_image())
    with listener() as taken:
        assert psu("serve", path, "--port", taken.getsockname()[1]) == fault("network fault")
    assert path.read_bytes() == make_image()


def test_a_taken_port_is_told_before_the_image_is_opened(image, tmp_path):
    roots = [make_root(number=4), make_root(number=5)]
    path = image(join_pages(roots, b""))
    with listener() as taken:
        port = taken.getsockname()[1]
        assert psu("serve", path, "--port", port) == fault("network fault")
        # The older gate is open still: nothing has opened the image.
        assert path.read_bytes() == join_pages(roots, b"")
        assert psu("serve", tmp_path / "none.psu", "--port", port) == fault("network fault")


def test_a_second_server_on_a_taken_port_locks_nothing(server):
    assert psu("serve", server.image, "--port", server.port) == fault("network fault")
    assert psu("serve", server.image, "--port", free_port()) == fault("device fault")
    with server.connect() as supply:
        assert supply.query("*SAV 1;*OPC?") == "1"


def test_two_servers_on_one_image(server):
    assert psu("serve", server.image, "--port", free_port()) == fault("device fault")
    with server.connect() as supply:
        assert supply.query("*SAV 1;*OPC?") == "1"


def test_serve_prints_its_address_and_ends_by_a_signal(tmp_path):
    with Server(tmp_path / "bench.psu") as server:
        # Its first and only line was read and compared by `start`.
        server.process.send_signal(signal.SIGTERM)
        assert server.process.wait() == -signal.SIGTERM
        assert server.process.stdout.read() == ""


def test_serve_after_its_standard_output_was_closed(image):
    path = image(make_image())
    process = subprocess.Popen(
        [find_program(), "serve", str(path), "--port", str(free_port())], stdout=subprocess.PIPE, stderr=subprocess.PIPE
    )
    assert process.stdout.readline().startswith(b"listening on 127.0.0.1:")
    process.stdout.close()
    process.kill()
    assert process.wait() == -signal.SIGKILL
    assert process.stderr.read() == b""
    process.stderr.close()


# psu run


def test_run_in_memory():
    assert psu("run", input=b"*IDN?\n*SAV 1;*OPC?\n!POWER\n*ESR?") == (0, "EXAMPLE,PSU4,0,1.0\n1\n128\n", "")


def test_run_without_input():
    assert psu("run") == (0, "", "")


def test_run_where_the_output_is_full():
    with open("/dev/full", "wb") as full:
        assert psu("run", input=b"*IDN?\n", stdout=full) == fault("write fault")


def test_recover_where_the_output_is_full(image):
    path = image(make_image())
    with open("/dev/full", "wb") as full:
        assert psu("recover", path, stdout=full) == fault("write fault")


def test_run_whose_input_can_not_be_read(tmp_path):
    folder = os.open(tmp_path, os.O_RDONLY)
    try:
        assert psu("run", stdin=folder) == fault("read fault")
    finally:
        os.close(folder)


def test_run_of_an_input_that_is_too_long(tmp_path):
    path = tmp_path / "input"
    with open(path, "wb") as file:
        file.write((b" " * 65535 + b"\n") * 256 + b"\n")
    with open(path, "rb") as file:
        assert psu("run", stdin=file, timeout=300) == fault("input too long")


# Wrong command lines

WRONG = [
    [],
    ["--help"],
    ["-h"],
    ["help"],
    ["--version"],
    ["frobnicate"],
    ["Run"],
    ["make"],
    ["make", "a.psu", "b.psu"],
    ["make", "--limit", "4", "a.psu"],
    ["recover"],
    ["recover", "a.psu", "b.psu"],
    ["recover", "--help"],
    ["run", "a.psu", "b.psu"],
    ["run", "--port", "4880"],
    ["serve"],
    ["serve", "--port", "4880"],
    ["serve", "a.psu", "b.psu"],
    ["serve", "a.psu", "--port"],
    ["serve", "a.psu", "--port", "0"],
    ["serve", "a.psu", "--port", "65536"],
    ["serve", "a.psu", "--port", "-1"],
    ["serve", "a.psu", "--port", "http"],
    ["serve", "a.psu", "--port", ""],
    ["serve", "a.psu", "--port", "4880", "--port", "4881"],
    ["serve", "a.psu", "--host", "0.0.0.0"],
]


@pytest.mark.parametrize("words", WRONG, ids=" ".join)
def test_a_wrong_command_line(tmp_path, words):
    assert psu(*words, cwd=tmp_path) == (2, "", "")
    assert os.listdir(tmp_path) == []
