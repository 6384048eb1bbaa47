"""Runs the program for tests: what test_command_line.py and test_images.py share. As a program it does nothing.

Needs pytest and the program `psu` (conftest.py says where it is looked for).
"""
import subprocess

import pytest

import psu_path  # noqa: F401  (finds ../python)
from psu.server import find_program, free_port

COMMANDS_ON_AN_IMAGE = ["recover", "run", "serve"]


def words_on(command, path):
    """The words of a command on an image; a server gets a free port."""
    return [command, path, *(["--port", free_port()] if command == "serve" else [])]


def psu(*words, **how):
    """Runs the program and returns its exit status with what it wrote to standard output and standard error."""
    if "input" not in how:
        how.setdefault("stdin", subprocess.DEVNULL)
    how.setdefault("stdout", subprocess.PIPE)
    how.setdefault("timeout", 30)
    command = [find_program(), *map(str, words)]
    ended = subprocess.run(command, stderr=subprocess.PIPE, **how)
    return ended.returncode, (ended.stdout or b"").decode(), ended.stderr.decode()


def fault(text):
    return 1, "", f"psu: {text}\n"


@pytest.fixture
def image(tmp_path):
    """A function that writes an image to a file, and returns the file's path."""

    def written(content, name="bench.psu"):
        path = tmp_path / name
        path.write_bytes(content)
        return path

    return written
