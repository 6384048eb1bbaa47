"""The note of a build: the version, the commit and the toolchain of a package, and the program that it was made with.

A package has it as the file BUILD beside these modules. In a clone there is no such file: git names the commit.
The build backend loads this module alone, without the package, so it imports nothing of it at its top.
"""
from __future__ import annotations

import argparse
import hashlib
import os
import platform
import subprocess
import sys
import time
from typing import Dict, NamedTuple, Optional, Sequence

PACKAGE = os.path.dirname(os.path.abspath(__file__))
FILE = "BUILD"
# Where pip and Debian put the programs of a package, seen from the folder that it is in: bin beside lib/pythonX.Y/..,
# or bin below the folder that `pip install --target` names.
PROGRAM_PLACES = (("..", "..", "..", "bin", "psu"), ("bin", "psu"))


def git(folder: str, *words: str) -> Optional[str]:
    """Returns what git prints in a folder; None where there is no git or no clone."""
    # A build as root in the clone of another user is no reason to refuse, since this runs the clone's code anyway.
    command = ["git", "-c", "safe.directory=*", "-C", folder, *words]
    try:
        ended = subprocess.run(command, check=True, stdout=subprocess.PIPE, stderr=subprocess.DEVNULL)
    except (OSError, subprocess.CalledProcessError):
        return None
    return ended.stdout.decode("utf-8", "replace").strip()


class Commit(NamedTuple):
    """What a build is made from. Outside of a clone it has no name, and its time is that of SOURCE_DATE_EPOCH, if any."""

    name: Optional[str]
    time: Optional[int]  # seconds since 1970
    is_changed: bool  # files of the clone differ from the commit

    def date(self, form: str) -> str:
        return time.strftime(form, time.gmtime(self.time))

    def version(self, base: str) -> str:
        """Returns the version of a build, as 1.0+20261201081627.g1230026: that of a later commit is higher."""
        if self.time is None:
            return base
        # The `g` keeps a name of digits alone from being read as a number.
        name = f".g{self.name[:7]}" if self.name else ""
        return f"{base}+{self.date('%Y%m%d%H%M%S')}{name}{'.changed' if self.is_changed else ''}"

    def __str__(self) -> str:
        name = self.name or "unknown"
        if self.time is not None:
            name += f" of {self.date('%Y-%m-%d %H:%M:%S')} UTC"
        return f"{name}, with changes that are not committed" if self.is_changed else name


def commit_of(folder: str) -> Commit:
    """Returns the commit of the clone whose top is this folder."""
    top = git(folder, "rev-parse", "--show-toplevel")
    if top is None or os.path.realpath(top) != os.path.realpath(folder):
        epoch = os.environ.get("SOURCE_DATE_EPOCH")
        return Commit(None, int(epoch) if epoch else None, False)
    name, seconds = (git(folder, "log", "-1", "--format=%H %ct") or "").split()
    return Commit(name, int(seconds), bool(git(folder, "status", "--porcelain", "--untracked-files=no")))


def written(**fields: str) -> str:
    """Returns the text of a note: a line for each field."""
    return "".join(f"{key:10} {value}\n" for key, value in fields.items())


def fields_of(note: str) -> Dict[str, str]:
    """Returns the fields of a note."""
    pairs = (line.partition(" ") for line in note.splitlines())
    return {key: value.strip() for key, _, value in pairs}


def fields() -> Dict[str, str]:
    """Returns the fields of this package's note; of a clone its commit alone."""
    try:
        with open(os.path.join(PACKAGE, FILE), encoding="utf-8") as file:
            return fields_of(file.read())
    except FileNotFoundError:
        return {"commit": str(commit_of(os.path.dirname(os.path.dirname(PACKAGE))))}


def packaged_program() -> Optional[str]:
    """Returns the path of the program that was installed with this package; None where it has none, as in a clone."""
    # In a clone there is no note, and git need not be asked.
    if not os.path.exists(os.path.join(PACKAGE, FILE)) or "program" not in fields():
        return None
    paths = (os.path.normpath(os.path.join(os.path.dirname(PACKAGE), *it)) for it in PROGRAM_PLACES)
    return next((it for it in paths if os.access(it, os.X_OK)), None)


def sum_of(content: bytes) -> str:
    return hashlib.sha256(content).hexdigest()


def described(program: bytes) -> str:
    """Returns what a note says of a program: its size and its SHA-256."""
    return f"{len(program)} bytes, SHA-256 {sum_of(program)}"


def text() -> str:
    """Returns what the option --version prints: what a report of a fault has to name."""
    from . import __version__
    from .server import find_program

    note = fields()
    lines = {"psu": __version__, "commit": note["commit"]}
    try:
        path = find_program()
    except FileNotFoundError as fault:
        lines["program"] = str(fault)
    else:
        with open(path, "rb") as file:
            program = described(file.read())
        is_own = program == note.get("program")
        lines["program"] = f"{path}: {program}"
        lines["toolchain"] = note["toolchain"] if is_own else "not known of this program"
    lines["modules"] = f"{PACKAGE}, Python {platform.python_version()}"
    return written(**lines)


class Version(argparse.Action):
    """The option --version of a program."""

    def __init__(self, option_strings: Sequence[str], dest: str) -> None:
        super().__init__(option_strings, argparse.SUPPRESS, nargs=0, help="print commit, program and toolchain, and end")

    def __call__(self, parser: argparse.ArgumentParser, *_: object, **__: object) -> None:
        sys.stdout.write(text())
        parser.exit()
