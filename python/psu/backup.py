"""Copies the image of a running server, checks the copy, and writes its SHA-256 beside it.

    psu-backup [--port N] [--timeout SECONDS] [--program PSU] IMAGE COPY
    psu-backup --check COPY

Takes the exclusive lock, waits until all changes are on the disk (*OPC?), copies, and ends the session, which releases
the lock: meanwhile the commands of other sessions wait, for some hundredths of a second. That IMAGE is the image of the
server at this port is seen by a change that leaves all as it is (*PSC with the value it has): the number of the image's
root has to rise. Where no process has IMAGE open, it is locked (flock) and copied without a server.

The copy is checked by `psu recover`, which closes an older gate of it where one is open. Then COPY and COPY.sha256 are
made, each whole or not at all; COPY must not be there before. A run that is killed may leave COPY.new, which the next
one to COPY replaces. --check compares the two; `sha256sum -c` does too.
Prints nothing where all is well, else one line on standard error with status 1. Restore a copy while no server runs:
    install -o psu -g psu -m 600 COPY IMAGE && sync IMAGE
"""
from __future__ import annotations

import contextlib
import errno
import fcntl
import hashlib
import os
import subprocess
import sys
from typing import Iterator, Optional, Union

from .command_line import parser
from .confirming import session_of, take_lock, write_to_disk
from .errors import HislipError
from .server import find_program

PAGE = 512
OPEN_GATE = 0xA5
NO_LOCKS = (errno.ENOSYS, errno.EOPNOTSUPP, errno.EINVAL)


class NotMade(Exception):
    """Why there is no backup, or why it is not what was made."""


def root_number(image: bytes) -> Optional[int]:
    """The number of an image's current root: of the two with an open gate, the higher one. None where none is open."""
    roots = (image[:PAGE], image[PAGE : 2 * PAGE])
    numbers = (int.from_bytes(it[8:16], "big") for it in roots if len(it) == PAGE and it[0] == OPEN_GATE)
    return max(numbers, default=None)


def is_locked_by_another(file: int) -> bool:
    """Whether another process has an open image locked. If not, this one has it locked until it closes the file."""
    try:
        fcntl.flock(file, fcntl.LOCK_EX | fcntl.LOCK_NB)
        return False
    except BlockingIOError:
        return True
    except OSError as fault:
        if fault.errno in NO_LOCKS:
            return True  # this file system has no locks: a server may have the image open
        raise


def read_whole(file: int) -> bytes:
    with open(file, "rb", closefd=False) as image:
        image.seek(0)
        return image.read()


@contextlib.contextmanager
def opened(path: str) -> Iterator[int]:
    """Opens a file or a folder for reading, in a `with` block."""
    file = os.open(path, os.O_RDONLY | os.O_CLOEXEC)
    try:
        yield file
    finally:
        os.close(file)


def read_served(file: int, port: int, timeout: float) -> bytes:
    """Reads the image of the server at a port, while nothing is written to it."""
    with session_of(port, timeout) as supply:
        take_lock(supply, timeout)
        # All that was accepted before is written first, so that the next commit is that of this session's change.
        write_to_disk(supply)
        before = root_number(read_whole(file))
        write_to_disk(supply)
        content = read_whole(file)
        now = root_number(content)
    if before is None or now is None:
        raise NotMade("the file is no image, or not one that a server has open")
    if now != before + 1:
        raise NotMade(f"the server at 127.0.0.1:{port} has another image open: name its own with --port")
    return content


def read_image(path: str, port: int, timeout: float) -> bytes:
    """Reads an image as it is at one moment."""
    with opened(path) as file:
        return read_served(file, port, timeout) if is_locked_by_another(file) else read_whole(file)


def sync_path(path: str) -> None:
    with opened(path) as file:
        os.fsync(file)


@contextlib.contextmanager
def alone_in(folder: str) -> Iterator[None]:
    """Has other runs that write into this folder wait in a `with` block."""
    with opened(folder) as file:
        with contextlib.suppress(OSError):  # a file system without locks
            fcntl.flock(file, fcntl.LOCK_EX)
        yield


@contextlib.contextmanager
def new_file(path: str, content: bytes) -> Iterator[str]:
    """Writes a file beside a path, for a `with` block that ends with its name changed to the path.

    No other run writes into the folder meanwhile, so a file that is there already is one that a killed run left.
    """
    unfinished = f"{path}.new"
    with open(unfinished, "wb", opener=lambda name, flags: os.open(name, flags, 0o600)) as file:
        try:
            file.write(content)
            file.flush()
            os.fsync(file.fileno())
            yield unfinished
            os.rename(unfinished, path)
        except BaseException:
            os.unlink(unfinished)
            raise


def check_by_recover(program: str, path: str) -> None:
    ended = subprocess.run([program, "recover", path], stdout=subprocess.DEVNULL, stderr=subprocess.PIPE)
    if ended.returncode != 0:
        raise NotMade(f"the copy is refused by {program}: {ended.stderr.decode('utf-8', 'replace').strip()}")


def sum_of(path: str) -> str:
    with open(path, "rb") as file:
        return hashlib.sha256(file.read()).hexdigest()


def make(image: str, copy: str, port: int, timeout: float, program: str) -> None:
    """Makes a copy that was checked, with its SHA-256 beside it."""
    sums, folder = f"{copy}.sha256", os.path.dirname(os.path.abspath(copy))
    with alone_in(folder):
        for path in (copy, sums):
            if os.path.lexists(path):
                raise FileExistsError(errno.EEXIST, os.strerror(errno.EEXIST), path)
        with new_file(copy, read_image(image, port, timeout)) as unfinished:
            check_by_recover(program, unfinished)
            line = f"{sum_of(unfinished)}  {os.path.basename(copy)}\n"
            sync_path(unfinished)
        with new_file(sums, line.encode()):
            pass
        sync_path(folder)


def check(copy: str) -> None:
    """Compares a copy with the SHA-256 that was written beside it."""
    with open(f"{copy}.sha256", encoding="utf-8") as file:
        noted = file.read().split()
    if not noted or sum_of(copy) != noted[0]:
        raise NotMade(f"{copy} is not what was copied: its SHA-256 is another")


def main() -> Optional[Union[int, str]]:
    made = parser(__doc__)
    made.add_argument("--timeout", type=float, default=10.0, help="the longest wait for lock and disk in seconds (10)")
    made.add_argument("--program", help="the path of psu; by default the variable PSU, the built one, or that of the PATH")
    made.add_argument("--check", action="store_true", help="compare a copy with the SHA-256 beside it")
    made.add_argument("paths", nargs="+", metavar="IMAGE COPY", help="the image and the new copy; with --check the copy")
    words = made.parse_args()
    if len(words.paths) != (1 if words.check else 2):
        made.error("IMAGE and COPY are needed, or --check and COPY")
    try:
        if words.check:
            check(*words.paths)
        else:
            image, copy = words.paths
            make(image, copy, words.port, words.timeout, words.program or find_program())
    except (NotMade, HislipError, OSError, ValueError) as fault:
        return f"{made.prog}: {message_of(fault)}"
    return None


def message_of(fault: Exception) -> str:
    is_of_file = isinstance(fault, OSError) and fault.filename is not None
    return f"{fault.filename}: {fault.strerror}" if is_of_file else str(fault)  # type: ignore[attr-defined]


if __name__ == "__main__":
    sys.exit(main())
