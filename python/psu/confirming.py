"""Whether a server's disk takes changes, and why not: what `psu-backup` and examples/confirm.py share."""
from __future__ import annotations

import contextlib
import enum
from typing import Iterator

from .client import Instrument
from .errors import FatalError, HislipError, Timeout

TOO_MANY_SESSIONS = 4  # FatalError's code


class Reason(enum.IntEnum):
    """Why nothing was confirmed; the exit status of confirm.py."""

    OTHER = 1
    NO_SERVER = 3
    SIXTEEN_SESSIONS = 4
    LOCKED = 5
    STORE = 6
    LATE = 7


class Unconfirmed(HislipError):
    """The server did not confirm that all changes are on the disk."""

    def __init__(self, reason: Reason, text: str) -> None:
        super().__init__(text)
        self.reason = reason


@contextlib.contextmanager
def session_of(port: int, timeout: float) -> Iterator[Instrument]:
    """A session in a `with` block; Unconfirmed says why there is none."""
    try:
        supply = Instrument(port=port, timeout=timeout)
    except FatalError as refusal:
        if refusal.code == TOO_MANY_SESSIONS:
            raise Unconfirmed(Reason.SIXTEEN_SESSIONS, "sixteen sessions are open") from None
        raise
    except Timeout:
        raise Unconfirmed(Reason.NO_SERVER, f"the server at 127.0.0.1:{port} does not answer in time") from None
    except OSError as fault:
        raise Unconfirmed(Reason.NO_SERVER, str(fault)) from None
    with supply:
        yield supply


def take_lock(supply: Instrument, timeout: float) -> None:
    """Takes the exclusive lock, which ends with the session; Unconfirmed where another session has one."""
    try:
        supply.lock(timeout)
    except Timeout:
        raise Unconfirmed(Reason.LOCKED, "another session holds a lock") from None


def wait_for_disk(supply: Instrument, own_locks: int = 0) -> None:
    """Returns once all accepted changes are on the disk; Unconfirmed says why they are not."""
    # A refused *OPC? has no response, so the query after it shows at once that the first was refused.
    if len(answered(supply, "*OPC?;*STB?", own_locks).split(";")) != 2:
        raise Unconfirmed(Reason.STORE, "the store is broken: the disk fails")


def write_to_disk(supply: Instrument) -> None:
    """Makes a change that leaves all as it is, and returns once it is on the disk. The session has the exclusive lock.

    It gives *PSC the value that it has. The errors -320 of a broken store are taken out of the queue again, where it
    was empty: it is shared, and other sessions would take them for theirs.
    """
    count, flag = answered(supply, "SYST:ERR:COUN?;*PSC?", own_locks=1).split(";")
    try:
        supply.write(f"*PSC {flag}")
        wait_for_disk(supply, own_locks=1)
    except Unconfirmed as fault:
        if fault.reason == Reason.STORE and count == "0":
            supply.errors()
        raise


def answered(supply: Instrument, query: str, own_locks: int) -> str:
    """The response to a query; Unconfirmed says why none comes in time."""
    try:
        return supply.query(query)
    except Timeout:
        if supply.lock_info().holders > own_locks:
            raise Unconfirmed(Reason.LOCKED, "another session holds a lock") from None
        raise Unconfirmed(Reason.LATE, "changes are not on the disk in time") from None
