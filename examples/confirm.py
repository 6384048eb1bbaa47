"""Waits until all accepted changes are on the disk: status 0 once *OPC? confirms it, else what the table says.

Needs a server on 127.0.0.1 (psu serve IMAGE) and Python 3.8 or later:
    python3 confirm.py [--write] [--port N] [--timeout SECONDS]
Prints nothing where it is confirmed, else one line on standard error, and ends with one of these statuses:
    3  no server: nothing listens, or it does not answer in time
    4  sixteen sessions are open
    5  another session holds a lock
    6  the store is broken: the disk fails, is full, or the image was removed, renamed over or cut short
    7  the disk is not done in time
    1  anything else; 2 a wrong command line
Made for ExecStop= of a unit (psu.service), which waits for what was accepted, and with --write as a health check: it
takes the exclusive lock and gives *PSC the value that it has, which is a change that has to be written. So a disk that
fails is seen though no client saves; without --write it is seen only after a save. While it waits the other sessions wait.
A broken store refuses with error -320, and all sessions share the error queue. With --write these errors are taken out
of it again where it was empty before; bit 3 of the event status register (*ESR?) stays set.
"""
import sys

import psu_path  # noqa: F401  (finds ../python)
from psu.command_line import parser, run
from psu.confirming import Unconfirmed, session_of, take_lock, wait_for_disk, write_to_disk


def confirm(arguments):
    with session_of(arguments.port, arguments.timeout) as supply:
        if arguments.write:
            take_lock(supply, arguments.timeout)
            write_to_disk(supply)
        else:
            wait_for_disk(supply)


def main(arguments):
    try:
        confirm(arguments)
    except Unconfirmed as fault:
        print(f"confirm.py: {fault}", file=sys.stderr)
        return int(fault.reason)


def made_parser():
    made = parser(__doc__)
    made.add_argument("--timeout", type=float, default=10.0, help="the longest wait in seconds (10)")
    made.add_argument("--write", action="store_true", help="write a change that leaves all as it is, under the lock")
    return made


if __name__ == "__main__":
    sys.exit(run(main, made_parser()))
