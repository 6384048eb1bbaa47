"""Waits until the server of one process answers: status 0 once it does, 1 where it ended or does not in time.

Made for ExecStartPost= of a unit (psu.service), needs Python 3.8 or later:
    python3 await_start.py --process PID [--port N] [--timeout SECONDS]
The answer has to be that of this very process: where another server has the port, its answer counts nothing. So the
process has to be there still a moment after the answer, since a server that can't have its port ends at once; and where
this user may look into its sockets (not in the unit, which hides them), one of them has to listen at the port.
Prints nothing where the server answers, else one line on standard error.
"""
import os
import re
import sys
import time

import psu_path  # noqa: F401  (finds ../python)
from psu import FatalError, HislipError, Instrument, Timeout
from psu.command_line import parser, run

LISTENING = "0A"
PAUSE = 0.05
AFTERWARDS = 0.3


class NotStarted(HislipError):
    pass


def is_running(process):
    try:
        os.kill(process, 0)
    except ProcessLookupError:
        return False
    except PermissionError:
        pass
    return True


def sockets_at(port):
    """The numbers of the sockets that listen at a port of 127.0.0.1."""
    address = f"0100007F:{port:04X}"
    with open("/proc/self/net/tcp", encoding="ascii") as file:
        rows = [it.split() for it in file.readlines()[1:]]
    return {it[9] for it in rows if it[1] == address and it[3] == LISTENING}


def sockets_of(process):
    """The numbers of a process's sockets; None where this user may not know them."""
    folder = f"/proc/{process}/fd"
    try:
        links = [os.readlink(os.path.join(folder, it)) for it in os.listdir(folder)]
    except OSError:
        return None
    return {it[1] for it in (re.match(r"socket:\[(\d+)\]", link) for link in links) if it}


def listens(process, port):
    own = sockets_of(process)
    return own is None or bool(own & sockets_at(port))


def answers(port):
    """Whether the server opens a session, or says that sixteen are open."""
    try:
        Instrument(port=port, timeout=5.0).close()
    except FatalError:
        return True
    except (ConnectionRefusedError, Timeout):
        return False
    return True


def main(arguments):
    deadline = time.monotonic() + arguments.timeout
    while is_running(arguments.process):
        if listens(arguments.process, arguments.port) and answers(arguments.port):
            time.sleep(AFTERWARDS)
            if is_running(arguments.process):
                return None
        if time.monotonic() > deadline:
            raise NotStarted(f"the server at 127.0.0.1:{arguments.port} did not answer in {arguments.timeout:g} seconds")
        time.sleep(PAUSE)
    raise NotStarted("the server ended: its line before this one says why")


def made_parser():
    made = parser(__doc__)
    made.add_argument("--process", type=int, required=True, metavar="PID", help="the process of the server")
    made.add_argument("--timeout", type=float, default=30.0, help="the longest wait in seconds (30)")
    return made


if __name__ == "__main__":
    sys.exit(run(main, made_parser()))
