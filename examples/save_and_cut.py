"""Saves a state and confirms it, kills the server while it saves more states, starts it again, and shows what is there.

Needs the program `psu` and Python 3.8 or later; in a clone no package has to be installed:
    python3 save_and_cut.py [PROGRAM]
It uses a temporary image and a free port. PROGRAM is by default the one that the variable PSU names, else the one built
here, else that of the PATH.
Prints what `*OPC?` confirmed, what was sent after it, and what register 1 holds after the restart: the confirmed state,
or one of the states that were saved later. The exit status is 0 where that is so.

It kills a process, and the kernel's cache survives that: whatever the process wrote is there. So this shows what a kill
of the server leaves, and nothing of a disk that loses its cache or tears a write. Those are in the gate's tests of the
store on simulated disks (docs/TESTED.md), and in its proofs.
"""
import argparse
import os
import sys
import tempfile
import threading

import psu_path  # noqa: F401  (finds ../python)
from psu import Server

CONFIRMED = 5000  # millivolts
MOST = 60000  # what an output can be set to


def volts(millivolts):
    return f"{millivolts // 1000}.{millivolts % 1000:03}"


def save(supply):
    message = f"VOLT {volts(CONFIRMED)};*SAV 1;*OPC?"
    print("sent     ", message)
    print("response ", supply.query(message), "- register 1 is on the disk now")


def save_more(supply):
    """Sends saves of ever higher voltages until the server ends, and returns the last voltage."""
    for millivolts in range(CONFIRMED + 1, MOST + 1):
        try:
            supply.write(f"VOLT {volts(millivolts)};*SAV 1")
        except OSError:
            return millivolts
    return MOST


def saved_volts(server):
    with server.connect() as supply:
        return supply.query("*RCL 1;VOLT?")


def cut(server):
    """Kills the server in its work. Returns the last voltage that was sent, and the one that register 1 then holds."""
    server.start()
    with server.connect() as supply:
        save(supply)
        killer = threading.Timer(0.05, server.kill)
        killer.start()
        last = save_more(supply)
        killer.join()
    print("killed    while further saves were sent, none of them confirmed: the last one", volts(last))
    server.start()
    return last, saved_volts(server)


def main():
    form = argparse.RawDescriptionHelpFormatter
    parser = argparse.ArgumentParser(description=__doc__, formatter_class=form)
    parser.add_argument("program", nargs="?", metavar="PROGRAM", help="the path of psu")
    program = parser.parse_args().program
    with tempfile.TemporaryDirectory() as folder:
        server = Server(os.path.join(folder, "bench.psu"), program)
        try:
            last, value = cut(server)
        finally:
            server.close()
    is_kept = value in {volts(it) for it in range(CONFIRMED, last + 1)}
    print("found    ", value, "volts in register 1:", "as promised" if is_kept else "the promise is broken")
    return 0 if is_kept else 1


if __name__ == "__main__":
    try:
        sys.exit(main())
    except (OSError, RuntimeError) as fault:
        sys.exit(f"save_and_cut.py: {fault}")
