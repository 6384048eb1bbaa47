"""A session: sets an output, measures, saves and confirms, and asks for an error.

Needs a server on 127.0.0.1 (psu serve IMAGE) and Python 3.8 or later; in a clone no package has to be installed:
    python3 session.py [--port N]
Prints each message and its response: 5.000;0.500 for the measurement, 1 once register 1 is on the disk, and the error.
It sets output 1, its load and register 1.
"""
import sys

import psu_path  # noqa: F401  (finds ../python)
from psu import Instrument
from psu.command_line import parser, run

MESSAGES = [
    "*RST;*CLS;:SIM:LOAD 10000",
    "VOLT 5.25;:CURR 0.5;:OUTP ON",
    "MEAS:VOLT?;:MEAS:CURR?",
    "*SAV 1;*OPC?",
    "VOLT 99;:SYST:ERR?",
]


def main(arguments):
    with Instrument(port=arguments.port) as supply:
        for message in MESSAGES:
            if "?" in message:
                print(message, "->", supply.query(message))
            else:
                supply.write(message)
                print(message)


if __name__ == "__main__":
    sys.exit(run(main, parser(__doc__)))
