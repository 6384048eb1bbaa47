"""Prints the name of the instrument: EXAMPLE,PSU4,0,1.0

Needs a server on 127.0.0.1 (psu serve IMAGE) and Python 3.8 or later; in a clone no package has to be installed:
    python3 idn.py [--port N]
"""
import sys

import psu_path  # noqa: F401  (finds ../python)
from psu import Instrument
from psu.command_line import parser, run


def main(arguments):
    with Instrument(port=arguments.port) as supply:
        print(supply.query("*IDN?"))


if __name__ == "__main__":
    sys.exit(run(main, parser(__doc__)))
