"""Sends messages and prints the response of each message that has a query: `psu-send` of the package, in a clone.

Needs a server on 127.0.0.1 (psu serve IMAGE) and Python 3.8 or later; in a clone no package has to be installed:
    python3 hislip.py [--port N] [--timeout SECONDS] MESSAGE..
A message that the instrument refuses ends it: its error is printed on standard error, and the exit status is 1.
"""
import sys

import psu_path  # noqa: F401  (finds ../python)
from psu.send import main

if __name__ == "__main__":
    sys.exit(main())
