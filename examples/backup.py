"""Copies the image of a running server, checks the copy, and writes its SHA-256 beside it: psu.backup says how.

Needs a server on 127.0.0.1 (psu serve IMAGE), the program `psu`, and Python 3.8 or later:
    python3 backup.py [--port N] IMAGE COPY
    python3 backup.py --check COPY
Prints nothing where all is well, else one line on standard error. It is `psu-backup` of the Debian package.
"""
import sys

import psu_path  # noqa: F401  (finds ../python)
from psu.backup import main

if __name__ == "__main__":
    sys.exit(main())
