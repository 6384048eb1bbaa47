"""A live front panel at http://127.0.0.1:8080: `psu-panel` of the package, in a clone.

Needs a server on 127.0.0.1 (psu serve IMAGE) and Python 3.8 or later; no package has to be installed:
    python3 panel.py [--port N] [--listen-port N] [--interval SECONDS] [--minutes N]
    python3 panel.py [--port N] --once      prints the values once, as text
Prints the address of the page and serves it until it is interrupted.
"""
import sys

import psu_path  # noqa: F401  (finds ../python)
from psu.panel import main

if __name__ == "__main__":
    sys.exit(main())
