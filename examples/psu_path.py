"""Makes `import psu` find the package of this repository, ../python, where the examples are in a clone.

Elsewhere `psu` is the installed one (pip install ./python, or the Debian package). Each example imports this first.
"""
import os
import sys

PACKAGE = os.path.join(os.path.dirname(os.path.dirname(os.path.abspath(__file__))), "python")
if os.path.isdir(PACKAGE):
    sys.path.insert(0, PACKAGE)
