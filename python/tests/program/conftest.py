"""Fixtures of the tests that need the program `psu` and pytest: python3 -m pytest python/tests/program"""
import os
import sys

sys.path.insert(0, os.path.dirname(os.path.dirname(os.path.dirname(os.path.abspath(__file__)))))

from psu.pytest_plugin import *  # noqa: E402, F401, F403
