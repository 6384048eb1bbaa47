"""Fixtures of pytest for the tests in this folder: `psu_server` and the others of psu.pytest_plugin.

Needs pytest, Python 3.8 or later and the program `psu`, which is found by the variable PSU, else in ../crates/psu/out,
else on the PATH: python3 -m pytest examples
Where the package `psu` is installed, a driver's tests have these fixtures without a conftest.py; a driver connects to
127.0.0.1 at `server.port`, or to `server.resource` by VISA.
"""
import psu_path  # noqa: F401  (finds ../python)
from psu.pytest_plugin import *  # noqa: F401, F403
from psu_pytest import register_marker


def pytest_configure(config):
    register_marker(config)
