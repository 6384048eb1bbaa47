"""The fixtures of pytest, for a conftest.py that imports them; where the package is installed pytest finds them itself."""
from psu_pytest import psu_connect, psu_relay, psu_server, psu_servers, psu_supply
from psu_pytest_names import connect, server, supply

__all__ = ["connect", "psu_connect", "psu_relay", "psu_server", "psu_servers", "psu_supply", "server", "supply"]
