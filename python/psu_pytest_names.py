"""The names that the fixtures of psu_pytest had first. Other plugins have such names too: the ini option
`psu_short_names = false` leaves these out. They are here for one release more.
"""
from __future__ import annotations

from typing import TYPE_CHECKING, Callable

import pytest

if TYPE_CHECKING:
    from psu.client import Instrument
    from psu.server import Server


@pytest.fixture
def server(psu_server: Server) -> Server:
    """The fixture psu_server."""
    return psu_server


@pytest.fixture
def supply(psu_supply: Instrument) -> Instrument:
    """The fixture psu_supply."""
    return psu_supply


@pytest.fixture
def connect(psu_connect: Callable[..., Instrument]) -> Callable[..., Instrument]:
    """The fixture psu_connect."""
    return psu_connect
