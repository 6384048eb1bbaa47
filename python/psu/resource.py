"""Resource strings of VISA for HiSLIP: TCPIP::127.0.0.1::hislip0,4881::INSTR"""
from __future__ import annotations

import re
from typing import NamedTuple

from .frames import DEFAULT_PORT

# The class INSTR is what VISA takes where none is named.
RESOURCE = re.compile(
    r"TCPIP\d*::(?P<host>\[[^\]]+\]|[^:\[\]]+)::(?P<name>hislip[^,:]*)(?:,(?P<port>\d+))?(?:::INSTR)?", re.IGNORECASE
)


class Resource(NamedTuple):
    """Where an instrument is."""

    host: str
    port: int = DEFAULT_PORT
    sub_address: str = "hislip0"

    def __str__(self) -> str:
        host = f"[{self.host}]" if ":" in self.host else self.host
        port = "" if self.port == DEFAULT_PORT else f",{self.port}"
        return f"TCPIP::{host}::{self.sub_address}{port}::INSTR"


def parse_resource(text: str) -> Resource:
    """Reads a resource string; raises ValueError where it is none of HiSLIP."""
    found = RESOURCE.fullmatch(text.strip())
    port = int(found["port"] or DEFAULT_PORT) if found else 0
    if found is None or not 0 < port < 65536:
        raise ValueError(f"{text!r} is no resource of HiSLIP, as TCPIP::127.0.0.1::hislip0,4881::INSTR")
    return Resource(found["host"].strip("[]"), port, found["name"])
