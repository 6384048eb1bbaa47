"""A client of HiSLIP, and programs round the simulated power supply `psu`; from Python's standard library alone.

    from psu import Instrument, Server
"""
from .client import Instrument, LockInfo
from .errors import (
    Cleared, ConnectionLost, FatalError, HislipError, InstrumentError, LockError, LockRefusal, ProtocolError, ScpiError,
    ServerError, ServerNotStarted, SessionClosed, Timeout,
)
from .server import Server

__version__ = "1.0"

__all__ = [
    "Cleared", "ConnectionLost", "FatalError", "HislipError", "Instrument", "InstrumentError", "LockError", "LockInfo",
    "LockRefusal", "ProtocolError", "ScpiError", "Server", "ServerError", "ServerNotStarted", "SessionClosed",
    "Timeout",
]
