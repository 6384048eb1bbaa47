"""psu-send: sends messages and prints the response of each message that has a query.

    psu-send [--port N] [--timeout SECONDS] 'VOLT 5;VOLT?' '*OPC?'

A message that the instrument refuses ends it: its error is printed on standard error, and the exit status is 1.
"""
from __future__ import annotations

import argparse
import sys
from typing import Optional, Union

from .blocks import encoded
from .client import Instrument
from .command_line import parser, run
from .relay_session import asks


def send(arguments: argparse.Namespace) -> None:
    with Instrument(port=arguments.port, timeout=arguments.timeout, check_errors=True) as supply:
        for message in arguments.messages:
            if asks(encoded(message)):
                print(supply.query(message))
            else:
                supply.write(message)


def main() -> Optional[Union[int, str]]:
    made = parser(__doc__)
    made.add_argument("--timeout", type=float, default=5.0, help="the longest wait for a response in seconds (5)")
    made.add_argument("messages", nargs="+", metavar="MESSAGE", help="a SCPI message, as 'VOLT 5;VOLT?'")
    return run(send, made)


if __name__ == "__main__":
    sys.exit(main())
