"""What the programs share: a parser of the command line, and one line on standard error where one fails."""
from __future__ import annotations

import argparse
from typing import Callable, Optional, Union

from .build_note import Version
from .errors import HislipError
from .frames import DEFAULT_PORT

Main = Callable[[argparse.Namespace], Optional[Union[int, str]]]


def plain_parser(description: Optional[str], program: Optional[str] = None) -> argparse.ArgumentParser:
    """Returns a parser of the command line with the option --version."""
    form = argparse.RawDescriptionHelpFormatter
    made = argparse.ArgumentParser(prog=program, description=description, formatter_class=form)
    made.add_argument("--version", action=Version)
    return made


def parser(description: Optional[str]) -> argparse.ArgumentParser:
    """Returns a parser of a program that uses one session, with the option --port too."""
    made = plain_parser(description)
    made.add_argument("--port", type=int, default=DEFAULT_PORT, help="the server's port on 127.0.0.1 (4880)")
    return made


def run(main: Main, made: argparse.ArgumentParser) -> Optional[Union[int, str]]:
    """Calls `main` with the arguments; returns what `sys.exit` takes, a line where the instrument can't be used."""
    arguments = made.parse_args()
    try:
        return main(arguments)
    except (HislipError, OSError) as fault:
        return f"{made.prog}: {fault}"
