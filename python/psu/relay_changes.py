"""What the rules of psu-relay and psu-socket change in a payload, and how the log says what a rule did."""
from __future__ import annotations

import random
import re

from .relay_rules import Action, Rule

NUMBER = re.compile(rb"[+-]?\d+\.(\d+)(?:[eE][+-]?\d+)?")
CHANGES = (Action.CORRUPT, Action.REPLACE, Action.NOISE)


def changed(rule: Rule, payload: bytes, generator: random.Random) -> bytes:
    """Returns the payload as a rule passes it on."""
    if rule.action is Action.REPLACE:
        return re.sub(re.escape(rule.old), lambda _: rule.new, payload, flags=re.IGNORECASE)
    if rule.action is Action.NOISE:
        return NUMBER.sub(lambda found: _with_noise(found, rule.value or 0, generator), payload)
    if rule.action is Action.CORRUPT:
        return corrupted(payload, int(rule.value or 1), generator)
    return payload


def _with_noise(found: "re.Match[bytes]", sigma: float, generator: random.Random) -> bytes:
    """Returns a number of the response with noise, and as many decimals as before."""
    value = float(found.group()) + generator.gauss(0, sigma)
    return f"{value:.{len(found.group(1))}f}".encode()


def corrupted(payload: bytes, count: int, generator: random.Random) -> bytes:
    """Returns a payload with so many bytes changed, but not the line feed at its end: its reader gets a whole message."""
    content = bytearray(payload)
    places = range(len(content) - content.endswith(b"\n"))
    for place in generator.sample(places, min(count, len(places))):
        content[place] ^= generator.randrange(1, 256)
    return bytes(content)


# In words


# How the text begins of what keeps a message, or a part of it, from the other side.
KEPT_BACK = ("held back", "connection dropped before", "cut ", "session refused", "FatalError instead", "Error instead")


def fault_text(rule: Rule, action: Action) -> str:
    """Returns what a rule does to a message, for its line in the log."""
    if action is Action.CUT and rule.value is None:
        return "cut in the middle, connection dropped"
    if action is Action.STOP_READING and rule.value is not None:
        return f"nothing more is read for {rule.value:g} s"
    return action.text.format(f"{rule.value or 0:g}")
