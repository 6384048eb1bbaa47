"""What psu-relay counts of its traffic, and says at its end: messages by type, slow responses, what stayed unanswered."""
from __future__ import annotations

import bisect
import collections
from typing import Counter, Dict, List, Tuple

from .frames import name_of
from .relay_log import Entry, payload_text

MOST_SLOW = 3
BAR = 40  # the longest bar of the histogram, in characters
LIMITS = (0.001, 0.003, 0.01, 0.03, 0.1, 0.3, 1.0, 3.0)  # seconds, of the bars


class Summary:
    """Counts of all messages that were passed on or held back."""

    def __init__(self) -> None:
        self._kinds: Dict[bool, Counter[int]] = {True: collections.Counter(), False: collections.Counter()}
        self._times: Counter[int] = collections.Counter()  # of responses, by the limit that they are under
        self._slow: List[Tuple[float, int, str]] = []

    def add(self, entry: Entry) -> None:
        self._kinds[entry.is_from_client][entry.kind] += 1
        if entry.seconds is None or entry.is_from_client:
            return
        self._times[bisect.bisect_right(LIMITS, entry.seconds)] += 1
        if len(self._slow) < MOST_SLOW or entry.seconds > self._slow[-1][0]:
            text = f"{name_of(entry.kind)} {payload_text(entry.payload, entry.length)}".strip()
            self._slow = sorted([*self._slow, (entry.seconds, entry.session, text)], reverse=True)[:MOST_SLOW]

    def lines(self, unanswered: int, unused_rules: List[str]) -> List[str]:
        """Returns the lines of the summary."""
        lines = []
        for is_from_client, side in ((True, "client"), (False, "server")):
            kinds = self._kinds[is_from_client].most_common()
            listed = ", ".join(f"{count} {name_of(kind)}" for kind, count in kinds)
            lines.append(f"from the {side}: {listed or 'nothing'}")
        lines += self._histogram()
        lines += [f"slow: {seconds * 1000:.1f} ms, session {session}, {text}" for seconds, session, text in self._slow]
        lines.append(f"unanswered queries: {unanswered}")
        return lines + [f"a rule that never applied: {line}" for line in unused_rules]

    def _histogram(self) -> List[str]:
        if not self._times:
            return []
        largest = max(self._times.values())
        lines = []
        for place in range(min(self._times), max(self._times) + 1):
            words = f"under {LIMITS[place]:g} s" if place < len(LIMITS) else f"from {LIMITS[-1]:g} s on"
            count = self._times[place]
            lines.append(f"responses {words:14} {count:8} {'#' * -(-count * BAR // largest)}".rstrip())
        return lines
