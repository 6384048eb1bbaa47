"""What the connections of psu-relay share, and where their frames go."""
from __future__ import annotations

import asyncio
import time
from typing import Callable, List, Optional

from .frames import Frame
from .relay_log import Entry, Event, payload_text
from .relay_rules import Rules
from .relay_session import Session, Sessions


class Traffic:
    """What the connections of a relay share: its rules, its sessions and its log."""

    def __init__(
        self, rules: Rules, write_entry: Callable[[Entry], None], write_event: Callable[[Event], None]
    ) -> None:
        self.rules = rules
        self.sessions = Sessions()
        self.unanswered = 0  # queries, of all sessions
        self.write_entry = write_entry
        self._write_event = write_event

    def event(self, session: Optional[Session], name: str, text: str) -> None:
        self._write_event(Event(time.time(), session.number if session else 0, name, text))

    def report_unanswered(self, session: Session) -> None:
        """Writes the queries of a session that have no response, at most three."""
        now, queries = time.monotonic(), session.unanswered()
        self.unanswered += len(queries)
        for query in queries[:3]:
            text = payload_text(query.text, len(query.text))
            self.event(session, "unanswered", f"{query.message_id:08x} {text} after {now - query.moment:.3f} s")
        if len(queries) > 3:
            self.event(session, "unanswered", f"and {len(queries) - 3} more")


class Outlet:
    """Where the frames of a direction go. A frame that the relay adds never goes into the middle of another."""

    def __init__(self, writer: asyncio.StreamWriter) -> None:
        self.writer = writer
        self.is_inside = False  # a frame that is written in several pieces
        self._added: List[bytes] = []

    def write(self, data: bytes) -> None:
        if not self.writer.is_closing():
            self.writer.write(data)

    def end(self) -> None:
        """Such a frame has ended."""
        self.is_inside = False
        for data in self._added:
            self.write(data)
        self._added.clear()

    def add(self, frame: Frame) -> None:
        if self.is_inside:
            self._added.append(frame.pack())
        else:
            self.write(frame.pack())
