"""Whose message and response are under way in a session that several threads use."""
from __future__ import annotations

import contextlib
import threading
from typing import Callable, Iterator


class Turn:
    """A lock that its thread may take again, and in which a device clear comes before the threads that wait.

    `interrupt` is called when a device clear begins to wait, so that the thread whose turn it is leaves it soon, and
    `resume` once none waits any more.
    """

    def __init__(self, interrupt: Callable[[], None], resume: Callable[[], None]) -> None:
        self._interrupt = interrupt
        self._resume = resume
        self._lock = threading.RLock()
        self._depth = 0  # how often the thread that has the lock has taken it
        self._counting = threading.Lock()
        self._clears = 0  # that wait
        self._none_waits = threading.Event()
        self._none_waits.set()

    def __enter__(self) -> None:
        self._lock.acquire()
        # A thread that has the turn already must not wait: a clear waits for it.
        while self._clears and not self._depth:
            self._lock.release()
            self._none_waits.wait()
            self._lock.acquire()
        self._depth += 1

    def __exit__(self, *_: object) -> None:
        self._depth -= 1
        self._lock.release()

    @contextlib.contextmanager
    def before_others(self) -> Iterator[None]:
        """Takes the turn as soon as the thread that has it leaves it."""
        self._count(1)
        try:
            self._lock.acquire()
        finally:
            self._count(-1)
        self._depth += 1
        try:
            yield
        finally:
            self.__exit__()

    @contextlib.contextmanager
    def for_a_while(self, seconds: float) -> Iterator[bool]:
        """Takes the turn where it can be had in so many seconds, and says whether it was."""
        is_taken = self._lock.acquire(timeout=seconds)
        try:
            yield is_taken
        finally:
            if is_taken:
                self._lock.release()

    def _count(self, change: int) -> None:
        with self._counting:
            self._clears += change
            if self._clears and not self._clears - change:
                self._none_waits.clear()
                self._interrupt()
            elif not self._clears:
                self._resume()
                self._none_waits.set()
