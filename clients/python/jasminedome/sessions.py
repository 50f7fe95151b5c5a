"""Numbers of sessions: one for each thread that speaks, and one for each open view."""

from __future__ import annotations

import itertools
import threading
from collections import deque
from typing import Deque

from .errors import UsageError

MAX_SESSION = 9_999

UPKEEP = 0
"""The session under which the program takes merges, warming, sweeps and questions after its state."""


class _Lease:
    """A number for as long as this stands: a thread's goes back when the thread ends."""

    def __init__(self, number: int, free: Deque[int]) -> None:
        self.number = number
        self._free = free

    def __del__(self) -> None:
        self._free.append(self.number)


class Sessions:
    """Hands out the numbers 1 to 9,999. Any thread may call, and a finalizer may give back: that takes no lock."""

    def __init__(self) -> None:
        self._free: Deque[int] = deque()
        self._fresh = itertools.count(UPKEEP + 1)
        self._of_thread = threading.local()

    def take(self) -> int:
        """A number that nobody else has. Raises UsageError where all are taken."""
        try:
            return self._free.popleft()
        except IndexError:
            number = next(self._fresh)
        if number > MAX_SESSION:
            raise UsageError(f"all {MAX_SESSION:,} sessions are taken by threads and open views")
        return number

    def give(self, number: int) -> None:
        """Gives a number back, which nobody holds anything under any more."""
        self._free.append(number)

    def own(self) -> int:
        """The calling thread's number, the same at each call. Raises UsageError where all are taken."""
        lease = getattr(self._of_thread, "lease", None)
        if lease is None:
            lease = self._of_thread.lease = _Lease(self.take(), self._free)
        number: int = lease.number
        return number
