"""Replies that are waited for: each takes its lines from those that the program writes, in order."""

from __future__ import annotations

import threading
import time
from collections import deque
from typing import Callable, Deque, List, Optional, Sequence

from .errors import BadReply, JasminedomeError, Refusal, Timeout, fresh, refusal
from .lines import reading


class Limit:
    """When a call that begins now is to be given up: so many seconds from now, or never where that is None."""

    def __init__(self, seconds: Optional[float]) -> None:
        self.seconds = seconds
        self._end = None if seconds is None else time.monotonic() + seconds

    def left(self) -> Optional[float]:
        """The seconds that are left, 0 or more; None where they never end."""
        return None if self._end is None else max(0.0, self._end - time.monotonic())

    def passed(self, was_sent: bool) -> Timeout:
        """The exception for a call that is given up."""
        return Timeout(self.seconds or 0.0, was_sent)


NEVER = Limit(None)
"""The limit of a call that waits for as long as it takes."""


class Awaited:
    """Lines of replies that somebody waits for: so many as are wanted, or an error.

    `session` is the one that all of them are told to; None where they are told to none.
    """

    def __init__(self, wanted: int, session: Optional[int]) -> None:
        self.session = session
        self._wanted = wanted
        self._lines: List[bytes] = []
        self._error: Optional[JasminedomeError] = None
        self._settled: Deque[Callable[[], object]] = deque()
        # Held until the replies are there. A bare lock, since an event costs a sixth of a round trip.
        self._pending = threading.Lock()
        self._pending.acquire()

    def take(self, lines: Sequence[bytes], start: int) -> int:
        """Takes what is its own of the lines from `start` on, and answers the index of the first that isn't.

        Isn't called any more once all of its lines have come.
        """
        end = min(len(lines), start + self._wanted - len(self._lines))
        self._lines.extend(lines[start:end])
        if self.is_whole:
            self._end_wait()
        return end

    @property
    def is_whole(self) -> bool:
        """Whether all of its lines have come."""
        return len(self._lines) == self._wanted

    def fail(self, error: JasminedomeError) -> None:
        """Ends the wait with an exception; does nothing where all of its lines have come, or it has failed."""
        if self._error is None and not self.is_whole:
            self._error = error
            self._end_wait()

    def then(self, call: Callable[[], object]) -> None:
        """Has `call` called, in any thread, once the replies are there or the wait has failed."""
        self._settled.append(call)
        if self._error is not None or self.is_whole:
            self._settle()

    def _end_wait(self) -> None:
        self._pending.release()
        self._settle()

    def _settle(self) -> None:
        # The thread that reads and the one that called `then` may both come here: each call is popped by one of them.
        while self._settled:
            try:
                call = self._settled.popleft()
            except IndexError:
                return
            call()

    def _arrived(self, limit: Limit) -> List[bytes]:
        left = limit.left()
        if not self._pending.acquire(timeout=-1 if left is None else left):
            raise limit.passed(was_sent=True)
        if self._error is not None:
            raise fresh(self._error)
        return self._lines


class Reply(Awaited):
    """The reply that one line waits for: its first line, and as many more as `more` says for what follows OK."""

    def __init__(self, session: Optional[int], more: Callable[[str], int]) -> None:
        super().__init__(1, session)
        self._head = b"" if session is None else b"%d " % session
        self._more = more

    def take(self, lines: Sequence[bytes], start: int) -> int:
        """As `Awaited.take`. Raises BadReply where the first line is none of a reply to this session."""
        if not self._lines:
            self._wanted += self._more_lines(lines[start])
        return super().take(lines, start)

    def wait(self, limit: Limit = NEVER) -> List[str]:
        """The texts behind the session's number, the first one's without its OK. To be called once.

        Raises the Refusal that came, ProgramEnded, BadReply, or Timeout.
        """
        first, *more = self._arrived(limit)
        if not first.startswith(self._head + b"OK"):
            raise read_refusal(first)
        skipped = len(self._head)
        for later in more:
            if not later.startswith(self._head):
                raise BadReply(f"no further line of a reply: {later[:200]!r}")
        with reading():
            return [first[skipped + 3 :].decode(), *(later[skipped:].decode() for later in more)]

    @property
    def accepted(self) -> Optional[str]:
        """What follows OK in the first line; None where another one came, or none yet."""
        ok = self._head + b"OK "
        is_ok = self.is_whole and self._lines[0].startswith(ok)
        return self._lines[0][len(ok) :].decode(errors="replace") if is_ok else None

    def _more_lines(self, first: bytes) -> int:
        if not first.startswith(self._head + b"OK "):
            read_refusal(first)  # raises BadReply where it is none
            return 0
        more = self._more(first[len(self._head) + 3 :].decode())
        if more < 0:
            raise BadReply(f"no reply of the protocol: {first[:200]!r}")
        return more


class Replies(Awaited):
    """The replies of one line each that a batch of lines waits for."""

    def wait(self, limit: Limit = NEVER) -> List[bytes]:
        """The lines of the replies as they came. To be called once. Raises ProgramEnded, BadReply or Timeout."""
        return self._arrived(limit)


class Together(Awaited):
    """The replies that lines of one session wait for which go out in one piece. Each is waited for by itself."""

    def __init__(self, replies: Sequence[Awaited]) -> None:
        super().__init__(0, replies[0].session if replies else None)
        self._rest = deque(replies)

    def take(self, lines: Sequence[bytes], start: int) -> int:
        """As `Awaited.take`."""
        while self._rest and start < len(lines):
            start = self._rest[0].take(lines, start)
            if self._rest[0].is_whole:
                self._rest.popleft()
        return start

    @property
    def is_whole(self) -> bool:
        """Whether all lines of all replies have come."""
        return not self._rest

    def fail(self, error: JasminedomeError) -> None:
        """Ends the wait for those whose lines haven't come."""
        while self._rest:
            self._rest.popleft().fail(error)


def read_refusal(first: bytes) -> Refusal:
    """The refusal that a reply's first line tells. Raises BadReply where it tells none."""
    words = first.split(b" ")
    at = words.index(b"NO") if b"NO" in words[:2] else len(words)
    told = words[at + 1 :]
    if not 1 <= len(told) <= 2 or not all(word.isdigit() for word in told):
        raise BadReply(f"no reply of the protocol: {first[:200]!r}")
    return refusal(int(told[0]), int(told[1]) if len(told) == 2 else None)
