"""Which reply the next line belongs to: replies come in the order of all lines, or in that of each session's."""

from __future__ import annotations

from collections import deque
from itertools import islice, takewhile
from typing import Deque, Dict, Iterator, Optional, Sequence

from .replies import Awaited


class InOrder:
    """Replies that come in the order of the lines."""

    def __init__(self) -> None:
        self._waiting: Deque[Awaited] = deque()

    def __iter__(self) -> Iterator[Awaited]:
        return iter(list(self._waiting))

    def add(self, reply: Awaited) -> None:
        """The reply's lines go out now."""
        self._waiting.append(reply)

    def is_last(self, reply: Awaited) -> bool:
        """Whether it was added last, as far as lines go whose replies have an order."""
        try:
            return self._waiting[-1] is reply
        except IndexError:  # the thread that reads replies may take the last one at any time
            return False

    def take_back(self, reply: Awaited) -> None:
        """Lets go of the reply where it was added last: its lines don't go out."""
        if self.is_last(reply):
            self._waiting.pop()

    def reply_of(self, line: bytes) -> Optional[Awaited]:
        """The reply that the line belongs to; None where nobody waits for it."""
        return self._waiting[0] if self._waiting else None

    def hand(self, reply: Awaited, lines: Sequence[bytes], start: int) -> int:
        """Has the reply take its own of the lines from `start` on, and answers the index of the first that isn't."""
        return reply.take(lines, start)

    def came(self, reply: Awaited) -> None:
        """All lines have come of a reply that `reply_of` answered."""
        self._waiting.popleft()

    def clear(self) -> None:
        """Nobody waits any more."""
        self._waiting.clear()


class BySession:
    """Replies of a program that answers sessions side by side: those of each session come in the order of its lines.

    Each reply is whole: no line of another session comes between its lines.
    """

    def __init__(self) -> None:
        self._orders: Dict[Optional[int], InOrder] = {}

    def __iter__(self) -> Iterator[Awaited]:
        return (reply for order in list(self._orders.values()) for reply in order)

    def add(self, reply: Awaited) -> None:
        """As `InOrder.add`."""
        self._order(reply.session).add(reply)

    def is_last(self, reply: Awaited) -> bool:
        """As `InOrder.is_last`, among the session's."""
        return self._order(reply.session).is_last(reply)

    def take_back(self, reply: Awaited) -> None:
        """As `InOrder.take_back`."""
        self._order(reply.session).take_back(reply)

    def reply_of(self, line: bytes) -> Optional[Awaited]:
        """As `InOrder.reply_of`, by the session that the line begins with."""
        first = line.split(b" ", 1)[0]
        order = self._orders.get(int(first) if first.isdigit() else None)
        return None if order is None else order.reply_of(line)

    def hand(self, reply: Awaited, lines: Sequence[bytes], start: int) -> int:
        """As `InOrder.hand`; replies of others may come between those that the reply is made of."""
        if reply.session is None:
            return reply.take(lines, start)
        head = b"%d " % reply.session
        own = list(takewhile(lambda line: line.startswith(head), islice(lines, start, None)))
        return start + reply.take(own, 0)

    def came(self, reply: Awaited) -> None:
        """As `InOrder.came`."""
        self._order(reply.session).came(reply)

    def clear(self) -> None:
        """As `InOrder.clear`."""
        self._orders.clear()

    def _order(self, session: Optional[int]) -> InOrder:
        order = self._orders.get(session)
        if order is None:
            # One that another thread made meanwhile stays: `setdefault` is one step.
            order = self._orders.setdefault(session, InOrder())
        return order
