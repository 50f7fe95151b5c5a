"""Writes on their way into a program: many ahead of their replies, each of which is judged."""

from __future__ import annotations

import asyncio
import hashlib
import re
from collections import deque
from typing import Deque, List, Sequence, Tuple

from ..errors import BadReply, ProgramEnded
from .batches import WRITER, Batch
from .engine import Engine
from .errors import Tainted
from .log import SKIPPED

Place = Tuple[int, int]
"""Which line of the log: the position of its batch, and its place in that, from 0."""

CHUNK = 512
"""How many lines go out in one piece."""

AHEAD = 4
"""How many pieces wait for replies at the same time. Readers' lines wait behind these."""

_EVERYWHERE = frozenset((10, 11, 12, 13, 14, 15, 24))  # refusals that hang on the line and the fields alone
_HEAD = b"%d " % WRITER
_REFUSAL = re.compile(rb"%bNO ([0-9]{1,4})(?: [0-9]+)?\Z" % _HEAD)
_SUMS = 1 << 64


class Ended(Tainted):
    """The program ended while it had these lines: the first whose reply is wanting, and the last."""

    def __init__(self, first: Place, last: Place, error: ProgramEnded) -> None:
        self.first = first
        self.last = last
        super().__init__(f"{error}; it had the lines from {first[1]} of {first[0]} to {last[1]} of {last[0]}")


class Sending:
    """The writes of a log as one program takes them; `count` of all were accepted."""

    def __init__(self, engine: Engine, count: int, refusals: int) -> None:
        self._engine = engine
        self._lines: List[str] = []
        self._places: List[Place] = []
        self._waiting: Deque[Tuple["asyncio.Future[bytes]", List[Place]]] = deque()
        self.count = count
        self.refusals = refusals
        """A sum over all lines that were refused or left out: equal where these are."""
        self.refused: List[Tuple[int, int, int]] = []
        """Position, place and refusal of lines that were judged since somebody took these away."""

    async def add(self, batch: Batch, is_careful: bool) -> None:
        """Sends the writes of a batch, but for those that are left out; where it is careful, one after another.

        Raises Tainted where an earlier one was answered as the log alone can't explain, and Ended.
        """
        for at, line in enumerate(batch.writes):
            if at in batch.skipped:
                self._note((batch.position, at), SKIPPED)
                continue
            self._lines.append(line)
            self._places.append((batch.position, at))
            if is_careful:
                await self.settle()
            elif len(self._lines) == CHUNK:
                self._send()
                if len(self._waiting) >= AHEAD:
                    await self._judge_first()

    async def settle(self) -> None:
        """Waits until every write that was added is judged. Raises what `add` does."""
        self._send()
        while self._waiting:
            await self._judge_first()

    def _send(self) -> None:
        if self._lines:
            data = _HEAD + ("\n" + _HEAD.decode()).join(self._lines).encode() + b"\n"
            self._waiting.append((self._engine.say(data, len(self._lines)), self._places))
            self._lines, self._places = [], []

    async def _judge_first(self) -> None:
        told, places = self._waiting.popleft()
        try:
            replies = await told
        except ProgramEnded as error:
            raise Ended(places[0], places[-1], error) from None
        except BadReply as error:
            raise Tainted(str(error)) from None
        self._judge(places, replies.split(b"\n"))

    def _judge(self, places: Sequence[Place], replies: Sequence[bytes]) -> None:
        for place, reply in zip(places, replies):
            if reply == b"%bOK %d" % (_HEAD, self.count + 1):
                self.count += 1
                continue
            found = _REFUSAL.match(reply)
            number = int(found.group(1)) if found else -1
            if number not in _EVERYWHERE:
                raise Tainted(f"line {place[1]} of {place[0]} was answered {reply[:80]!r} behind {self.count} writes")
            self._note(place, number)

    def _note(self, place: Place, number: int) -> None:
        told = hashlib.sha256(b"%d %d %d" % (*place, number)).digest()
        self.refusals = (self.refusals + int.from_bytes(told[:8], "big")) % _SUMS
        self.refused.append((*place, number))
