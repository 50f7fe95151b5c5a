"""A replica's side of its readers: lines go through to the program, and its replies back, without being read on the way."""

from __future__ import annotations

import asyncio
import json
from collections import deque
from typing import TYPE_CHECKING, Any, Coroutine, Deque, List, Optional, Set, cast

from ..lines import MAX_LINE
from .applying import READER
from .engine import More, no_more
from .wire import AT_ONCE, GONE

if TYPE_CHECKING:
    from .replica import Replica

_HEAD = b"%d OK " % READER
_NO_FORM = b"%d NO 10\n" % READER
_MOST_WAIT = 600.0  # seconds


class _Slot:
    """The place of a reply among those of its connection, which go out in the order of their lines."""

    __slots__ = ("_front", "reply")

    def __init__(self, front: "Front") -> None:
        self._front = front
        self.reply: Optional[bytes] = None

    def answer(self, reply: Optional[bytes]) -> None:
        """Has it sent, once those before it are; None says that the program has ended."""
        self.reply = GONE if reply is None else reply
        self._front.send_ready()


class Front(asyncio.Protocol):
    """One connection of a reader."""

    def __init__(self, replica: "Replica", connections: "Set[Front]") -> None:
        self._replica = replica
        self._connections = connections
        self._rest = b""
        self._slots: Deque[_Slot] = deque()
        self._is_full = False
        self._tasks: "Set[asyncio.Task[None]]" = set()

    def connection_made(self, transport: asyncio.BaseTransport) -> None:
        """A reader has come."""
        self._transport = cast(asyncio.Transport, transport)
        self._connections.add(self)

    def connection_lost(self, exc: Optional[Exception]) -> None:
        """The reader has gone."""
        self._connections.discard(self)
        for task in self._tasks:
            task.cancel()

    def close(self) -> None:
        """Sends the reader away."""
        self._transport.close()

    def data_received(self, data: bytes) -> None:
        """Bytes of lines: each that is whole gets a place among the replies."""
        lines = (self._rest + data).split(b"\n")
        self._rest = lines.pop()
        for line in lines:
            self._take(line)
        if len(self._rest) > MAX_LINE:
            self._transport.abort()
        elif len(self._slots) > AT_ONCE:
            self._transport.pause_reading()
            self._is_full = True

    def pause_writing(self) -> None:
        """The reader takes nothing, so that no more is asked for it."""
        self._transport.pause_reading()

    def resume_writing(self) -> None:
        """The reader takes replies again."""
        self._transport.resume_reading()

    def send_ready(self) -> None:
        """Sends the replies whose turn it is."""
        ready = []
        while self._slots:
            reply = self._slots[0].reply
            if reply is None:
                break
            self._slots.popleft()
            ready.append(b"%d\n%b" % (len(reply), reply))
        if ready and not self._transport.is_closing():
            self._transport.write(b"".join(ready))
        if self._is_full and len(self._slots) <= AT_ONCE // 2:
            self._is_full = False
            self._transport.resume_reading()

    def _take(self, line: bytes) -> None:
        words = line.split(b" ", 2)
        slot = _Slot(self)
        self._slots.append(slot)
        more = _more(words)
        if more is not None:
            self._read(slot, words, more)
        elif words[0] == b"HAS" and len(words) == 2:
            shown = self._replica.window.named(words[1])
            slot.answer(GONE if shown is None else b"OK %b\n" % shown.stamp.encode())
        elif words[0] == b"WAIT" and len(words) == 3:
            self._begin(self._wait(slot, words[1], words[2]))
        elif words == [b"BASE"] and len(self._slots) == 1:
            self._begin(self._send_base())
        elif words == [b"STATUS"]:
            slot.answer(self._status())
        else:
            slot.answer(_NO_FORM)

    def _read(self, slot: _Slot, words: List[bytes], more: More) -> None:
        token = self._replica.window.tokens.get(words[1])
        engine = self._replica.engine
        if token is None or engine is None:  # a token of a past that the log has lost is no token
            slot.answer(GONE)
        else:
            engine.relay(b"%d %b %b %b\n" % (READER, words[0], token, words[2]), slot.answer, _HEAD, more)

    def _begin(self, work: Coroutine[Any, Any, None]) -> None:
        task = asyncio.get_running_loop().create_task(work)
        self._tasks.add(task)
        task.add_done_callback(self._tasks.discard)

    async def _wait(self, slot: _Slot, position: bytes, seconds: bytes) -> None:
        try:
            wanted, patience = int(position), min(_MOST_WAIT, float(seconds))
        except ValueError:
            slot.answer(_NO_FORM)
            return
        await self._replica.wait_shown(wanted, patience)
        slot.answer(self._status())

    async def _send_base(self) -> None:
        with await self._replica.packed_base() as file:
            size = file.seek(0, 2)
            file.seek(0)
            self._transport.write(b"%d\n" % size)
            if size:
                await asyncio.get_running_loop().sendfile(self._transport, file)
        self._transport.close()

    def _status(self) -> bytes:
        return json.dumps(self._replica.status()).encode() + b"\n"


def _shown(told: bytes) -> int:
    return int(told.split(b" ", 1)[0])


def _labels(count: int) -> More:
    return lambda told: min(count, int(told.split(b" ")[1]))


def _more(words: List[bytes]) -> Optional[More]:
    """How a read's reply goes on; None where the line is no read, or has no form."""
    if len(words) != 3:
        return None
    if words[0] == b"FIND":
        return _shown
    if words[0] == b"GET":
        return no_more
    if words[0] == b"FACETS":
        parts = words[2].split(b" ", 2)
        return _labels(int(parts[1])) if len(parts) == 3 and parts[1].isdigit() else None
    return None
