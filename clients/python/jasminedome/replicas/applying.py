"""One life of a replica's program: from a base on, the log is applied to it, and the tokens of the window are held."""

from __future__ import annotations

import asyncio
import logging
from dataclasses import dataclass
from typing import Callable, FrozenSet, List, Mapping, Optional, Tuple

from ..errors import JasminedomeError, Refusal
from .batches import Batch, Mark
from .bases import Bases, Note
from .digests import AUDITOR, digest_of
from .engine import Engine, More, is_own_trouble, no_more, read_lines, read_ok
from .errors import Tainted
from .following import Follower
from .sending import Sending
from .window import Window
from .worker import Worker

READER = 2
"""The session under which every token of the window is held, and every reader's line is said."""

log = logging.getLogger("jasminedome")

_KEEPS = b"1 OK "
_READS = b"%d OK " % READER
_FIRST_REST, _LONGEST_REST = 0.02, 2.0  # seconds before a line is said again
_TRIES = 12  # of a commit, before it is left to the next one
_MOST_FAILED = 3  # commits in a row that failed, before the program is given up
_MERGES = 64  # steps in one turn
_MERGES_AT_ONCE = 4  # of these, for which readers may have to wait
_WRITES_A_STEP = 64  # behind how many writes a step of a merge is due


@dataclass(frozen=True)
class Begun:
    """From where a life begins: its base's note, the marks that it brings back, and up to where only those count.

    `base` is the batch of the base, where its mark is one of those. `careful` are the positions, first and last, in which
    an earlier program ended: their lines go one by one.
    """

    note: Note
    fields: Mapping[str, str]
    wanted: FrozenSet[int]
    upto: int
    base: Optional[Batch] = None
    careful: Optional[Tuple[int, int]] = None


@dataclass(frozen=True)
class Every:
    """When a base is due: at the first anchor behind so many writes, or so many seconds after the last one."""

    writes: int = 20_000
    seconds: float = 10.0


class Applying:
    """The log, applied. All calls are for the thread of the event loop. `on_shown` is called whenever a mark can be read."""

    def __init__(
        self, engine: Engine, begun: Begun, name: str, follower: Follower, bases: Bases, files: Worker, every: Every,
        on_shown: Callable[[], object],
    ) -> None:  # fmt: skip
        self.engine = engine
        self.window = Window()
        self.position = begun.note.position
        self.seal = begun.note.seal
        self.shown = 0
        self.digest: Optional[Tuple[int, str]] = None
        """The position and digest of a checked anchor that are to be told."""
        self._begun = begun
        self._name = name
        self._follower = follower
        self._bases = bases
        self._files = files
        self._every = every
        self._on_shown = on_shown
        self._sending = Sending(engine, engine.opened_at, begun.note.refusals)
        self._since_base = 0
        self._base_at = asyncio.get_running_loop().time()
        self._failed = 0
        self._digesting: "Optional[asyncio.Task[None]]" = None

    @property
    def token(self) -> int:
        """How many writes were accepted."""
        return self._sending.count

    @property
    def is_ready(self) -> bool:
        """Whether it has caught up with what the log had when it began."""
        return self.position >= self._begun.upto

    @property
    def needed(self) -> int:
        """The position at or before which a base brings all of the window back."""
        first = self.window.first
        return self.position if first is None else first

    async def begin(self) -> None:
        """Shows the base itself, where that was made at a mark of the window."""
        if self._begun.base is not None:
            await self._show(self._begun.base)

    async def apply(self, batches: List[Batch]) -> None:
        """Applies batches: all of their writes are judged, and their marks can be read then.

        Raises Tainted and ProgramEnded, after which this life is over.
        """
        writes = 0
        for batch in batches:
            await self._sending.add(batch, self._is_careful(batch))
            writes += len(batch.writes)
            self._since_base += len(batch.writes)
            is_shown = batch.mark.is_view and (batch.position > self._begun.upto or batch.position in self._begun.wanted)
            is_base = self._is_base_due(batch, is_shown)
            if is_shown or is_base:
                await self._sending.settle()  # a token is given out only once each write before it was judged
                self.position, self.seal = batch.position, batch.seal
            if is_shown:
                await self._show(batch)
            if is_base:
                await self._keep_base()
        await self._sending.settle()
        self.position, self.seal = batches[-1].position, batches[-1].seal
        self._tell_refused()
        await self._merge(len(batches) + writes // _WRITES_A_STEP)

    async def idle(self) -> None:
        """What there is to do while nothing comes."""
        if self._since_base and asyncio.get_running_loop().time() - self._base_at > 5 * self._every.seconds:
            await self._keep_base()
        await self._merge(_MERGES)

    async def close(self) -> None:
        """Ends the program."""
        if self._digesting is not None:
            self._digesting.cancel()
        await self.engine.close()

    def _is_careful(self, batch: Batch) -> bool:
        careful = self._begun.careful
        return careful is not None and careful[0] <= batch.position <= careful[1]

    def _is_base_due(self, batch: Batch, is_shown: bool) -> bool:
        """At an anchor, so that the token with which a base opens is one of the window; elsewhere only where none comes."""
        if not self._since_base:
            return False
        late = asyncio.get_running_loop().time() - self._base_at > self._every.seconds
        is_due = self._since_base >= self._every.writes or late
        return is_due and ((batch.mark.is_anchor and is_shown) or self._since_base >= 5 * self._every.writes)

    async def _show(self, batch: Batch) -> None:
        """Records the token of a mark, holds it, and lets go what left the window."""
        token = int(await self._again(b"1 REFRESH", _KEEPS))
        if token != self._sending.count:
            raise Tainted(f"REFRESH was answered {token} behind {self._sending.count} writes")
        if b"%d" % token not in self.window.tokens:
            await self._again(b"%d OPEN %d" % (READER, token), _READS)
        closed = [self.engine.ask(b"%d CLOSE %d" % (READER, old), _READS) for old in self.window.add(batch, token)]
        for each in closed:
            read_ok(await each, _READS)
        self.shown = batch.position
        self._on_shown()
        await self._again(b"1 PRUNE 1", _KEEPS)
        self._follower.note_shown(batch.position, token, f"{self._sending.refusals:016x}", self._name)
        if batch.mark is Mark.CHECKED and batch.position > self._begun.upto:
            await self._check(batch.position, token)

    async def _check(self, position: int, token: int) -> None:
        """Begins the digest of a checked anchor, beside everything else; not while one is still in the making."""
        if self._digesting is None or self._digesting.done():
            await self._again(b"%d OPEN %d" % (AUDITOR, token), b"%d OK " % AUDITOR)
            self._digesting = asyncio.create_task(self._digest(position, token))

    async def _digest(self, position: int, token: int) -> None:
        try:
            self.digest = position, await digest_of(self.engine, token, self._begun.fields)
        except JasminedomeError as error:
            log.warning("%s: no digest of %d: %s", self._name, position, error)
        finally:
            self.engine.relay(b"%d CLOSE %d\n" % (AUDITOR, token), lambda _: None, b"", no_more)

    async def _keep_base(self) -> None:
        """Commits what is applied, and keeps the commit's files under their position.

        Where that fails, the next one will do; where it fails again and again, raises Tainted.
        """
        try:
            note = Note(self._begun.note.log, self.position, self.seal, self._sending.refusals)
            await self._again(b"1 COMMIT %b" % str(note).encode(), _KEEPS, tries=_TRIES)
            generation = int(await self._again(b"1 SNAP", _KEEPS, tries=_TRIES))
            try:
                files = read_lines(await self.engine.ask(b"1 FILES g %d" % generation, _KEEPS, int), _KEEPS)[1:]
                await self._files.do(self._bases.keep, self.position, files)
            finally:
                await self._again(b"1 UNSNAP %d" % generation, _KEEPS)
        except (Refusal, OSError) as error:
            self._failed += 1
            log.warning("%s: no base is kept at %d: %s", self._name, self.position, error)
            if self._failed >= _MOST_FAILED:
                raise Tainted(f"{self._failed} commits failed one after another: {error}") from None
        else:
            self._failed = 0
            await self._files.do(self._bases.drop, self.needed)
        await self._sweep()
        self._since_base, self._base_at = 0, asyncio.get_running_loop().time()

    async def _again(self, line: bytes, head: bytes, more: More = no_more, tries: Optional[int] = None) -> str:
        """Says a line that changes no table, again and again while this machine alone is in trouble; nothing else is said
        for the log meanwhile. Answers what follows OK.
        """
        rest = _FIRST_REST
        while True:
            try:
                return read_ok(await self.engine.ask(line, head, more), head)
            except Refusal as error:
                tries = None if tries is None else tries - 1
                if not is_own_trouble(error) or tries == 0:
                    raise
                if rest == _LONGEST_REST:
                    log.warning("%s: %s was answered %s", self._name, line.decode(), error)
            await asyncio.sleep(rest)
            rest = min(_LONGEST_REST, rest * 2)

    async def _merge(self, steps: int) -> None:
        """Takes at most so many steps of merges, a few at once, so that no reader waits for all of them."""
        is_done = False
        for _ in range(min(steps, _MERGES) // _MERGES_AT_ONCE + 1):
            told = await self.engine.say(b"0 MERGE\n" * _MERGES_AT_ONCE, _MERGES_AT_ONCE)
            is_done = is_done or b"0 OK done\n" in told
            if b"0 OK idle\n" in told:
                break
        if is_done:
            await self._sweep()

    async def _sweep(self) -> None:
        await self.engine.ask(b"0 SWEEP", b"0 OK ")  # refused by a device, it is the next one's

    def _tell_refused(self) -> None:
        for each in self._sending.refused:
            self._follower.note_refused(*each)
        self._sending.refused.clear()
