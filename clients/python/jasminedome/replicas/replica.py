"""A replica: it applies a log to a program of its own, and answers reads under the tokens of its window."""

from __future__ import annotations

import asyncio
import logging
import sys
import tempfile
from dataclasses import asdict, dataclass, field
from pathlib import Path
from typing import IO, Any, Dict, List, Optional, Sequence, Set, Tuple, Union

from ..errors import Damaged, JasminedomeError
from ..starting import Command, command_for, schema_line
from .applying import Applying, Begun, Every
from .bases import Bases, Note
from .digests import outvoted
from .engine import Engine
from .errors import Diverged, LogDiffers
from .following import Follower, Pulse
from .front import Front
from .log import Head, Row
from .rules import program_version, rules_of
from .sending import Ended, Place
from .window import Window
from .wire import Wire, endpoint
from .worker import Worker

log = logging.getLogger("jasminedome")

_FACTOR, _LEAST = 10, 1024  # of the schema line
_FIRST_REST, _LONGEST_REST = 0.05, 5.0  # seconds before a base is opened again
_ORPHAN = 30.0  # seconds that a killed replica's program has to end
_TELLING = 0.1  # seconds between two words to the others
_CHECKING = 60.0  # seconds in which the others' digests are looked at
_FAR = 1_000  # batches: where so many wait, the base of another replica is asked for
_SENDING = 60.0  # seconds in which another replica has to go on sending its base
_SWITCH = 0.0005  # seconds that a thread has at the most while others wait


@dataclass(frozen=True)
class Settings:
    """What a replica is told.

    `dsn` and `log` name the log, `folder` is its own, `listen` and `address` are where it listens and what others are told
    of that, and `name` is what it is called. `source` is another replica's address, from which it begins where its folder
    is empty; the others that the log knows are asked where it is None. `restores` says that a start brings all tokens of
    the window back; else it begins at the newest base, at once, and leaves older tokens to the others. `pulse` is None
    where others say when marks are due.
    """

    dsn: str
    log: str
    folder: Path
    listen: str
    address: str
    name: str
    program: Optional[Command] = None
    source: Optional[str] = None
    restores: bool = True
    every: Every = field(default_factory=Every)
    pulse: Optional[Pulse] = field(default_factory=Pulse)


class Replica:
    """A replica in this process. All calls are for its event loop's thread."""

    def __init__(self, settings: Settings) -> None:
        """Takes the folder's lock. Raises FolderInUse, UsageError and OSError."""
        endpoint(settings.listen)
        self._settings = settings
        self._command = command_for(settings.program, str(settings.folder / "live"))
        self.version = program_version(command_for(settings.program, None))
        self._bases = Bases(settings.folder)
        self._follower = Follower(settings.dsn, settings.log)
        self._log_thread = Worker("jasminedome log")
        self._files_thread = Worker("jasminedome files")
        self._life: Optional[Applying] = None
        self._shown = asyncio.Event()
        self._log_id: Optional[str] = None
        self._fields: Dict[str, str] = {}
        self._starts = 0
        self._stopping = False
        self._failed: Optional[str] = None
        self._trouble: Optional[str] = None
        self._stuck: Optional[Place] = None
        self._careful: Optional[Tuple[int, int]] = None
        self._unlike: Optional[str] = None
        self._told_at = 0.0
        self._checked: Optional[Tuple[int, float]] = None
        self._nothing = Window()

    # For readers

    @property
    def window(self) -> Window:
        """The tokens that can be read now."""
        return self._life.window if self._life is not None else self._nothing

    @property
    def engine(self) -> Optional[Engine]:
        """The program, while one runs."""
        return self._life.engine if self._life is not None else None

    def status(self) -> Dict[str, Any]:
        """How it stands: what STATUS answers."""
        life, window = self._life, self.window
        return {
            "name": self._settings.name,
            "log": self._log_id,
            "version": self.version,
            "fields": self._fields,
            "position": life.position if life else 0,
            "shown": life.shown if life else 0,
            "is_ready": life is not None and life.is_ready and life.engine.is_alive,
            "newest": asdict(window.newest) if window.newest else None,
            "anchor": asdict(window.anchor) if window.anchor else None,
            "tokens": window.held,
            "bases": self._bases.positions(),
            "starts": self._starts,
            "process": life.engine.pid if life else None,
            "failed": self._failed,
            "trouble": self._trouble,
            "stuck": self._stuck,
            "unlike": self._unlike,
        }

    async def wait_shown(self, position: int, seconds: float) -> None:
        """Waits until a mark at or behind the position can be read, or so many seconds have passed."""
        loop = asyncio.get_running_loop()
        until = loop.time() + seconds
        while not (self._life is not None and self._life.shown >= position):
            left = until - loop.time()
            if left <= 0 or self._failed:
                return
            try:
                await asyncio.wait_for(self._shown.wait(), left)
            except asyncio.TimeoutError:
                return

    async def packed_base(self) -> IO[bytes]:
        """The oldest base as a tar, to be closed."""
        return await self._files_thread.do(self._bases.packed)

    # Its life

    async def run(self) -> None:
        """Applies the log until `stop`. A program that ended, or did what others don't, is given up, and a base opened again.

        Ends by itself where nothing helps but somebody who looks at it: `status()["failed"]`.
        """
        rest, furthest = _FIRST_REST, 0
        while not self._stopping:
            try:
                await self._begin()
                await self._follow()
            except (LogDiffers, Diverged) as error:
                self._failed = f"{type(error).__name__}: {error}"
                log.critical("%s stops: %s", self._settings.name, self._failed)
                break
            except (JasminedomeError, OSError) as error:
                if not self._stopping:
                    self._note_trouble(error)
            reached = self._life.position if self._life is not None else 0
            rest = _FIRST_REST if reached > furthest else min(_LONGEST_REST, rest * 2)
            furthest = max(furthest, reached)
            await self._leave()
            if not self._stopping:
                await asyncio.sleep(rest)
        await self._leave()

    def stop(self) -> None:
        """Has `run` end soon."""
        self._stopping = True
        self._follower.stop()

    def close(self) -> None:
        """Gives everything back, behind `run`."""
        self._follower.stop()
        self._log_thread.close()
        self._files_thread.close()
        self._follower.close()
        self._bases.close()

    def _note_trouble(self, error: Exception) -> None:
        self._trouble = f"{type(error).__name__}: {error}"
        log.warning("%s opens a base again: %s", self._settings.name, self._trouble)
        if isinstance(error, Ended):
            self._careful = error.first[0], error.last[0]
            if error.first == error.last:
                self._stuck = error.first
                log.error(
                    "%s: the program ends at line %d of %d; `jasminedome log skip` has every replica leave it out",
                    self._settings.name, error.first[1], error.first[0],
                )  # fmt: skip

    async def _leave(self) -> None:
        life, self._life = self._life, None
        if life is not None:
            await life.close()

    # Beginning

    async def _begin(self) -> None:
        """Opens a base, finds that the log has it as its past, and takes the window that it will have to hold."""
        self._starts += 1
        settings = self._settings
        head: Head = await self._log_thread.do(self._follower.head)
        self._log_id, self._fields = head.id, head.fields
        if head.rules != rules_of(self.version):
            raise LogDiffers(f"the log is of rules {head.rules}, and the program {self.version} of {rules_of(self.version)}")
        wanted: List[int] = await self._log_thread.do(self._follower.window, head.position)
        notes = await self._notes(head)
        chosen = _chosen(sorted(notes), wanted if settings.restores else [], head.cut)
        if chosen is None and head.cut:
            raise LogDiffers(f"the log was cut up to {head.cut}, and no base behind that is here or comes from another replica")
        await self._files_thread.do(self._bases.fill_live, chosen, _ORPHAN)
        note = notes[chosen] if chosen is not None else Note(head.id, 0, await self._first_seal(head), 0)
        is_mark = note.position in wanted and note.position > head.cut
        base = await self._log_thread.do(self._follower.batch_at, note.position) if is_mark else None
        engine = await self._opened(head, chosen)
        begun = Begun(note, head.fields, frozenset(wanted), head.position, base, self._careful)
        self._life = Applying(
            engine, begun, settings.name, self._follower, self._bases, self._files_thread, settings.every, self._note_shown
        )
        await self._life.begin()
        log.info("%s began at %d, of a log at %d", settings.name, note.position, head.position)

    async def _notes(self, head: Head) -> Dict[int, Note]:
        """The notes of the bases that lie in the log, its own or one of another replica."""
        notes = await self._own_notes(head)
        if not notes and (head.cut or head.position > _FAR) and await self._fetch_base():
            notes = await self._own_notes(head)
        return notes

    async def _own_notes(self, head: Head) -> Dict[int, Note]:
        notes: Dict[int, Note] = await self._files_thread.do(self._bases.notes, head.id)
        for position, note in notes.items():
            if position < head.cut:
                continue
            seal = await self._log_thread.do(self._follower.seal_at, position)
            if seal != note.seal:
                raise LogDiffers(f"the base at {position} has another past than the log, or lies behind its end")
        return {position: note for position, note in notes.items() if position >= head.cut}

    async def _fetch_base(self) -> bool:
        """Takes the oldest base of another replica, so that all of the window comes back; False where none has one."""
        given = self._settings.source
        others: List[str] = [given] if given else await self._log_thread.do(self._follower.others, self._settings.name)
        for address in others:
            try:
                if await self._files_thread.do(self._take_base, address) is not None:
                    return True
            except (OSError, JasminedomeError) as error:
                log.warning("%s: no base comes from %s: %s", self._settings.name, address, error)
        return False

    def _take_base(self, address: str) -> Optional[int]:
        wire = Wire(address)
        try:
            with tempfile.TemporaryFile(dir=self._settings.folder) as file:
                wire.fetch_base(file, _SENDING)
                if not file.tell():
                    return None
                file.seek(0)
                return self._bases.unpack(file)
        finally:
            wire.close()

    async def _first_seal(self, head: Head) -> bytes:
        seal = await self._log_thread.do(self._follower.seal_at, 0)
        assert seal is not None, "a log that wasn't cut has the seal of its beginning"
        return seal

    async def _opened(self, head: Head, chosen: Optional[int]) -> Engine:
        """The program over its room. One that finds the base damaged has it put aside, and an older one comes next."""
        try:
            # Once it has ended, whoever waits for the log is to find that, and not a second later.
            return await Engine.start(self._command, schema_line(head.fields, _FACTOR, _LEAST), self._follower.wake)
        except Damaged:
            if chosen is not None:
                await self._files_thread.do(self._bases.put_aside, chosen)
            raise

    # Going on

    async def _follow(self) -> None:
        life = self._life
        assert life is not None
        while not self._stopping:
            batches = await self._log_thread.do(self._follower.next, life.position, life.seal)
            if batches:
                await life.apply(batches)
            else:
                await life.idle()
            if self._careful is not None and life.position >= self._careful[1]:
                self._careful = self._stuck = None
            if life.is_ready:
                self._trouble = None
            await self._tell(life)

    def _note_shown(self) -> None:
        self._shown.set()
        self._shown = asyncio.Event()

    async def _tell(self, life: Applying) -> None:
        """Tells the others how far this is, at most ten times a second, and hears whether they were answered the same."""
        now = asyncio.get_running_loop().time()
        if now - self._told_at < _TELLING:
            return
        self._told_at = now
        settings = self._settings
        if life.digest is not None:
            position, digest = life.digest
            self._follower.note_digest(position, settings.name, digest)
            self._checked, life.digest = (position, now), None
        base = max((each for each in self._bases.positions() if each <= life.needed), default=0)
        row = Row(
            settings.name, settings.address, self.version, life.position, life.shown, life.token, base, life.is_ready
        )  # fmt: skip
        try:
            if settings.pulse is not None and life.is_ready:
                await self._log_thread.do(self._follower.pulse, settings.pulse)
            await self._log_thread.do(self._follower.tell, row)
            await self._check(now)
        except Diverged:
            raise
        except JasminedomeError as error:  # the log can't be written to for now: it is told later
            self._trouble = str(error)

    async def _check(self, now: float) -> None:
        """Looks whether the others' digests of the newest checked anchor are this one's, for a while."""
        if self._checked is None:
            return
        position, since = self._checked
        told: Dict[str, str] = await self._log_thread.do(self._follower.digests, position)
        if outvoted(self._settings.name, told):
            raise Diverged(f"most replicas show something else at {position}: {told}")
        self._unlike = f"at {position}: {told}" if len(set(told.values())) > 1 else None
        if self._unlike:
            log.error("%s: replicas show different things %s", self._settings.name, self._unlike)
        if now - since > _CHECKING:
            self._checked = None


def _chosen(bases: Sequence[int], wanted: Sequence[int], cut: int) -> Optional[int]:
    """The base to begin at: the newest, or where marks are wanted, one before them. None is the log's beginning."""
    if not wanted:
        return bases[-1] if bases else None
    before = [position for position in bases if position <= wanted[0]]
    if before:
        return before[-1]
    return bases[0] if bases and cut else None


async def serve(settings: Settings, stopped: "asyncio.Event") -> None:
    """Runs a replica until `stopped` is set, and answers readers meanwhile. Raises what `Replica` raises, and OSError."""
    sys.setswitchinterval(_SWITCH)  # a thread that has read from the log shouldn't keep the loop from its readers
    replica = Replica(settings)
    loop = asyncio.get_running_loop()
    connections: Set[Front] = set()
    where = endpoint(settings.listen)
    try:
        server = await _listening(loop, replica, connections, where)
        running, waiting = loop.create_task(replica.run()), loop.create_task(stopped.wait())
        await asyncio.wait({running, waiting}, return_when=asyncio.FIRST_COMPLETED)
        if running.done():
            running.result()  # a fault of this package ends the process; one that `run` knows is for somebody to look at
        await waiting
        replica.stop()
        server.close()
        for each in list(connections):
            each.close()
        await running
    finally:
        replica.close()


async def _listening(
    loop: asyncio.AbstractEventLoop, replica: Replica, connections: Set[Front], where: Union[str, Tuple[str, int]]
) -> asyncio.AbstractServer:
    def front() -> Front:
        return Front(replica, connections)

    if isinstance(where, str):
        Path(where).unlink(missing_ok=True)
        return await loop.create_unix_server(front, where)
    return await loop.create_server(front, where[0], where[1], reuse_address=True, backlog=256)
