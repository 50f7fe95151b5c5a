"""The folder of a replica: bases, from which it can start again, and the room in which its program works.

    live/       where the program works, whose lock it has; filled anew from a base at each start
    base-P/     hard links to the files of a commit at position P of the log, which are never changed
    bad-P/      a base that didn't open, for somebody to look at
"""

from __future__ import annotations

import contextlib
import fcntl
import os
import re
import shutil
import tarfile
import tempfile
import time
from dataclasses import dataclass
from pathlib import Path
from typing import IO, Dict, Iterator, List, Optional, Sequence

from ..errors import Damaged, FolderInUse
from ..folders import text_of
from .errors import LogDiffers

MOST = 4
"""How many bases are kept from the window on, beside the newest before it."""

_NOTE = re.compile(r"log ([0-9a-f]{16}) (0|[1-9][0-9]{0,18}) ([0-9a-f]{64}) ([0-9a-f]{16})\Z")
_SENT = re.compile(r"base-([1-9][0-9]{0,18})/([a-z0-9_.]+)\Z")
_TURN = 0.05  # seconds between two looks whether a lock is free


@dataclass(frozen=True)
class Note:
    """The text of a base's commit: of which log it is and up to where, the seal there, and the sum of all refusals."""

    log: str
    position: int
    seal: bytes
    refusals: int

    def __str__(self) -> str:
        return f"log {self.log} {self.position} {self.seal.hex()} {self.refusals:016x}"

    @classmethod
    def read(cls, text: str) -> "Optional[Note]":
        """The note that the text is; None where it is none."""
        found = _NOTE.match(text)
        return cls(found[1], int(found[2]), bytes.fromhex(found[3]), int(found[4], 16)) if found else None


class Bases:
    """The folder of one replica, which no other process may use meanwhile."""

    def __init__(self, folder: Path) -> None:
        """Makes the folder where there is none, and takes its lock. Raises FolderInUse where another replica has it."""
        self._folder = folder
        self.live = folder / "live"
        self.live.mkdir(parents=True, exist_ok=True)
        self._lock = os.open(folder, os.O_RDONLY)
        if not _locks(self._lock):
            os.close(self._lock)
            raise FolderInUse(detail=f"{folder}, by another replica")

    def close(self) -> None:
        """Gives the folder's lock back."""
        os.close(self._lock)

    def positions(self) -> List[int]:
        """Where the bases stand, rising."""
        return sorted(int(each.name[5:]) for each in self._folder.glob("base-*") if each.name[5:].isdigit())

    def notes(self, log: str) -> Dict[int, Note]:
        """The note of each base, by its position. One whose commit's file is damaged is put aside.

        Raises LogDiffers where one is of another log: none is passed over in silence, since it may be all that is left.
        """
        found = {}
        for position in self.positions():
            try:
                text = text_of(self._at(position))
            except Damaged:
                self.put_aside(position)
                continue
            note = Note.read(text or "")
            if note is None or note.log != log or note.position != position:
                raise LogDiffers(f"{self._at(position)} is of another log than {log}: {text!r}")
            found[position] = note
        return found

    def put_aside(self, position: int) -> None:
        """Takes a base out of use that doesn't open."""
        bad = self._folder / f"bad-{position}"
        shutil.rmtree(bad, ignore_errors=True)
        self._at(position).rename(bad)

    def fill_live(self, position: Optional[int], patience: float) -> None:
        """Empties the room of the program, and links the files of a base into it, if one is named.

        Waits until no program works there any more: one whose replica was killed reads its input to its end. Raises
        FolderInUse where one still does after `patience` seconds.
        """
        until = time.monotonic() + patience
        lock = os.open(self.live, os.O_RDONLY)
        try:
            while not _locks(lock):
                if time.monotonic() > until:
                    raise FolderInUse(detail=f"{self.live}, by the program of a replica that is gone")
                time.sleep(_TURN)
            for old in self.live.iterdir():
                old.unlink()
            for file in self._at(position).iterdir() if position is not None else ():
                os.link(file, self.live / file.name)
        finally:
            os.close(lock)

    def keep(self, position: int, files: Sequence[str]) -> None:
        """Keeps these files of the program's room as the base of a position, so that they outlast a loss of power."""
        goal = self._at(position)
        if goal.exists():
            return
        with self._making(position) as making:
            for name in files:
                os.link(self.live / name, making / name)

    def drop(self, needed: int, before: int = 1) -> None:
        """Deletes bases that aren't needed: all but `before` of those at or before `needed`, and of the rest the newest
        and those whose neighbours are far.
        """
        positions = self.positions()
        old = [each for each in positions if each <= needed]
        gone = old[: max(0, len(old) - before)]
        rest = [each for each in positions if each not in gone]
        while len(rest) > MOST:
            nearest = min(range(1, len(rest) - 1), key=lambda at: rest[at + 1] - rest[at - 1])
            gone.append(rest.pop(nearest))
        for position in gone:
            self._at(position).rename(self._folder / f"gone-{position}")
        for each in self._folder.glob("gone-*"):
            shutil.rmtree(each, ignore_errors=True)

    def packed(self) -> IO[bytes]:
        """The oldest base as a tar, in a file that has no name; an empty tar where there is none."""
        out = tempfile.TemporaryFile(dir=self._folder)
        with tempfile.TemporaryDirectory(dir=self._folder) as room, tarfile.open(fileobj=out, mode="w") as tar:
            positions = self.positions()
            if positions:  # linked first, since it may be dropped meanwhile
                linked = Path(room, "base")
                shutil.copytree(self._at(positions[0]), linked, copy_function=os.link)
                tar.add(linked, arcname=f"base-{positions[0]}")
        out.seek(0)
        return out

    def unpack(self, file: IO[bytes]) -> Optional[int]:
        """Takes the base of another replica out of its tar; answers its position, or None where there was none.

        Raises LogDiffers where it is no base.
        """
        with tarfile.open(fileobj=file) as tar:
            members = [member for member in tar if not member.isdir()]
            found = [_SENT.match(member.name) for member in members]
            names = [match[2] for match in found if match is not None]
            if not members:
                return None
            if len(names) != len(members) or not all(member.isfile() for member in members):
                raise LogDiffers("what another replica sent is no base")
            first = found[0]
            assert first is not None
            position = int(first[1])
            with self._making(position) as making:
                for member, name in zip(members, names):
                    data = tar.extractfile(member)
                    assert data is not None
                    with data, open(making / name, "wb") as out:
                        shutil.copyfileobj(data, out)
                    _sync(making / name)
        return position

    @contextlib.contextmanager
    def _making(self, position: int) -> Iterator[Path]:
        """A folder that becomes the base of a position once it is whole."""
        making = self._folder / f"making-{position}"
        shutil.rmtree(making, ignore_errors=True)
        making.mkdir()
        yield making
        _sync(making)
        making.rename(self._at(position))
        _sync(self._folder)

    def _at(self, position: int) -> Path:
        return self._folder / f"base-{position}"


def _locks(descriptor: int) -> bool:
    try:
        fcntl.flock(descriptor, fcntl.LOCK_EX | fcntl.LOCK_NB)
    except BlockingIOError:
        return False
    return True


def _sync(path: Path) -> None:
    descriptor = os.open(path, os.O_RDONLY)
    try:
        os.fsync(descriptor)
    finally:
        os.close(descriptor)
