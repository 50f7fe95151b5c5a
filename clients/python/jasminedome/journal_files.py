"""The files of a journal: lines with a checksum each, in files that are named by the place of their first line."""

from __future__ import annotations

import contextlib
import errno
import fcntl
import os
import re
import secrets
import zlib
from pathlib import Path
from typing import BinaryIO, List, Optional, Sequence, Tuple

from .backups import sync_folder
from .errors import Damaged, DeviceFailed, FolderInUse, UsageError

_NAME = re.compile(r"([0-9]{20})\.journal\Z", re.ASCII)
_HEAD = re.compile(rb"jasminedome journal 1 ([0-9a-f]{16}) ([0-9]{1,20})\Z")


class JournalFiles:
    """Lines that last once they are added. A line's place is its number, from 1, over all files that there ever were.

    Not for more than one thread at a time. The folder is locked for this process.
    """

    def __init__(self, folder: Path) -> None:
        """Makes the folder where there is none, and reads it.

        What a crash cut short at the end of the last file is dropped: it was never answered. Raises FolderInUse, Damaged
        where anything else isn't as it was written, and OSError.
        """
        if not folder.is_dir():
            folder.mkdir(parents=True)
            sync_folder(folder.parent)
        self._folder = folder
        self._lock = _locked(folder)
        self.id = secrets.token_hex(8)
        """What tells this journal from others."""
        self.first = 0
        """How many lines came before those that are here."""
        self.lines: List[str] = []
        """The lines that were here when it was opened; may be cleared."""
        self._file: Optional[BinaryIO] = None
        self._failed = False
        try:
            end = self._read()
            self.place = self.first + len(self.lines)
            """The place of the last line."""
            if end is not None:
                self._file = self._reopened(*end)
        except BaseException:
            self.close()
            raise

    def close(self) -> None:
        """Closes the files, and gives the lock back."""
        if self._file is not None:
            with contextlib.suppress(OSError):  # what couldn't be written is tried once more, and was told
                self._file.close()
            self._file = None
        if self._lock >= 0:
            os.close(self._lock)
            self._lock = -1

    def add(self, lines: Sequence[str]) -> None:
        """Adds lines behind the last one, and waits until they last.

        Raises DeviceFailed where that failed: then nothing can be added until it is opened anew.
        """
        if self._failed or self._lock < 0:
            raise DeviceFailed(detail="the journal failed before, or is closed")
        data = b"".join(_spelled(each.encode()) for each in lines)
        try:
            if self._file is None:
                self._file = self._begun()
            self._file.write(data)
            self._file.flush()
            os.fdatasync(self._file.fileno())
        except OSError as error:
            self._failed = True  # a system that failed to sync may say that all is well the next time
            raise DeviceFailed(detail=f"the journal: {error}") from None
        self.place += len(lines)

    def go_on_from(self, place: int, id: str) -> None:
        """Has the next line come behind this place of that journal. Raises UsageError where lines are here."""
        if self.place > self.first:
            raise UsageError("the journal has lines")
        if self._file is not None:
            self._file.close()
            self._file = None
        for path in self._names():
            path.unlink()
        self.first = self.place = place
        self.id = id

    def forget(self) -> None:
        """Drops all lines: those that come begin a file of their own. Does nothing where there are none. Raises OSError."""
        if self.place == self.first:
            return
        gone = self._names()
        before, self._file = self._file, self._begun()
        if before is not None:
            before.close()
        self.first = self.place
        for path in gone:
            if path.name != os.path.basename(self._file.name):
                path.unlink()

    def _names(self) -> List[Path]:
        return sorted(path for path in self._folder.iterdir() if _NAME.match(path.name))

    def _begun(self) -> BinaryIO:
        """A new file, whose first line will have the next place. It has its name once its head lasts."""
        path = self._folder / f"{self.place:020}.journal"
        new = path.with_suffix(".new")
        with new.open("wb") as file:
            file.write(b"jasminedome journal 1 %s %d\n" % (self.id.encode(), self.place))
            file.flush()
            os.fsync(file.fileno())
        new.rename(path)
        sync_folder(self._folder)
        return path.open("ab")

    def _read(self) -> Optional[Tuple[Path, int]]:
        """Reads all files; answers the last one and how many of its bytes count, or None where there is none."""
        end = None
        paths = self._names()
        for path in paths:
            id, place, lines, size = _read(path, is_last=path is paths[-1])
            if end is None:
                self.id, self.first = id, place
            if (id, place) != (self.id, self.first + len(self.lines)):
                raise Damaged(detail=f"{path} doesn't follow the one before")
            self.lines += lines
            end = (path, size)
        return end

    def _reopened(self, path: Path, size: int) -> BinaryIO:
        file = path.open("r+b")
        file.truncate(size)
        file.seek(size)
        os.fsync(file.fileno())
        return file


def _locked(folder: Path) -> int:
    descriptor = os.open(folder, os.O_RDONLY)
    try:
        fcntl.flock(descriptor, fcntl.LOCK_EX | fcntl.LOCK_NB)
    except OSError as error:
        os.close(descriptor)
        if error.errno in (errno.EWOULDBLOCK, errno.EACCES):
            raise FolderInUse(30, None, str(folder)) from None
        raise
    return descriptor


def _spelled(text: bytes) -> bytes:
    return b"%08x %s\n" % (zlib.crc32(text), text)


def _read(path: Path, is_last: bool) -> Tuple[str, int, List[str], int]:
    """The journal's id, the place before the first line, the lines, and the bytes that these take."""
    whole = path.read_bytes()
    head, _, rest = whole.partition(b"\n")
    found = _HEAD.match(head)
    if found is None or int(found.group(2)) != int(path.name[:20]):
        raise Damaged(detail=f"{path} is no file of a journal")
    size = len(head) + 1
    lines: List[str] = []
    while rest:
        line, feed, rest = rest.partition(b"\n")
        text = line[9:]
        if not feed or _spelled(text)[:-1] != line:
            # The lines of one `add` may have reached the disk in part; what was answered before them is whole.
            if is_last and not any(_is_whole(each) for each in rest.split(b"\n")):
                break
            raise Damaged(detail=f"{path}, byte {size}: the line isn't as it was written")
        lines.append(_text(text, path))
        size += len(line) + 1
    return found.group(1).decode(), int(found.group(2)), lines, size


def _is_whole(line: bytes) -> bool:
    return len(line) > 9 and _spelled(line[9:])[:-1] == line


def _text(text: bytes, path: Path) -> str:
    with contextlib.suppress(UnicodeDecodeError):
        return text.decode()
    raise Damaged(detail=f"{path}: a line isn't UTF-8")
