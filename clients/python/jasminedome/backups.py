"""Copies of the newest commit, made while the program goes on: into another folder, or as a tar."""

from __future__ import annotations

import os
import shutil
import tarfile
from pathlib import Path
from typing import TYPE_CHECKING, Generator, List, Union

from .errors import UsageError
from .starting import Folder, folder_path
from .stats import Snapshot

if TYPE_CHECKING:
    from .http.calls import BackupCalls

_BLOCK = 1 << 18
_END = b"\0" * 1024  # two empty blocks


def backup(catalogue: "BackupCalls", to: Folder) -> int:
    """Copies the newest commit into a folder that isn't there yet, and sees that it lasts; answers its generation.

    The commit's own file is copied last, so that a copy that was stopped opens as nothing, and not as half of it. Raises
    UsageError where the catalogue has no folder or there is one at the path already, NoCommit, and OSError.
    """
    path = folder_path(to)
    if path is None or os.path.lexists(path):
        raise UsageError(f"a backup goes into a folder that isn't there yet, and not into {to!r:.200}")
    source = _folder(catalogue)
    with catalogue.snapshot() as kept:
        os.makedirs(path)
        for name in _in_order(kept):
            with (source / name).open("rb") as file, Path(path, name).open("wb") as copy:
                shutil.copyfileobj(file, copy, _BLOCK)
                copy.flush()
                os.fsync(copy.fileno())
        sync_folder(path)
        sync_folder(os.path.dirname(os.path.abspath(path)))
        return kept.generation


def tar_of(catalogue: "BackupCalls") -> Generator[bytes, None, None]:
    """The newest commit as the pieces of a tar, whose files are to be unpacked into an empty folder.

    The snapshot stands until the last piece is taken, or the iterator is closed. Raises UsageError where the catalogue
    has no folder, NoCommit, and OSError.
    """
    source = _folder(catalogue)
    with catalogue.snapshot() as kept:
        for name in _in_order(kept):
            with (source / name).open("rb") as file:
                info = tarfile.TarInfo(name)
                info.size = os.fstat(file.fileno()).st_size
                info.mtime = int(os.fstat(file.fileno()).st_mtime)
                yield info.tobuf(tarfile.GNU_FORMAT)
                left = info.size
                while left:
                    data = file.read(min(_BLOCK, left))
                    if not data:
                        raise OSError(f"{name} ends before its end")
                    left -= len(data)
                    yield data
                yield b"\0" * (-info.size % tarfile.BLOCKSIZE)
        yield _END


def _folder(catalogue: "BackupCalls") -> Path:
    if catalogue.folder is None:
        raise UsageError("the catalogue has no folder, and so no backup")
    return Path(catalogue.folder)


def _in_order(kept: Snapshot) -> List[str]:
    return sorted(kept.files, key=lambda name: name.startswith("segments_"))


def sync_folder(folder: Union[str, Path]) -> None:
    """Waits until the names of a folder's files last. Raises OSError."""
    descriptor = os.open(folder, os.O_RDONLY)
    try:
        os.fsync(descriptor)
    finally:
        os.close(descriptor)
