"""What a folder says of itself: the text of its newest commit, and the fields, which whoever opens it has to name.

Reads the file of the commit, `segments_<g>`, as docs/FORMATS.md lays it out, up to its fields and no further: whether
the rest is whole, the program says.
"""

from __future__ import annotations

import os
import re
from pathlib import Path
from typing import BinaryIO, Dict, NamedTuple, Optional

from .errors import Damaged, UsageError
from .starting import Folder, folder_path

_COMMIT = re.compile(r"segments_([1-9][0-9]{0,18})\Z", re.ASCII)
_KINDS = {1: "text", 2: "keyword", 3: "number", 4: "facet"}
_MAX_FIELDS = 32
_MAX_NAME = 32
_MAX_TEXT = 256


class _Head(NamedTuple):
    """The beginning of a commit's file, as far as this package reads it."""

    text: str
    fields: Dict[str, str]


def fields_of(folder: Folder) -> Optional[Dict[str, str]]:
    """The fields and kinds under which the folder's newest commit was made; None where it has no commit.

    Raises Damaged where the commit's file isn't one, UsageError for what is no path, and OSError where the folder can't
    be read.
    """
    head = _newest(folder)
    return None if head is None else head.fields


def text_of(folder: Folder) -> Optional[str]:
    """The text of the folder's newest commit; None where it has no commit. Raises what `fields_of` does."""
    head = _newest(folder)
    return None if head is None else head.text


def _newest(folder: Folder) -> Optional[_Head]:
    path = folder_path(folder)
    if path is None:
        raise UsageError("None is no folder")
    found = filter(None, (_COMMIT.match(name) for name in os.listdir(path)))
    newest = max((int(match.group(1)) for match in found), default=0)
    if not newest:
        return None
    with open(Path(path, f"segments_{newest}"), "rb") as file:
        return _read_head(file, newest)


def _read_head(file: BinaryIO, generation: int) -> _Head:
    if _take(file, 4) != b"CSGM":
        raise Damaged()
    version = _number(file, 1)
    if version not in (1, 2) or _number(file, 8) != generation:
        raise Damaged()
    _take(file, 16)  # the token, and the number of the next segment
    text = _bytes(file, _MAX_TEXT) if version == 2 else b""
    count = _number(file, 4)
    if count > _MAX_FIELDS:
        raise Damaged()
    fields = {}
    for _ in range(count):
        name = _bytes(file, _MAX_NAME)
        kind = _KINDS.get(_number(file, 1))
        if kind is None or not name.isascii():
            raise Damaged()
        fields[name.decode()] = kind
    return _Head(text.decode(errors="replace"), fields)


def _take(file: BinaryIO, size: int) -> bytes:
    data = file.read(size)
    if len(data) != size:
        raise Damaged()
    return data


def _number(file: BinaryIO, size: int) -> int:
    return int.from_bytes(_take(file, size), "big")


def _bytes(file: BinaryIO, most: int) -> bytes:
    size = _number(file, 4)
    if size > most:
        raise Damaged()
    return _take(file, size)
