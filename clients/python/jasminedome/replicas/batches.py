"""Batches of a log: the writes of each, the mark behind them, and the seal over everything up to there."""

from __future__ import annotations

import hashlib
from dataclasses import dataclass
from enum import Enum
from typing import FrozenSet, Sequence, Union

from ..errors import UsageError
from ..lines import MAX_LINE, text
from ..putting import Item, item_text
from ..query import Query, query_text
from .errors import WrongBatch

WRITER = 1
"""The session under which every replica says every write, so that a line fits into one everywhere or nowhere."""

MAX_WRITE = MAX_LINE - len(f"{WRITER} ")
"""The most bytes that a write may have."""

MAX_BATCH = 1 << 20
"""The most bytes that the lines of one batch may have together."""


class Mark(Enum):
    """What stands behind the lines of a batch.

    NOTHING; VIEW: from here on the catalogue can be opened as it is here, for the next 8 marks; ANCHOR: such a view for
    the next 48 anchors; CHECKED: an anchor at which every replica makes a digest of all that it shows.
    """

    NOTHING = "-"
    VIEW = "r"
    ANCHOR = "a"
    CHECKED = "d"

    @property
    def is_view(self) -> bool:
        """Whether the catalogue can be opened as it is here."""
        return self is not Mark.NOTHING

    @property
    def is_anchor(self) -> bool:
        """Whether that view is kept long."""
        return self in (Mark.ANCHOR, Mark.CHECKED)


@dataclass(frozen=True)
class Batch:
    """What was appended at once: `skipped` are the places of the lines that no replica applies."""

    position: int
    mark: Mark
    lines: str
    seal: bytes
    skipped: FrozenSet[int] = frozenset()

    @property
    def writes(self) -> Sequence[str]:
        """Its lines, without line feeds."""
        return self.lines.split("\n") if self.lines else ()


@dataclass(frozen=True)
class Put:
    """An item is put: a mapping, or its JSON text."""

    item: Item

    def __str__(self) -> str:
        return f"PUT {item_text(self.item)}"


@dataclass(frozen=True)
class Delete:
    """The item with the id is taken out."""

    id: str

    def __str__(self) -> str:
        return f"DEL {text(self.id, 'the id')}"


@dataclass(frozen=True)
class DeleteWhere:
    """Every item that the query matches is taken out."""

    query: Union[str, Query]

    def __str__(self) -> str:
        return f"DELW {query_text(self.query)}"


Write = Union[Put, Delete, DeleteWhere, str]
"""A write, or its line: PUT and an item's JSON, DEL and an id, or DELW and a query."""


def first_seal(id: str, rules: str, fields: str) -> bytes:
    """The seal of a log of this id, with these rules and fields, before its first batch."""
    return hashlib.sha256(f"jasminedome log 1\n{id}\n{rules}\n{fields}\n".encode()).digest()


def next_seal(seal: bytes, mark: Mark, lines: str) -> bytes:
    """The seal behind a batch, of the one before it: one seal names all batches up to its position."""
    return hashlib.sha256(seal + (mark.value + lines).encode()).digest()


def joined(writes: Sequence[Write]) -> str:
    """The lines of a batch. Raises WrongBatch where no log may hold them, and UsageError for an item that is none."""
    spelled = "\n".join([line_of(write) for write in writes])
    if len(spelled) > MAX_BATCH or len(spelled.encode()) > MAX_BATCH:
        raise WrongBatch(f"the batch has {len(spelled):,} bytes, and may have {MAX_BATCH:,}")
    return spelled


def line_of(write: Write) -> str:
    """The line of a write. Raises what `joined` does."""
    if not isinstance(write, (Put, Delete, DeleteWhere, str)):
        raise WrongBatch(f"{write!r:.200} is no write: neither Put, Delete, DeleteWhere nor a line")
    line = str(write)
    if not line.startswith(("PUT ", "DEL ", "DELW ")):
        raise WrongBatch(f"no write: {line[:80]!r}")
    if "\n" in line or line.endswith("\r") or "\0" in line:
        raise WrongBatch(f"a line feed, a NUL, or a carriage return at the end can't stand in a line: {line[:80]!r}")
    try:
        size = len(line.encode())
    except UnicodeEncodeError as error:
        raise UsageError(f"the line isn't UTF-8: {error}") from None
    if size > MAX_WRITE:
        raise WrongBatch(f"the line has {size:,} bytes, and may have {MAX_WRITE:,}: {line[:80]!r}")
    return line
