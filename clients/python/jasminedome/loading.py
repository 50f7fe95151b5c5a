"""Loads a file of items into a folder: what `python -m jasminedome load` does."""

from __future__ import annotations

import hashlib
import json
import os
import re
import time
from array import array
from dataclasses import dataclass
from itertools import islice
from pathlib import Path
from typing import Callable, Dict, Iterator, List, Mapping, Optional, Tuple, Union

from .catalogue import Catalogue
from .errors import JasminedomeError, NoCommit, Refusal, UsageError
from .folders import fields_of
from .lines import number, text
from .plans import Plan, planned
from .putting import Item
from .sources import Source
from .starting import Command, Folder, folder_path
from .tables import DECIMAL, INTEGER, LABELS, Column, Ids, Table

EVERY = 50_000
"""After how many items a load commits, where nothing else is said."""

_NAME = 100  # characters of a file's name that a commit's text tells
_DONE_ROWS = re.compile(r"load .*: ([0-9]{1,18}) rows of ([0-9a-f]{32})\Z", re.DOTALL)

Progress = Callable[[int, int, int], object]


@dataclass(frozen=True)
class RefusedLine:
    """A line of the file whose item wasn't put, and why; `detail` names the members that are at fault, or is empty."""

    line: int
    error: JasminedomeError
    detail: str = ""


@dataclass(frozen=True)
class Loaded:
    """What a load did; `commit` is None where no item was put, and so nothing was committed. Times are in seconds.

    `skipped` are the rows that an earlier load of this file had put before it was stopped. `repeated` tells how many
    ids came again in the file, of which the last counts, and of the first of these the id and both lines.
    """

    plan: Plan
    accepted: int
    refused: Tuple[RefusedLine, ...]
    commit: Optional[int]
    seconds: float
    skipped: int = 0
    repeated: int = 0
    repeats: Tuple[Tuple[str, int, int], ...] = ()


def load(
    path: Union[str, "os.PathLike[str]"],
    folder: Folder,
    fields: Optional[Mapping[str, str]] = None,
    id_column: Optional[str] = None,
    program: Optional[Command] = None,
    progress: Optional[Progress] = None,
    form: Optional[str] = None,
    encoding: Optional[str] = None,
    every: int = EVERY,
) -> Loaded:
    """Puts the items of a file into the folder, which is made where there is none, and commits them.

    `path` is a file, packed by gzip or not, or "-" for standard input. `form` is "jsonl", "json", "csv" or "tsv"; without
    it the name tells, or the first character of standard input. `fields` says the kind of some fields, "cents" for prices
    with a point, or "skip" to leave one out; each other one has the kind that the folder says, or else the one that takes
    most of its values. `id_column` names the column of the id. `progress` is called with the items answered so far, the
    bytes read and the bytes there are.

    It commits after every `every` items, with a text that says how far it is: where it was stopped, the same call goes on
    from there. Raises UsageError where the file can't be a catalogue, OSError, and what `Catalogue`, `put_many`, `merge`
    and `commit` raise.
    """
    _check(fields, id_column, every)
    kept = _folder(folder)
    begun = time.monotonic()
    with Source(path, form, encoding) as source:
        table = Table(source)
        told_progress = told_by(source, progress)
        columns = table.columns(lambda: told_progress(0), id_column)
        existing = fields_of(kept) if kept.is_dir() else None
        plan = planned(columns, fields or {}, existing, id_column)
        kept.mkdir(parents=True, exist_ok=True)
        with Catalogue(plan.fields, kept, program=program) as shop:
            work = _Work(shop, table, plan, columns, told_progress)
            work.run(every)
    ids = table.ids.get(plan.id_column, Ids())
    took = time.monotonic() - begun
    return Loaded(plan, work.accepted, work.refused, work.commit, took, work.skipped, ids.count, tuple(ids.told))


def _folder(folder: object) -> Path:
    path = folder_path(folder)
    if path is None:
        raise UsageError("a load needs a folder")
    return Path(path)


def _check(fields: object, id_column: object, every: object) -> None:
    if fields is not None and not isinstance(fields, Mapping):
        raise UsageError(f"the fields {fields!r:.200} are no mapping of columns to kinds")
    for column, kind in (fields or {}).items():
        text(column, "the column")
        text(kind, "the kind")
    if id_column is not None:
        text(id_column, "the column of the id")
    if number(every, "every") == 0:
        raise UsageError("a load commits after 1 item or more")


def told_by(source: Source, progress: Optional[Progress]) -> Callable[[int], None]:
    """Calls `progress` with what was answered and how far the source is read."""

    def told(answered: int) -> None:
        if progress is not None:
            progress(answered, source.read, source.size)

    return told


def load_digest(table: Table, plan: Plan) -> str:
    """A text that no load of another file, or under another plan, has."""
    told = f"{table.source.digest()} {table.source.form} {table.source.encoding} {plan!r}"
    return hashlib.blake2b(told.encode(errors="replace"), digest_size=16).hexdigest()


class _Work:
    """One load into an open catalogue: some items, a commit, and so on."""

    def __init__(
        self, shop: Catalogue, table: Table, plan: Plan, columns: Mapping[str, Column], progress: Callable[[int], None]
    ) -> None:
        self._shop = shop
        self._name = table.source.name
        self._digest = load_digest(table, plan)
        self.skipped = _rows_done(shop, self._digest)
        self._rows = Rows(table, plan, columns, self.skipped)
        self._progress = progress
        self._refused: Dict[int, JasminedomeError] = {}
        self._answered = 0
        self.accepted = 0
        self.commit: Optional[int] = None

    def run(self, every: int) -> None:
        """Puts all items, with a commit behind every so many."""
        items = self._rows.items()
        while self._put(islice(items, every)) == every:
            self._keep(f"load {_short(self._name)}: {self._rows.taken} rows of {self._digest}")
        self._keep(f"load {_short(self._name)}")

    @property
    def refused(self) -> Tuple[RefusedLine, ...]:
        """All lines that were refused, here or by the program."""
        errors = {**self._rows.refused, **self._refused}
        told = sorted(errors.items())
        return tuple(RefusedLine(line, error, error.detail if isinstance(error, Refusal) else "") for line, error in told)

    def _put(self, items: Iterator[Item]) -> int:
        """Puts the next items; answers how many there were."""
        self._rows.lines = array("q")
        before = self._answered
        told = self._shop.put_many(items, lambda answered: self._progress(before + answered))
        for each in told.refused:
            self._refused[self._rows.lines[each.index]] = each.error
        self.accepted += told.accepted
        self._answered += len(self._rows.lines)
        return len(self._rows.lines)

    def _keep(self, text: str) -> None:
        if self.accepted or self.skipped:
            self._shop.upkeep()
            self.commit = self._shop.commit(text)
            self._shop.sweep()


class Rows:
    """The items of a file's rows, the line of each, and the rows that can't be items."""

    def __init__(self, table: Table, plan: Plan, columns: Mapping[str, Column], skipped: int) -> None:
        self._table = table
        self._plan = plan
        self._skipped = skipped
        # Lines of JSON that can go as they are go byte by byte.
        is_same = plan.id_column == "id" and all(column == name for column, name in plan.names.items()) and not plan.cents
        is_whole = len(plan.names) + 1 == len(columns)
        self._goes_as_it_is = table.has_json and is_same and is_whole and not columns["id"].counts["integer"]
        self.taken = 0
        self.lines = array("q")
        self.refused: Dict[int, JasminedomeError] = {}

    def items(self) -> Iterator[Item]:
        """The items, in the file's order, but those that were put before."""
        for line, row in self._table.rows():
            self.taken += 1
            if self.taken <= self._skipped:
                continue
            if isinstance(row, UsageError):
                self.refused[line] = row
            else:
                self.lines.append(line)
                yield self._item(row)

    def _item(self, row: Union[str, Dict[str, object]]) -> Item:
        if isinstance(row, dict):
            return self._of_cells(row)
        return row if self._goes_as_it_is else self._of_json(row)

    def _of_json(self, text: str) -> Item:
        try:
            members = json.loads(text)
        except (ValueError, RecursionError):
            return text  # the program says what is wrong with it
        if not isinstance(members, dict):
            return text
        item = {name: members[column] for column, name in self._plan.names.items() if column in members}
        for name in self._plan.cents:
            if name in item:
                item[name] = hundredths(item[name])
        own = members.get(self._plan.id_column)
        is_integer = isinstance(own, int) and not isinstance(own, bool)
        return {"id": str(own) if is_integer else own, **item}

    def _of_cells(self, cells: Dict[str, object]) -> Item:
        item: Dict[str, object] = {"id": cells.get(self._plan.id_column)}
        for column, name in self._plan.names.items():
            if column in cells:
                cell = str(cells[column])
                item[name] = hundredths(cell) if name in self._plan.cents else _of_cell(self._plan.fields[name], cell)
        return item


def hundredths(value: object) -> object:
    """The hundredths of a price: 1999 of "19.99" or "19,99", 1900 of 19; what is no price stays what it is."""
    if isinstance(value, bool) or not isinstance(value, (str, int, float)):
        return value
    spelled = str(value)
    if re.match(r"-?[0-9]{1,16}\Z", spelled, re.ASCII):
        return int(spelled) * 100
    found = DECIMAL.match(spelled)
    if found is None:
        return value
    cents = int(found.group(1)) * 100 + int(found.group(2).ljust(2, "0"))
    return -cents if spelled.startswith("-") else cents


def _of_cell(kind: str, cell: str) -> object:
    if kind == "number" and INTEGER.match(cell):
        return int(cell)
    if kind == "facet":
        return [label.strip() for label in cell.split(LABELS) if label.strip()]
    return cell


def _rows_done(shop: Catalogue, digest: str) -> int:
    """How many rows the newest commit says to have of this file, where it was made by a load that was stopped."""
    try:
        with shop.snapshot() as kept:
            found = _DONE_ROWS.match(shop.note(kept.generation))
    except NoCommit:
        return 0
    return int(found.group(1)) if found and found.group(2) == digest else 0


def _short(name: str) -> str:
    """The name, as far as a commit's text can have it."""
    letters: List[str] = [each if each.isprintable() else "?" for each in name.encode(errors="replace").decode()]
    short = "".join(letters)[:_NAME]
    while len(short.encode()) > _NAME:
        short = short[:-1]
    return short
