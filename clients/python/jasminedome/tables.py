"""Files of items, read row by row with the line of each, and what their columns hold."""

from __future__ import annotations

import csv
import itertools
import json
import re
from collections import Counter
from dataclasses import dataclass, field
from typing import TYPE_CHECKING, Callable, Dict, Iterator, List, Optional, Tuple, Union

from .errors import UsageError
from .sources import Source

if TYPE_CHECKING:
    from _csv import _reader as CellReader

LABELS = "|"
"""What stands between the labels in a cell of a table."""

Row = Tuple[int, Union[str, Dict[str, object], UsageError]]
"""The line where a row begins, from 1, and what stands there: a JSON text, the cells by their column, or why neither."""

INTEGER = re.compile(r"-?(0|[1-9][0-9]{0,18})\Z", re.ASCII)
"""A cell that is an integer. One with zeros in front is a code of some kind, and stays a text."""

DECIMAL = re.compile(r"-?([0-9]{1,16})[.,]([0-9]{1,2})\Z", re.ASCII)
"""A cell that may be a price: it has one place or two behind a point or a comma."""

_OFTEN = 10_000  # rows between two calls that tell of progress
_TOLD = 20  # ids that come again which are told one by one
_SHOWN = 40  # characters of a value that are told
_SPACE = re.compile(r"[ \t\r\n]*")


@dataclass
class Column:
    """How many values of a column there are of each sort, and where the first of each stands.

    The sorts are "integer", "digits" (a cell), "decimal", "text", "list" and "other".
    """

    counts: Dict[str, int] = field(default_factory=Counter)
    firsts: Dict[str, Tuple[int, str]] = field(default_factory=dict)

    def note(self, line: int, value: object, has_json: bool) -> None:
        """Counts a value."""
        sort = _sort_of(value, has_json)
        self.counts[sort] += 1
        if sort not in self.firsts:
            shown = value if isinstance(value, str) else json.dumps(value, ensure_ascii=False)
            self.firsts[sort] = (line, shown[:_SHOWN])

    @property
    def total(self) -> int:
        """How many values there are."""
        return sum(self.counts.values())

    @property
    def numbers(self) -> int:
        """How many of them are numbers, whole or not."""
        return self.counts["integer"] + self.counts["digits"] + self.counts["decimal"]

    @property
    def kind(self) -> str:
        """The kind of a field that takes most of the values. A cell of digits may be a number or a text."""
        taken = {
            "number": self.counts["integer"] + self.counts["digits"],
            "facet": self.counts["list"],
            "text": self.counts["text"] + self.counts["digits"] + self.counts["decimal"],
        }
        return max(taken, key=taken.__getitem__) if any(taken.values()) else "text"

    @property
    def odd(self) -> Optional[Tuple[int, str]]:
        """Where most values are numbers, the first that is no integer; None where it is plain what the column is.

        In lines of JSON a text among integers is plain: it is refused with its line.
        """
        is_mixed = self.counts["decimal"] or (self.counts["digits"] and self.counts["text"])
        if not is_mixed or 2 * self.numbers <= self.total:
            return None
        return min(self.firsts[sort] for sort in ("decimal", "text", "list", "other") if sort in self.firsts)


@dataclass
class Ids:
    """The ids of a column, and those that come again: how many, and the first of them with their lines."""

    count: int = 0
    told: List[Tuple[str, int, int]] = field(default_factory=list)
    seen: Dict[str, int] = field(default_factory=dict)

    def note(self, line: int, value: object) -> None:
        """Counts an id, and remembers it by the line of its first."""
        id = str(value)
        first = self.seen.setdefault(id, line)
        if first != line:
            self.count += 1
            if len(self.told) < _TOLD:
                self.told.append((id, first, line))


class Table:
    """The rows of a source, and what its columns hold."""

    def __init__(self, source: Source) -> None:
        self.source = source
        self.has_json = source.form in ("jsonl", "json")
        self.ids: Dict[str, Ids] = {}

    def rows(self) -> Iterator[Row]:
        """Every row but the empty ones. Raises UsageError where a table's first line names no columns, or a file of one
        array isn't one, and OSError.
        """
        if self.source.form == "jsonl":
            return self._line_rows()
        return self._array_rows() if self.source.form == "json" else self._cell_rows()

    def columns(self, progress: Callable[[], object] = lambda: None, id_column: Optional[str] = None) -> Dict[str, Column]:
        """The columns and what they hold, by a reading of all rows. Raises what `rows` does.

        `ids` then has the ids of the column that is named, or else of each that is called id in any case.
        """
        columns = {} if self.has_json else {name: Column() for name in self._reader()[0] if name}
        for count, (line, row) in enumerate(self.rows()):
            for name, value in _members(row):
                columns.setdefault(name, Column()).note(line, value, self.has_json)
                if name == id_column or (id_column is None and name.lower() == "id"):
                    self.ids.setdefault(name, Ids()).note(line, value)
            if count % _OFTEN == 0:
                progress()
        return columns

    def _line_rows(self) -> Iterator[Row]:
        for number, line in enumerate(self.source.lines(), 1):
            text = line.strip(" \t\r\n")
            if text:
                yield number, text

    def _array_rows(self) -> Iterator[Row]:
        """The values of one array, each on a line of its own; the whole text is in memory."""
        text = "".join(self.source.lines())
        decoder, line, counted = json.JSONDecoder(), 1, 0
        try:
            at, is_more = _opened(text)
            while is_more:
                line += text.count("\n", counted, at)
                counted = at
                end = decoder.raw_decode(text, at)[1]
                # A line feed of a JSON text is a space between two words of it: none can stand within one.
                yield line, text[at:end].replace("\n", " ").replace("\r", " ")
                at, is_more = _next(text, end)
        except (ValueError, RecursionError) as error:
            raise UsageError(f"{self.source.name}: no array of JSON: {error}") from None

    def _cell_rows(self) -> Iterator[Row]:
        header, reader = self._reader()
        while True:
            begun = reader.line_num + 1
            try:
                cells = [cell.strip() for cell in next(reader)]
            except StopIteration:
                return
            except csv.Error as error:
                yield begun, UsageError(f"no row of cells: {error}")
                continue
            if any(cells[len(header) :]):
                yield begun, UsageError(f"{len(cells)} cells under {len(header)} columns")
            elif any(cell for name, cell in zip(header, cells) if not name):
                yield begun, UsageError("a cell stands under a column without a name")
            elif any(cells):
                yield begun, {name: cell for name, cell in zip(header, cells) if cell}

    def _reader(self) -> "Tuple[List[str], CellReader]":
        """The names of the columns, and a reader of the rows below them."""
        lines = self.source.lines()
        first = next(lines, "")
        delimiter = "\t" if self.source.form == "tsv" else max(",;\t", key=first.count)
        reader = csv.reader(itertools.chain([first], lines), delimiter=delimiter, strict=True)
        try:
            header: List[str] = [name.strip() for name in next(reader, [])]
        except csv.Error as error:
            raise UsageError(f"{self.source.name}, line 1: {error}") from None
        twice = [name for name, count in Counter(header).items() if name and count > 1]
        if twice:
            raise UsageError(f"{self.source.name}, line 1: two columns have the name {twice[0]}")
        return header, reader


def _opened(text: str) -> Tuple[int, bool]:
    """Where the first value of an array begins, and whether there is one."""
    at = _skipped(text, 0)
    if text[at : at + 1] != "[":
        raise ValueError(f"it begins with {text[at : at + 1]!r}, and not with '['")
    at = _skipped(text, at + 1)
    if text[at : at + 1] == "]":
        _ended(text, at)
        return at, False
    return at, True


def _next(text: str, end: int) -> Tuple[int, bool]:
    """Where the value behind the one that ends here begins, and whether there is one."""
    at = _skipped(text, end)
    if text[at : at + 1] == "]":
        _ended(text, at)
        return at, False
    if text[at : at + 1] != ",":
        raise ValueError(f"a comma or ']' is missing at character {at}")
    return _skipped(text, at + 1), True


def _ended(text: str, at: int) -> None:
    if _skipped(text, at + 1) != len(text):
        raise ValueError(f"something stands behind its end, at character {at + 1}")


def _skipped(text: str, at: int) -> int:
    found = _SPACE.match(text, at)
    assert found is not None
    return found.end()


def _members(row: Union[str, Dict[str, object], UsageError]) -> Iterator[Tuple[str, object]]:
    if isinstance(row, str):
        try:
            row = json.loads(row)
        except (ValueError, RecursionError):
            return  # the program refuses it
    if isinstance(row, dict):
        yield from ((name, value) for name, value in row.items() if value is not None)


def _sort_of(value: object, has_json: bool) -> str:
    if isinstance(value, str):
        if not has_json and INTEGER.match(value) and -(2**63) <= int(value) < 2**63:
            return "digits"
        return "decimal" if not has_json and DECIMAL.match(value) else "text"
    if isinstance(value, bool):
        return "other"
    if isinstance(value, int):
        return "integer"
    if isinstance(value, float):
        return "decimal"
    return "list" if isinstance(value, list) else "other"
