"""Loads a file of items into a log: what `python -m jasminedome log load` does."""

from __future__ import annotations

import os
import time
import uuid
from array import array
from dataclasses import dataclass
from itertools import islice
from typing import Callable, Dict, List, Mapping, Optional, Tuple, Union

from ..errors import JasminedomeError, UsageError
from ..loading import RefusedLine, Rows, load_digest, told_by
from ..plans import Plan, planned
from ..sources import Source
from ..tables import Ids, Table
from .batches import Mark, Put, line_of
from .errors import NotTold
from .log import Log

_ITEMS = 500  # of one batch
_WAITS = 30.0  # seconds for a replica that tells what was refused


@dataclass(frozen=True)
class Appended:
    """What a load appended: how many items, up to which position, and what replicas have told of them.

    `before` of the items were there already, since the same load was said before. `refused` are the lines that were refused
    here or by replicas, and `is_told` says whether one had applied all of it by then. Times are in seconds. `repeated` and
    `repeats` are as `Loaded` has them.
    """

    plan: Plan
    count: int
    before: int
    position: int
    refused: Tuple[RefusedLine, ...]
    is_told: bool
    seconds: float
    repeated: int
    repeats: Tuple[Tuple[str, int, int], ...]


def load(
    path: Union[str, "os.PathLike[str]"],
    log: Log,
    fields: Optional[Mapping[str, str]] = None,
    id_column: Optional[str] = None,
    progress: Optional[Callable[[int, int, int], object]] = None,
    form: Optional[str] = None,
    encoding: Optional[str] = None,
    patience: float = _WAITS,
    again: bool = False,
) -> Appended:
    """Appends the items of a file to a log, in batches of 500, and an anchor behind them; waits for a replica to apply it.

    Arguments are those of the load into a folder; the fields are the log's. Each batch has a key of the file's bytes, so
    that the same load said again, after it was stopped or not, appends nothing twice, unless it is said `again`. Raises
    what the load into a folder does of the file, and what `Log.append` raises.
    """
    begun = time.monotonic()
    with Source(path, form, encoding) as source:
        table = Table(source)
        told = told_by(source, progress)
        columns = table.columns(lambda: told(0), id_column)
        plan = planned(columns, fields or {}, log.fields, id_column)
        rows = Rows(table, plan, columns, 0)
        key = f"load {load_digest(table, plan)}" + (f" {uuid.uuid4().hex}" if again else "")
        work = _Work(log, rows, key, told)
        work.run()
    refused, is_told = work.refused(patience)
    ids = table.ids.get(plan.id_column, Ids())
    took = time.monotonic() - begun
    return Appended(plan, work.count, work.before, work.last, refused, is_told, took, ids.count, tuple(ids.told))


class _Work:
    """One load: its batches, and which lines of the file are in each."""

    def __init__(self, log: Log, rows: Rows, key: str, progress: Callable[[int], None]) -> None:
        self._log = log
        self._rows = rows
        self._key = key
        self._progress = progress
        self._lines: "Dict[int, array[int]]" = {}
        self._unfit: Dict[int, JasminedomeError] = {}
        self.count = 0
        self.before = 0
        self.last = 0

    def run(self) -> None:
        """Appends everything."""
        begun_at = self._log.head().position
        items = self._rows.items()
        number = 0
        while True:
            taken, kept, lines = 0, array("q"), []
            for item in islice(items, _ITEMS):
                taken += 1
                line = self._rows.lines[-1]
                try:
                    lines.append(line_of(Put(item)))
                    kept.append(line)
                except UsageError as error:
                    self._unfit[line] = error
            if not taken:
                break
            self.last = self._log.append(lines, key=f"{self._key} {number}")
            self._lines[self.last] = kept
            self.count += len(lines)
            self.before += len(lines) if self.last <= begun_at else 0
            number += 1
            self._progress(self.count)
        if self._lines:
            self._log.append([], Mark.ANCHOR, key=f"{self._key} shown")

    def refused(self, patience: float) -> "Tuple[Tuple[RefusedLine, ...], bool]":
        """The lines that were refused, as far as it is told, and whether some replica has applied all of it."""
        errors: Dict[int, JasminedomeError] = {**self._rows.refused, **self._unfit}
        is_told = True
        if self._lines:
            try:
                self._log.outcome(self.last, patience)
            except NotTold:
                is_told = False
            for (position, place), error in self._log.refused_in(min(self._lines), self.last).items():
                if position in self._lines:
                    errors[self._lines[position][place]] = error
        found: List[RefusedLine] = [RefusedLine(line, error) for line, error in sorted(errors.items())]
        return tuple(found), is_told
