"""A log and its replicas with the calls of one catalogue, as the HTTP service makes them."""

from __future__ import annotations

import threading
import time
from typing import Dict, Iterable, Iterator, List, Optional, Union

from ..errors import JasminedomeError, Refusal, Timeout
from ..lines import text
from ..putting import Item, explained
from ..query import Query
from .batches import MAX_BATCH, Delete, DeleteWhere, Put, Write, line_of
from .errors import NotTold, WrongBatch
from .log import Log
from .shelves import ShelfView, Shelves

PATIENCE = 20.0
"""For how many seconds a write waits to be told what became of it, where nothing else is said."""

_LINES = 500  # of one batch
_PULSE = 1.5  # seconds in which replicas make a mark, where they make any
_TURN = 0.05  # seconds between two looks whether it is there


class LoggedCatalogue:
    """What is written goes into a log, and what is read comes from its replicas. Any thread may call.

    A write is answered once a replica has told what became of it, by its position in the log, and lasts then. Beside what
    is named a call raises LogUnreachable, LogRefused, LogBehind, NoReplica, and Timeout where no replica tells in time:
    then the write stands in the log, and will be done.
    """

    def __init__(self, log: Log, shelves: Shelves, patience: float = PATIENCE) -> None:
        """Appends a first anchor to a log in which nothing stands, so that it can be opened."""
        self._log = log
        self._shelves = shelves
        self._patience = patience
        self._marking = threading.Lock()
        head = log.head()
        self.fields: Dict[str, str] = head.fields
        if head.position == 0:
            log.refresh(keep=True)

    # Reading

    def open(self, token: Optional[str] = None) -> ShelfView:
        """The newest view that lasts, or the one of a token. Raises TokenLost."""
        return self._shelves.open(token)

    def show(self) -> str:
        """Waits until everything is shown that the log has, and answers the token of that, which lasts for the next 8 marks.

        Replicas make a mark each second, and only where they don't is one made for this: else whoever wants each write
        shown would have the tokens of all others go.
        """
        end, until = self._log.head().position, time.monotonic() + _PULSE
        while time.monotonic() < until:
            stamp = self._shown(end)
            if stamp is not None:
                return stamp
            time.sleep(_TURN)
        with self._marking:  # whoever waits here finds the mark of the one before
            return self._shown(end) or self._shelves.open(after=self._log.refresh(), is_lasting=False).token

    def _shown(self, position: int) -> Optional[str]:
        newest = self._shelves.newest(is_lasting=False)
        return newest.stamp if newest.position >= position else None

    # Writing

    def put(self, item: Item) -> int:
        """Puts an item. Raises what `Catalogue.put` raises."""
        try:
            return self._write(Put(item))
        except Refusal as refused:
            raise explained(refused, item, self.fields) from None

    def delete(self, id: str) -> int:
        """Takes an item out. Raises BadId."""
        return self._write(Delete(id))

    def delete_where(self, query: Union[str, Query]) -> int:
        """Takes out what the query matches there. Raises BadQuery, before anything is appended."""
        self.open().find(query, count=0)
        return self._write(DeleteWhere(query))

    def say_many(self, lines: Iterable[str]) -> List[Union[int, JasminedomeError]]:
        """Appends writes in order, in batches, and answers for each its position or why it wasn't done."""
        told: List[Union[int, JasminedomeError]] = []
        fit: List[str] = []
        places: List[int] = []
        for each in lines:
            try:
                fit.append(line_of(text(each, "the line")))
                places.append(len(told))
                told.append(0)
            except WrongBatch as error:
                told.append(error)
        for place, became in zip(places, self._append(fit)):
            told[place] = became
        return told

    def lasts(self) -> int:
        """The position of the log: what was written up to there lasts, whatever program or machine ends."""
        return self._log.head().position

    def _write(self, write: Write) -> int:
        told, *_ = self._append([line_of(write)])
        if isinstance(told, JasminedomeError):
            raise told
        return told

    def _append(self, lines: List[str]) -> Iterator[Union[int, JasminedomeError]]:
        batches = [(self._log.append(some), some) for some in _parted(lines)]
        for position, some in batches:
            try:
                refused = self._log.outcome(position, self._patience).refused
            except NotTold:
                raise Timeout(self._patience, was_sent=True) from None
            yield from (refused.get(line, position) for line in range(len(some)))


def _parted(lines: List[str]) -> Iterator[List[str]]:
    """The lines in batches that a log may hold."""
    some: List[str] = []
    size = 0
    for line in lines:
        added = len(line.encode()) + 1
        if some and (len(some) == _LINES or size + added > MAX_BATCH):
            yield some
            some, size = [], 0
        some.append(line)
        size += added
    if some:
        yield some
