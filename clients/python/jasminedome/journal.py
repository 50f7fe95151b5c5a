"""A catalogue with a journal: every write lasts before it is answered, and what wasn't committed is said again."""

from __future__ import annotations

import re
import threading
from collections import deque
from dataclasses import dataclass, field
from pathlib import Path
from typing import ContextManager, Deque, Iterable, List, Mapping, Optional, Tuple, Union

from .catalogue import Catalogue
from .closing import Closing
from .errors import BadReply, JasminedomeError, NoCommit, Refusal, Timeout, UsageError, fresh
from .journal_files import JournalFiles
from .lines import line, text
from .putting import BATCH, Item, Told, explained, item_text, write_line
from .query import Query, query_text
from .starting import Folder, folder_path
from .stats import Snapshot, Stat
from .view import View

_MARK = re.compile(r"(?:^| )\[journal ([0-9a-f]{16}) (0|[1-9][0-9]{0,18})\]\Z")
_BY_CHANCE = (16, 30, 40)  # refusals that tell of the time and not of the line: said again it may be accepted
_SKIP = "SKIP "
_LONGEST_SESSION = "9999"


@dataclass(eq=False)
class _Said:
    """Lines of one call, and what became of them."""

    lines: List[str]
    told: List[Told] = field(default_factory=list)
    error: Optional[JasminedomeError] = None
    is_done: bool = False


class Journal(Closing):
    """A catalogue of a folder whose every write is in a journal first; a context manager, which closes the journal.

    It has the calls of `Catalogue` that its readers and writers need, and all writes have to go through it. Any thread
    may call; writes go one after another, since the journal has them in the order in which the program has them, and
    those of threads that wait go together, with one wait for the disk. A commit is marked with the place of the journal
    up to which it goes, and what comes before goes from the journal then. The catalogue is the caller's to close, behind
    this.
    """

    def __init__(self, catalogue: Catalogue, folder: Folder) -> None:
        """Opens the journal in this folder, which is made where there is none, and says again what the newest commit
        doesn't have.

        Raises UsageError where the journal isn't this catalogue's, or a commit was made past it; Damaged; FolderInUse;
        OSError; and what `say_many` and `refresh` raise.
        """
        path = folder_path(folder)
        if path is None or catalogue.folder is None:
            raise UsageError("a journal needs a folder, and so does its catalogue")
        if Path(path).resolve() == Path(catalogue.folder).resolve():
            raise UsageError("a journal can't be in the folder of its catalogue, where a sweep would delete it")
        self._catalogue = catalogue
        self._lock = threading.RLock()
        self._waiting: Deque[_Said] = deque()
        self._files = JournalFiles(Path(path))
        try:
            self.replayed = self._replay()
            """How many writes were said again."""
        except BaseException:
            self._files.close()
            raise

    def close(self) -> None:
        """Closes the journal. Nothing can be written then, and nothing is committed by this."""
        with self._lock:
            self._files.close()

    # Writes

    def put(self, item: Item) -> int:
        """As `Catalogue.put`; raises DeviceFailed too where the journal fails."""
        try:
            return self._say_one(f"PUT {item_text(item)}")
        except Refusal as refused:
            if refused.detail:
                raise
            raise explained(refused, item, self.fields) from None

    def delete(self, id: str) -> int:
        """As `Catalogue.delete`; raises DeviceFailed too where the journal fails."""
        return self._say_one(f"DEL {text(id, 'the id')}")

    def delete_where(self, query: Union[str, Query]) -> int:
        """As `Catalogue.delete_where`; raises DeviceFailed too where the journal fails."""
        return self._say_one(f"DELW {query_text(query)}")

    def say_many(self, lines: Iterable[str]) -> List[Told]:
        """As `Catalogue.say_many`, 512 lines with one wait for the disk; raises DeviceFailed where the journal fails."""
        said = list(lines)
        for each in said:
            line(f"{_LONGEST_SESSION} {write_line(each)}")  # what can't be said has no place in the journal
        told: List[Told] = []
        for start in range(0, len(said), BATCH):
            told += self._say(said[start : start + BATCH])
        return told

    def commit(self, text: str = "") -> int:
        """As `Catalogue.commit`, with a text of at most 200 bytes."""
        with self._lock:
            mark = f"[journal {self._files.id} {self._files.place}]"
            generation = self._catalogue.commit(f"{text} {mark}" if text else mark)
            self._files.forget()
            return generation

    # What goes past the journal

    @property
    def fields(self) -> Mapping[str, str]:
        """The catalogue's fields and their kinds."""
        return self._catalogue.fields

    @property
    def folder(self) -> Optional[str]:
        """The catalogue's folder."""
        return self._catalogue.folder

    def refresh(self) -> int:
        """As `Catalogue.refresh`."""
        return self._catalogue.refresh()

    def open(self, token: Optional[int] = None) -> View:
        """As `Catalogue.open`."""
        return self._catalogue.open(token)

    def prune(self, keep: int) -> int:
        """As `Catalogue.prune`."""
        return self._catalogue.prune(keep)

    def snapshot(self) -> ContextManager[Snapshot]:
        """As `Catalogue.snapshot`."""
        return self._catalogue.snapshot()

    def upkeep(self) -> Stat:
        """As `Catalogue.upkeep`."""
        return self._catalogue.upkeep()

    def stat(self) -> Stat:
        """As `Catalogue.stat`."""
        return self._catalogue.stat()

    # How

    def _say_one(self, said: str) -> int:
        told = self.say_many([said])[0]
        if isinstance(told, Refusal):
            raise told
        return told

    def _say(self, lines: List[str]) -> List[Told]:
        said = _Said(lines)
        self._waiting.append(said)
        with self._lock:  # whoever gets it says for those too who came meanwhile
            while not said.is_done:
                self._say_for(self._taken())
        if said.error is not None:
            raise fresh(said.error)
        return said.told

    def _taken(self) -> List[_Said]:
        """The next of those that wait, with as many lines as go at once."""
        taken = [self._waiting.popleft()]
        count = len(taken[0].lines)
        while self._waiting and count + len(self._waiting[0].lines) <= BATCH:
            taken.append(self._waiting.popleft())
            count += len(taken[-1].lines)
        return taken

    def _say_for(self, taken: List[_Said]) -> None:
        try:
            told = iter(self._say_all([line for each in taken for line in each.lines]))
            for each in taken:
                each.told = [next(told) for _ in each.lines]
        except JasminedomeError as error:
            for each in taken:
                each.error = error
        except BaseException as interrupt:
            for each in taken:
                each.error = BadReply(f"it isn't known whether it was done: {interrupt!r}")
            raise
        finally:
            for each in taken:
                each.is_done = True

    def _say_all(self, lines: List[str]) -> List[Told]:
        before = self._files.place
        self._files.add(lines)
        try:
            told = self._catalogue.say_many(lines)
        except Timeout as late:
            if not late.was_sent:
                self._skip(range(before + 1, before + len(lines) + 1))
            raise
        by_chance = (isinstance(each, Refusal) and each.number in _BY_CHANCE for each in told)
        self._skip([place for place, is_so in enumerate(by_chance, before + 1) if is_so])
        return told

    def _skip(self, places: Iterable[int]) -> None:
        """Notes that what stands at these places was not done, and isn't to be said again."""
        lines = [f"{_SKIP}{place}" for place in places]
        if lines:
            self._files.add(lines)

    def _replay(self) -> int:
        """Says again what the newest commit doesn't have; answers how many writes that were."""
        done = self._done()
        lines, self._files.lines = self._files.lines, []
        skipped = {int(each[len(_SKIP) :]) for each in lines if each.startswith(_SKIP)}
        placed = enumerate(lines, self._files.first + 1)
        again = [each for place, each in placed if place > done and place not in skipped and not each.startswith(_SKIP)]
        for start in range(0, len(again), BATCH):
            for told in self._catalogue.say_many(again[start : start + BATCH]):
                if isinstance(told, Refusal) and told.number in _BY_CHANCE:
                    raise told
        if again:
            self._catalogue.refresh()
        return len(again)

    def _done(self) -> int:
        """The place up to which the newest commit goes. Raises UsageError where the journal isn't its own."""
        found = self._marked()
        if found is None:
            return self._files.first
        id, place = found
        if self._files.place == self._files.first:  # no line is here
            self._files.go_on_from(place, id)
        if id != self._files.id or not self._files.first <= place <= self._files.place:
            raise UsageError("the journal isn't that of the folder's newest commit, or a part of it is missing")
        return place

    def _marked(self) -> Optional[Tuple[str, int]]:
        """The journal and the place that the newest commit is marked with; None where nothing was ever committed."""
        try:
            with self._catalogue.snapshot() as kept:
                note = self._catalogue.note(kept.generation)
        except NoCommit:
            if self._files.first:
                raise UsageError("the journal goes on from a commit, and the folder has none") from None
            return None
        found = _MARK.search(note)
        if found is not None:
            return found.group(1), int(found.group(2))
        if self._files.place > self._files.first:
            raise UsageError("the folder's newest commit was made past the journal, which has writes: nobody knows their order")
        mark = (self._files.id, self._files.place)
        self._catalogue.commit(f"[journal {mark[0]} {mark[1]}]")
        return mark
