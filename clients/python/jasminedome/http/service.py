"""A catalogue that is served: its views, its writes, and the thread that shows, commits and merges what was written."""

from __future__ import annotations

import contextlib
import json
import logging
import threading
import time
from typing import Any, Callable, Dict, Iterator, List, Mapping, Optional, Sequence, TypeVar, Union

from ..closing import Closing
from ..errors import BadQuery, JasminedomeError, ProgramEnded, Refusal, TokenGone, UsageError
from ..lines import line, text
from ..putting import explained, item_text
from ..query import Query
from ..stats import Stat
from .calls import KeeperCalls, ReaderCalls, SharedCalls, ViewCalls, WriterCalls
from .problems import Problem, problem_of, wrong
from .searching import Search, narrows, search_of
from .settings import Settings
from .views import Clock, Views

T = TypeVar("T")

_LOOK = 5.0  # seconds between two looks at whether the program is there, where nothing is written
_LONGEST_SESSION = "9999"
_FIRST_PAUSE, _LONGEST_PAUSE = 0.1, 5.0  # seconds until what failed is tried again

log = logging.getLogger("jasminedome.http")


class Service(Closing):
    """A catalogue with the views that visitors hold. Any thread may call; a context manager, which closes it.

    A thread of its own makes views of what is written, commits it and keeps the folder in order. No visitor waits for
    these but for the one line that the program is at. The catalogue is the caller's to close, behind this.

    A catalogue that has no calls to write is read alone, unless there is a `writer` beside it; and one that doesn't
    record and commit when it is told to is looked at anew every `show_every` seconds. Where it has the calls of
    `SharedCalls`, it is asked to show what was written, and to tell that it lasts.
    """

    def __init__(
        self,
        catalogue: ReaderCalls,
        settings: Settings = Settings(),
        clock: Clock = time.monotonic,
        writer: Optional[WriterCalls] = None,
    ) -> None:
        """Raises UsageError where the settings name fields that aren't there, and what `refresh` and `open` raise."""
        self.catalogue = catalogue
        self._writer = writer or (catalogue if isinstance(catalogue, WriterCalls) else None)
        self._keeper = catalogue if isinstance(catalogue, KeeperCalls) else None
        self._shared = catalogue if isinstance(catalogue, SharedCalls) else None
        self.settings = settings
        self._fields = catalogue.fields
        self.searched = settings.searched(self._fields)
        self.views = Views(catalogue, settings.show_every, settings.most_views, settings.oldest, clock)
        self.failures = 0
        """How many turns of the upkeep met an error."""
        self.committed: Optional[float] = None
        """When the last commit was made, in seconds since 1970; None before the first."""
        self._clock = clock
        self._committing = threading.RLock()
        self._begun = self._done = 0  # how many commits were begun, and the number of the last that was made
        self._generation = 0
        self._unshown = False
        self._uncommitted: Optional[float] = None  # when the first of it was written
        self._is_written = threading.Event()
        self._is_closed = threading.Event()
        self._ended = threading.Event()
        turns = self._keep if self._keeper is not None else self._look
        self._upkeep = threading.Thread(target=turns, name="jasminedome upkeep", daemon=True)
        self._upkeep.start()

    def close(self) -> None:
        """Ends the upkeep and commits what wasn't committed. A second call does nothing. Raises what `commit` raises."""
        if self._is_closed.is_set():
            return
        self._is_closed.set()
        self._is_written.set()
        self._upkeep.join()
        if self._uncommitted is not None and self._keeper is not None:
            self.commit("served to its end")

    @property
    def is_open(self) -> bool:
        """Whether it isn't closed, and its program hasn't ended as far as is known."""
        return not self._is_closed.is_set() and not self._ended.is_set()

    @property
    def is_shared(self) -> bool:
        """Whether the catalogue is shown and kept for others too."""
        return self._shared is not None

    def wait_for_end(self, seconds: Optional[float] = None) -> bool:
        """Waits until the program has ended by itself, for so many seconds at most; answers whether it has."""
        return self._ended.wait(seconds)

    def noticed(self, error: Exception) -> None:
        """Takes note of an exception that a call raised, where it tells that the program has ended."""
        if isinstance(error, ProgramEnded):
            self._ended.set()

    # Reading

    def search(self, asked: object, stamp: Optional[str] = None) -> Dict[str, object]:
        """What a search of JSON is answered, under the view of a stamp or the newest one; `token` tells which it was.

        Raises Gone, Problem, and what `View.find`, `facets` and `get` raise.
        """
        search = asked if isinstance(asked, Search) else self.search_of(asked)

        def answer(view: ViewCalls) -> Dict[str, object]:
            return {"token": self.views.stamp(view.token), "newest": self.views.newest, **search.answer(view)}

        try:
            return self._read(stamp, answer)
        except BadQuery as error:  # its place is in what was made of all parts, so this is told beside it
            problem = problem_of(error)
            problem.more["query"] = search.narrowed().text
            raise problem from None

    def search_of(self, asked: object) -> Search:
        """The search that is asked for in JSON. Raises Problem and UsageError."""
        return search_of(asked, self.searched, self.settings.folding is not None)

    def view(self, stamp: Optional[str] = None) -> ViewCalls:
        """The view of a stamp, or the newest one. Raises Gone."""
        return self.views.get(stamp)

    def source(self, id: str, stamp: Optional[str] = None) -> Optional[str]:
        """The text of an item in that view; None where it has none. Raises Gone, and what `View.source` raises."""
        return self._read(stamp, lambda view: view.source(id))

    def _read(self, stamp: Optional[str], read: Callable[[ViewCalls], T]) -> T:
        """What is read of a view. Raises Gone where it is lost since, as one may be that others hold."""
        view = self.views.get(stamp)
        try:
            return read(view)
        except TokenGone:
            self.views.drop(view)
            if stamp is not None:
                raise self.views.lost(stamp) from None
            return read(self.views.get())

    def stat(self) -> Optional[Stat]:
        """How the catalogue stands; None where it doesn't tell, but answers. Raises what `Catalogue.stat` raises."""
        if self._keeper is None:
            self.catalogue.open().close()
            return None
        return self._keeper.stat()

    # Writing

    def put(self, item: Mapping[str, Any]) -> int:
        """Puts an item; answers the write's number. Raises what `Catalogue.put` raises."""
        with self._writing():
            return self._written_by().put(self._folded(item))

    def delete(self, id: str) -> int:
        """Takes an item out; answers the write's number. Raises what `Catalogue.delete` raises."""
        with self._writing():
            return self._written_by().delete(id)

    def delete_where(self, asked: Union[Query, object]) -> int:
        """Takes out what a query matches, or what a search's words, query and filters match together.

        Raises Problem where it says nothing of what goes, and what `Catalogue.delete_where` raises.
        """
        if not isinstance(asked, Query):
            if not narrows(asked):
                raise wrong("a delete says by words, query or filters what goes, and nothing else; \"*:*\" is everything")
            asked = self.search_of(asked).narrowed()
        with self._writing():
            return self._written_by().delete_where(asked)

    def write_many(self, items: Sequence[Mapping[str, Any]]) -> "List[Union[int, JasminedomeError]]":
        """Puts items in order, or takes out what `{"delete": id}` names; answers for each its number or why it isn't done.

        Raises ProgramEnded and Timeout: then it isn't known which of them were done.
        """
        told: "List[Union[int, JasminedomeError]]" = []
        lines: List[str] = []
        places: List[int] = []
        for place, item in enumerate(items):
            try:
                lines.append(self._line(item))
                places.append(place)
                told.append(0)
            except UsageError as error:
                told.append(error)
        with self._writing():
            answers = self._written_by().say_many(lines)
        for place, answer in zip(places, answers):
            told[place] = explained(answer, items[place], self._fields) if isinstance(answer, Refusal) else answer
        return told

    def keep(self) -> int:
        """Commits what was written until now, in one commit with all who ask meanwhile; answers its number.

        Raises what `Catalogue.commit` raises.
        """
        if self._shared is not None:
            return self._shared.lasts()
        wanted = self._begun + 1
        with self._committing:
            if self._done >= wanted:  # somebody's commit began after this call
                return self._generation
            return self.commit("kept")

    def commit(self, text: str = "") -> int:
        """Commits what was written; answers the commit's number. Raises what `Catalogue.commit` raises."""
        if self._shared is not None and not text:
            return self._shared.lasts()
        keeper = self._kept_by()
        with self._committing:
            self._begun += 1
            before, self._uncommitted = self._uncommitted, None  # what is written from here on isn't in it
            try:
                self._generation = keeper.commit(text)
            except BaseException:
                self._uncommitted = before if before is not None else self._clock()
                raise
            self.committed = time.time()
            self._done = self._begun
            return self._generation

    def show(self) -> str:
        """Waits until a view has what was written, which is made as soon as it may; answers the newest one's stamp.

        Of a catalogue of `SharedCalls` it is the stamp of the view that was asked for. Raises what `Catalogue.refresh` raises.
        """
        if self._shared is not None:
            return self.views.stamp(self._shared.show())
        self._kept_by()
        wanted = self.views.next
        while not self.shows(wanted):
            if self._is_closed.wait(self.views.wait()):
                raise UsageError("the service is closed")
        return self.views.newest

    def shows(self, number: int) -> bool:
        """Whether the view of this number (`Views.next`) is there; makes it where it may be made now."""
        self._kept_by()
        return self.views.has(number) or (self.views.make() and self.views.has(number))

    def _line(self, item: Mapping[str, Any]) -> str:
        if set(item) == {"delete"}:
            id = item["delete"]
            said = f"DEL {text(id, 'the id')}"
        else:
            said = f"PUT {item_text(self._folded(item))}"
        line(f"{_LONGEST_SESSION} {said}")  # what can't be said is told by itself, and the others are said
        return said

    def _folded(self, item: Mapping[str, Any]) -> Mapping[str, Any]:
        return item if self.settings.folding is None else self.settings.folding.apply(item)

    @contextlib.contextmanager
    def _writing(self) -> Iterator[None]:
        """Around a write: has it shown and committed, also where it isn't known whether it was done."""
        try:
            yield
        except (Refusal, UsageError, Problem):  # nothing was changed
            raise
        except BaseException:
            self._note()
            raise
        self._note()

    def _note(self) -> None:
        self._unshown = True
        if self._uncommitted is None:
            self._uncommitted = self._clock()
        self._is_written.set()

    def _written_by(self) -> WriterCalls:
        if self._writer is None:
            raise Problem(409, "ReadAlone", "this catalogue is written elsewhere")
        return self._writer

    def _kept_by(self) -> KeeperCalls:
        if self._keeper is None:
            raise Problem(409, "KeptElsewhere", "this catalogue is shown and committed elsewhere")
        return self._keeper

    # Upkeep

    def _look(self) -> None:
        """Has the newest view of a catalogue that is shown by others."""
        while not self._is_closed.wait(max(0.05, self.views.wait())):
            try:
                self.views.make()
            except JasminedomeError as error:
                log.error("no newer view: %s", error)
                self.failures += 1

    def _keep(self) -> None:
        pause = _FIRST_PAUSE
        while True:
            is_written = self._is_written.wait(_LOOK)
            self._is_written.clear()
            if self._is_closed.wait(self._due()):
                return
            try:
                if is_written:
                    self._turn()
                else:
                    self.stat()  # whether the program is there
            except (ProgramEnded, UsageError) as error:
                log.error("the program has ended: %s", error)
                self.failures += 1
                self._ended.set()
                return
            except JasminedomeError as error:
                log.error("upkeep: %s", error)
                self.failures += 1
                if self._is_closed.wait(pause):
                    return
                pause = min(2 * pause, _LONGEST_PAUSE)
            else:
                pause = _FIRST_PAUSE
            if self._unshown or self._uncommitted is not None:
                self._is_written.set()

    def _due(self) -> float:
        """The seconds until something is to be done of what was written."""
        waits = [self.views.wait()] if self._unshown else []
        since = self._uncommitted
        if since is not None:
            waits.append(max(0.0, since + self.settings.commit_every - self._clock()))
        return min(waits, default=0.0)

    def _turn(self) -> None:
        if self._unshown and self.views.wait() == 0:
            self._unshown = False
            try:
                self.views.make()
            except JasminedomeError:
                self._unshown = True
                raise
            self._kept_by().upkeep()
        since = self._uncommitted
        if since is not None and since + self.settings.commit_every <= self._clock():
            self.commit("served")


def parsed(text: "Union[str, bytes]") -> Any:
    """The value of a JSON text, as strict as JSON is. Raises ValueError."""
    return json.loads(text, parse_constant=_no_number)


def _no_number(name: str) -> float:
    raise ValueError(f"{name} is no number of JSON")
