"""A view: the catalogue under one token, which no later write changes."""

from __future__ import annotations

import weakref
from typing import TYPE_CHECKING, Any, Callable, Deque, Dict, Iterable, Iterator, List, Mapping, Optional, Tuple, Union

from .answers import Facets, Hit, Page
from .closing import Closing
from .errors import UsageError
from .lines import number
from .questions import Question, QueryText, T, facets_of, item_of, page_of, source_of

if TYPE_CHECKING:
    from .catalogue import Catalogue


class Reads:
    """What can be read under one token: the calls that every view has, wherever it is asked."""

    _under: str
    """The token, as a line spells it."""

    def find(
        self, query: QueryText = "*:*", sort: Optional[str] = None, after: Optional[int] = None, count: int = 20
    ) -> Page:
        """The first `count` (0 to 1,000) items that the query matches, behind the record numbered `after` if given.

        `sort` is "+field" or "-field", rising or falling by a number or keyword field; None is the order of addition.
        Raises BadQuery with the fault's place, TooMany, NotSortable, BadMark (`after` is no record of this view),
        OutOfMemory, and UsageError where an argument has no form.
        """
        return self._answer(page_of(query, sort, after, count))

    def pages(self, query: QueryText = "*:*", sort: Optional[str] = None, count: int = 20) -> Iterator[Page]:
        """All pages of `count` items (1 to 1,000), one after another, of this view; none where nothing matches.

        Raises what `find` does, as it goes.
        """
        if number(count, "the count") == 0:
            raise UsageError("a page has 1 item or more")
        return self._pages(query, sort, count)

    def _pages(self, query: QueryText, sort: Optional[str], count: int) -> Iterator[Page]:
        after = None
        while True:
            page = self.find(query, sort, after, count)
            if page.hits:
                yield page
            if len(page.hits) < count:
                return
            after = page.hits[-1].number

    def facets(self, field: str, query: QueryText = "*:*", count: int = 20) -> Facets:
        """The `count` (0 to 1,000) commonest labels of the field among the items that the query matches.

        By falling count, ties by bytes. Raises BadQuery, NotFacet, TooMany, OutOfMemory, and UsageError where an
        argument has no form.
        """
        return self._answer(facets_of(field, query, count))

    def facets_many(self, fields: Iterable[str], query: QueryText = "*:*", count: int = 20) -> Dict[str, Facets]:
        """The counts of several fields for one query, asked in one write; by the field. Raises what `facets` does."""
        names = list(_names(fields))
        return dict(zip(names, self.answers(*(facets_of(name, query, count) for name in names))))

    def source(self, id: str) -> Optional[str]:
        """The JSON text that the item came as, or None where the view has no such item.

        Raises BadId, DeviceFailed, Damaged, OutOfMemory, and UsageError where the id can't stand in a line.
        """
        return self._answer(source_of(id))

    def get(self, id: str) -> Optional[Dict[str, Any]]:
        """The item, or None where the view has no such one. Raises what `source` does."""
        return self._answer(item_of(id))

    def get_many(self, ids: Iterable[Union[str, Hit]]) -> List[Optional[Dict[str, Any]]]:
        """The items of these ids, or of a page's hits, asked in one write; None for one that isn't there.

        `view.get_many(page)` are the items of a page, in its order. Raises what `source` does.
        """
        return self.answers(*(item_of(each) for each in _names(ids)))

    def sources(self, ids: Iterable[Union[str, Hit]]) -> List[Optional[str]]:
        """The texts of these items as they were put, as `get_many` has the items. Raises what `source` does."""
        return self.answers(*(source_of(each) for each in _names(ids)))

    def answers(self, *questions: "Question[Any]") -> List[Any]:
        """The answers to questions (`jasminedome.questions`), all of them asked in one write, in their order.

        Raises the first of what they are refused by.
        """
        told = self._ask_many((each.line(self._under), each.more) for each in questions)
        return [each.read(lines) for each, lines in zip(questions, told)]

    def _answer(self, question: "Question[T]") -> T:
        return question.read(self._ask(question.line(self._under), question.more))

    def _ask(self, asked: str, more: Callable[[str], int] = lambda _: 0) -> List[str]:
        raise NotImplementedError

    def _ask_many(self, asked: "Iterable[Tuple[str, Callable[[str], int]]]") -> List[List[str]]:
        raise NotImplementedError


class View(Closing, Reads):
    """The catalogue after `token` writes, held until it is closed; `Catalogue.open` makes it.

    A context manager. Any thread may read from it. One that is forgotten is closed at the next call of the catalogue.
    Reads raise UsageError once it is closed, and ProgramEnded where the program is gone, beside what they name.
    """

    def __init__(self, catalogue: "Catalogue", session: int, token: int, left: "Deque[Tuple[int, int]]") -> None:
        self._catalogue = catalogue
        self._session = session
        self.token = token
        self._under = str(token)
        # A finalizer runs anywhere, even in a thread that is sending: it notes what to close, and sends nothing.
        self._forget = weakref.finalize(self, left.append, (session, token))
        self._forget.atexit = False

    def __repr__(self) -> str:
        return f"<View of token {self.token}{'' if self._forget.alive else ', closed'}>"

    def close(self) -> None:
        """Ends the hold; a second call does nothing, nor does a call once the program has ended."""
        if self._forget.alive:
            self._forget()
            self._catalogue.close_left()

    def files(self) -> List[str]:
        """The names of the files that the view needs, in byte order. Raises OutOfMemory."""
        return self._ask(f"FILES t {self.token}", int)[1:]

    def _ask(self, asked: str, more: Callable[[str], int] = lambda _: 0) -> List[str]:
        return self._open().ask(asked, more, session=self._session)

    def _ask_many(self, asked: "Iterable[Tuple[str, Callable[[str], int]]]") -> List[List[str]]:
        return self._open().ask_many(asked, session=self._session)

    def _open(self) -> "Catalogue":
        if not self._forget.alive:
            raise UsageError("the view is closed")
        return self._catalogue


def _names(given: Iterable[Any]) -> Iterable[Any]:
    if isinstance(given, (str, bytes, Mapping)) or not isinstance(given, Iterable):
        raise UsageError(f"{given!r:.200} is no list")
    return given
