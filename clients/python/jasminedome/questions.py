"""Questions to a view, so that many of them go out in one write: `view.answers(page_of(..), facets_of(..), ..)`.

Each function here makes one, of what the view's call for it alone takes. Raises UsageError where an argument has no form.
"""

from __future__ import annotations

import json
import re
from dataclasses import dataclass
from typing import Any, Callable, Dict, Generic, List, Optional, TypeVar, Union

from .answers import FacetCount, Facets, Hit, Page
from .errors import UsageError
from .lines import number, reading, text
from .query import Query, query_text

QueryText = Union[str, Query]
T = TypeVar("T")

_SORT = re.compile(r"[+-][a-z][a-z0-9_]{0,31}\Z")
_NAME = re.compile(r"[a-z][a-z0-9_]{0,31}\Z")


@dataclass(frozen=True)
class Question(Generic[T]):
    """One read of a view: its command, what stands behind the token, how many lines go on, and how the reply is read."""

    command: str
    rest: str
    more: Callable[[str], int]
    read: Callable[[List[str]], T]

    def line(self, token: str) -> str:
        """The line that asks it of a view."""
        return f"{self.command} {token} {self.rest}"


def page_of(
    query: QueryText = "*:*", sort: Optional[str] = None, after: Optional[int] = None, count: int = 20
) -> "Question[Page]":
    """A page of hits, as `View.find` has it."""
    if sort is not None and not _SORT.match(text(sort, "the sort")):
        raise UsageError(f"the sort {sort!r:.200} isn't + or - and a field")
    mark = "." if after is None else number(after, "the mark")
    rest = f"{number(count, 'the count')} {sort or '.'} {mark} {query_text(query)}"
    return Question("FIND", rest, _shown, _read_page)


def total_of(query: QueryText = "*:*") -> "Question[int]":
    """How many items the query matches."""
    page = page_of(query, count=0)
    return Question(page.command, page.rest, page.more, lambda told: _read_page(told).total)


def facets_of(field: str, query: QueryText = "*:*", count: int = 20) -> "Question[Facets]":
    """The counts of a field's labels, as `View.facets` has them."""
    if not _NAME.match(text(field, "the field")):
        raise UsageError(f"{field!r:.200} is no name of a field")
    shown = number(count, "the count")
    rest = f"{field} {shown} {query_text(query)}"
    return Question("FACETS", rest, lambda told: min(shown, int(told.split(" ")[1])), _read_facets)


def source_of(id: Union[str, Hit]) -> "Question[Optional[str]]":
    """The JSON text of an item, as `View.source` has it; of an id, or of a hit."""
    return Question("GET", _id(id), _none, _read_source)


def item_of(id: Union[str, Hit]) -> "Question[Optional[Dict[str, Any]]]":
    """An item, as `View.get` has it; of an id, or of a hit."""
    return Question("GET", _id(id), _none, _read_item)


def _id(id: Union[str, Hit]) -> str:
    return text(id.id if isinstance(id, Hit) else id, "the id")


def _none(_: str) -> int:
    return 0


def _shown(told: str) -> int:
    return int(told.split(" ")[0])


def _read_page(told: List[str]) -> Page:
    first, *lines = told
    with reading():
        return Page(int(first.split(" ")[1]), tuple(_hit(line) for line in lines))


def _hit(line: str) -> Hit:
    told, id, key = line.split(" ", 2)
    if key == ".":
        return Hit(int(told), id, None)
    return Hit(int(told), id, key[1:] if key.startswith("=") else int(key))


def _read_facets(told: List[str]) -> Facets:
    first, *lines = told
    with reading():
        matching, labels = first.split(" ")
        counts = (line.split(" ", 1) for line in lines)
        return Facets(int(matching), int(labels), tuple(FacetCount(label, int(many)) for many, label in counts))


def _read_source(told: List[str]) -> Optional[str]:
    return None if told[0] == "." else told[0]


def _read_item(told: List[str]) -> Optional[Dict[str, Any]]:
    source = _read_source(told)
    if source is None:
        return None
    with reading():
        return dict(json.loads(source))
