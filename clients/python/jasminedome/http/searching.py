"""A search: what a request asks for in JSON, and what it is answered of one view."""

from __future__ import annotations

from dataclasses import dataclass, field
from itertools import islice
from typing import Any, Dict, List, Mapping, Optional, Sequence, Tuple

from ..answers import Facets, Page
from ..highlights import highlighted
from ..histograms import Bar, bars_of
from ..query import EVERYTHING, Query, all_of, term
from ..questions import Question, facets_of, item_of, page_of, total_of
from ..typed import typed
from .calls import ViewCalls
from .parts import filter_of, query_of
from .problems import unread, wrong

MOST_TYPED = 1_000
"""Characters of what a visitor typed."""

_MOST_FIELDS = 32  # as a catalogue has at most
_MOST_LABELS = 16  # chosen labels of a filter that are counted one by one
_TOGETHER = 64  # things that are counted in one write
_SAID = ("words", "fields", "query", "filters")  # what is looked for
_MEMBERS = (*_SAID, "sort", "after", "count", "facets", "labels", "items", "highlight", "histograms")


@dataclass(frozen=True)
class Search:
    """What is looked for: what all hits have to match, filters by their field, and what is to be told of the hits.

    The counts of a field's labels, and a field's histogram, are of the hits under every filter but that field's own, so
    that they tell what another choice would give.
    """

    words: str = ""
    query: Query = EVERYTHING
    filters: Mapping[str, Query] = field(default_factory=dict)
    chosen: Mapping[str, Tuple[str, ...]] = field(default_factory=dict)
    sort: Optional[str] = None
    after: Optional[int] = None
    count: int = 20
    facets: Tuple[str, ...] = ()
    labels: int = 20
    has_items: bool = True
    highlight: Tuple[str, ...] = ()
    histograms: Mapping[str, Sequence[int]] = field(default_factory=dict)

    def narrowed(self, without: Optional[str] = None) -> Query:
        """All that a hit has to match, but for the filter of one field."""
        return all_of(self.query, *(each for name, each in self.filters.items() if name != without))

    def answer(self, view: ViewCalls) -> Dict[str, object]:
        """What the view tells: a page of hits, how many there are, and counts.

        It takes two writes to the program. The first asks for the page and for all counts. The second asks for what their
        answers name: the items of the hits, and the counts of chosen labels that aren't among the commonest. Where
        nothing is named there is none, and where more than 64 things are counted there are more of the first.
        """
        page, *told = _asked(view, [self._page(), *self._counts(), *self._bars()])
        facets = dict(zip(self.facets, told))
        shown = page.hits if self.has_items or self.highlight else ()
        rare = [(name, label) for name, counts in facets.items() for label in self._uncounted(name, counts)]
        named = view.answers(*map(item_of, shown), *(total_of(self._chosen(name, label)) for name, label in rare))
        totals = dict(zip(rare, named[len(shown) :]))
        is_full = self.count > 0 and len(page.hits) == self.count
        return {
            "total": page.total,
            "hits": self._hits(page, named[: len(shown)]),
            "next": page.hits[-1].number if is_full else None,
            "facets": {name: _facet(name, counts, totals) for name, counts in facets.items()},
            "histograms": self._histograms(told[len(facets) :]),
        }

    def _page(self) -> "Question[Page]":
        return page_of(self.narrowed(), self.sort, self.after, self.count)

    def _counts(self) -> "List[Question[Facets]]":
        return [facets_of(name, self.narrowed(name), self.labels) for name in self.facets]

    def _bars(self) -> "List[Question[Bar]]":
        return [bar for name, edges in self.histograms.items() for bar in bars_of(name, edges, self.narrowed(name))]

    def _chosen(self, name: str, label: str) -> Query:
        return all_of(self.narrowed(name), term(name, label))

    def _uncounted(self, name: str, counts: Facets) -> List[str]:
        """The chosen labels of a field that aren't among the commonest: they are told too, however few have them."""
        common = {each.label for each in counts.counts}
        return [label for label in dict.fromkeys(self.chosen.get(name, ())[:_MOST_LABELS]) if label not in common]

    def _hits(self, page: Page, items: Sequence[Optional[Dict[str, Any]]]) -> List[Dict[str, object]]:
        told: List[Dict[str, object]] = [{"id": hit.id, "number": hit.number, "key": hit.key} for hit in page.hits]
        for hit, item in zip(told, items):
            hit.update({"item": item} if self.has_items else {})
            hit.update({"highlights": self._highlights(item or {})} if self.highlight else {})
        return told

    def _highlights(self, item: Mapping[str, Any]) -> Dict[str, str]:
        texts = ((name, item.get(name)) for name in self.highlight)
        return {name: highlighted(value, self.words) for name, value in texts if isinstance(value, str)}

    def _histograms(self, bars: Sequence[Bar]) -> Dict[str, List[Dict[str, object]]]:
        rest = iter(bars)
        return {name: [_bar(each) for each in islice(rest, len(edges) + 1)] for name, edges in self.histograms.items()}


def _asked(view: ViewCalls, questions: "Sequence[Question[Any]]") -> List[Any]:
    """The answers to questions, some in a write, so that whoever counts much doesn't keep the program from others."""
    parts = (questions[at : at + _TOGETHER] for at in range(0, len(questions), _TOGETHER))
    return [answer for some in parts for answer in view.answers(*some)]


def _bar(told: Bar) -> Dict[str, object]:
    return {"from": told.low, "below": told.high, "count": told.count}


def _facet(name: str, counts: Facets, totals: Mapping[Tuple[str, str], int]) -> Dict[str, object]:
    listed = [(each.label, each.count) for each in counts.counts]
    listed += [(label, count) for (of, label), count in totals.items() if of == name]
    told = [{"label": label, "count": count} for label, count in listed]
    return {"matching": counts.matching, "labels": counts.labels, "counts": told}


def search_of(asked: object, searched: Sequence[str], is_folded: bool) -> Search:
    """The search that a JSON text asks for. Raises Problem and UsageError where it asks for none.

    `searched` are the fields in which words are looked for where it names none; `is_folded` says that these are folded.
    """
    if not isinstance(asked, dict):
        raise unread("the body is no JSON object")
    unknown = set(asked) - set(_MEMBERS)
    if unknown:
        raise wrong(f"{sorted(unknown)[0]!r:.100} is nothing that a search may have: {', '.join(_MEMBERS)}")
    words = _text(asked, "words")[:MOST_TYPED]
    own = _names(asked, "fields")
    filters = _mapping(asked, "filters")
    parts = [typed(words, own or searched, is_folded and not own)] if words.strip() else []
    own_query = asked.get("query")
    if isinstance(own_query, str) and not parts and not filters:
        parts = [Query(own_query)]  # alone it goes as it is, so that the place of a fault is that in it
    elif own_query is not None:
        parts.append(query_of(own_query))
    return Search(
        words=words,
        query=all_of(*parts),
        filters={name: filter_of(name, each) for name, each in filters.items()},
        chosen={name: _texts(each) for name, each in filters.items()},
        sort=_text(asked, "sort") or None,
        after=_number(asked, "after", None),
        count=_number(asked, "count", 20) or 0,
        facets=_names(asked, "facets"),
        labels=_number(asked, "labels", 20) or 0,
        has_items=_flag(asked, "items", True),
        highlight=_names(asked, "highlight"),
        histograms=_mapping(asked, "histograms"),
    )


def narrows(asked: object) -> bool:
    """Whether a JSON text says anything of what is looked for."""
    named = [name for name in _SAID if name != "fields"]
    return isinstance(asked, dict) and any(asked.get(name) for name in named) and set(asked) <= set(_SAID)


def _texts(asked: object) -> Tuple[str, ...]:
    values = asked if isinstance(asked, list) else [asked]
    return tuple(each for each in values if isinstance(each, str))


def _text(asked: Dict[str, Any], name: str) -> str:
    value = asked.get(name)
    if value is not None and not isinstance(value, str):
        raise wrong(f"{name} {value!r:.200} is no text")
    return value or ""


def _number(asked: Dict[str, Any], name: str, otherwise: Optional[int]) -> Optional[int]:
    value = asked.get(name)
    if value is None:
        return otherwise
    if isinstance(value, bool) or not isinstance(value, int):
        raise wrong(f"{name} {value!r:.200} is no integer")
    return value


def _flag(asked: Dict[str, Any], name: str, otherwise: bool) -> bool:
    value = asked.get(name, otherwise)
    if not isinstance(value, bool):
        raise wrong(f"{name} {value!r:.200} is neither true nor false")
    return value


def _names(asked: Dict[str, Any], name: str) -> Tuple[str, ...]:
    value = asked.get(name)
    if value is None:
        return ()
    if not isinstance(value, list) or len(value) > _MOST_FIELDS or not all(isinstance(each, str) for each in value):
        raise wrong(f"{name} {value!r:.200} is no list of at most {_MOST_FIELDS} names of fields")
    return tuple(dict.fromkeys(value))


def _mapping(asked: Dict[str, Any], name: str) -> Dict[str, Any]:
    value = asked.get(name)
    if value is None:
        return {}
    if not isinstance(value, dict) or len(value) > _MOST_FIELDS:
        raise wrong(f"{name} {value!r:.200} is no object of at most {_MOST_FIELDS} fields")
    return value
