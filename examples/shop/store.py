"""The shop's catalogue: what its visitors look for, and what the staff changes."""

from __future__ import annotations

import logging
import re
import sys
import threading
from dataclasses import dataclass, replace
from pathlib import Path
from typing import Any, Dict, List, Optional, Sequence, Tuple

sys.path.insert(0, str(Path(__file__).resolve().parents[2] / "clients" / "python"))

from jasminedome import JasminedomeError, Query, all_of, any_of, between, prefix, term  # noqa: E402
from jasminedome.http import Gone, Search, Service, ViewCalls  # noqa: E402

PAGE = 24
GROUPS = ("kind", "color", "brand")
PRICES = {"": (None, None), "0-25": (0, 2_499), "25-50": (2_500, 4_999), "50-100": (5_000, 9_999), "100-": (10_000, None)}
SORTS = {"": None, "cheap": "+price", "dear": "-price"}

_WORDS = 10  # of what a visitor types: each may be two clauses and a group, and a query has at most 64
_LABELS = 12  # of a group
_EDGES = sorted(low for low, _ in PRICES.values() if low is not None)  # of the ranges of prices
_CHUNK = 1_000  # hits that one FIND may answer
_WORD = re.compile(r"[A-Za-z0-9\u0080-\U0010ffff]+")
_PLURALS = (("ies", "y"), ("ves", "f"), ("sses", "ss"), ("shes", "sh"), ("ches", "ch"), ("xes", "x"), ("ss", "ss"), ("s", ""))
_SHORTEST = 3  # letters that are left of a word whose ending goes

log = logging.getLogger("shop")


@dataclass(frozen=True)
class Wish:
    """What a visitor asks for: words, chosen labels by group, a range of prices, an order and a page from 1."""

    typed: str = ""
    chosen: Tuple[Tuple[str, Tuple[str, ...]], ...] = ()
    price: str = ""
    sort: str = ""
    page: int = 1

    def labels(self, group: str) -> Tuple[str, ...]:
        """The chosen labels of a group."""
        return dict(self.chosen).get(group, ())

    def with_labels(self, group: str, labels: Sequence[str]) -> "Wish":
        """The same wish with these labels of the group, on the first page."""
        others = {name: self.labels(name) for name in GROUPS}
        others[group] = tuple(labels)
        return replace(self, chosen=tuple((name, chosen) for name, chosen in others.items() if chosen), page=1)

    def search(self, after: Optional[int] = None) -> Search:
        """What is looked for, and counted beside it, behind a mark."""
        # The program takes A and a for one letter; of letters past ASCII both sides are made small here.
        words = [_word(word) for word in _WORD.findall(self.typed.lower())[:_WORDS]]
        filters = {group: any_of(*(term(group, label) for label in labels)) for group, labels in self.chosen}
        filters.update({"price": between("price", *PRICES[self.price])} if self.price else {})
        return Search(
            query=all_of(*words), filters=filters, chosen=dict(self.chosen), sort=SORTS[self.sort], after=after, count=PAGE,
            facets=GROUPS, labels=_LABELS, histograms={"price": _EDGES},
        )  # fmt: skip


@dataclass(frozen=True)
class Shelf:
    """What a visitor gets: the items of a page, how many there are in all, and how many each choice would give."""

    token: str
    items: List[Dict[str, object]]
    total: int
    page: int
    pages: int
    counts: Dict[str, Dict[str, int]]


class Store:
    """What the shop does with the service. Any thread may call. The staff's changes are committed one after another."""

    def __init__(self, service: Service) -> None:
        self.service = service
        self._saving = threading.Lock()
        self._unseen: Dict[str, Tuple[int, Optional[Dict[str, Any]]]] = {}  # by id, what no view has yet

    @property
    def newest(self) -> str:
        """The token of the newest view."""
        return self.service.views.newest

    def view(self, token: str) -> Optional[ViewCalls]:
        """The view of a token, or None where it isn't kept any more."""
        try:
            return self.service.view(token)
        except Gone:
            return None

    def shelf(self, view: ViewCalls, wish: Wish) -> Shelf:
        """The page of the view that the visitor asks for, or the last one where there are fewer."""
        query, sort = wish.search().narrowed(), SORTS[wish.sort]
        # What the first page tells is enough; of a later one it isn't known before whether it is there, and where it begins.
        total = view.find(query, count=0).total if wish.page > 1 else 0
        page = min(wish.page, max(1, -(-total // PAGE)))
        told: Dict[str, Any] = wish.search(_mark(view, query, sort, (page - 1) * PAGE)).answer(view)
        items = [hit["item"] or {} for hit in told["hits"]]
        counts = {group: {each["label"]: each["count"] for each in told["facets"][group]["counts"]} for group in GROUPS}
        by_low = {bar["from"]: bar["count"] for bar in told["histograms"]["price"]}
        counts["price"] = {name: by_low[low] for name, (low, _) in PRICES.items() if name}
        pages = max(1, -(-told["total"] // PAGE))
        return Shelf(self.service.views.stamp(view.token), items, told["total"], page, pages, counts)

    def item(self, id: str) -> Optional[Dict[str, Any]]:
        """An item as it is now, which is what the staff changes; None where there is none."""
        view = self.service.views.current()
        number, item = self._unseen.get(id, (0, None))
        return item if number > view.token else view.get_many([id])[0]

    def put(self, item: Dict[str, Any]) -> None:
        """Puts an item, so that it is there for a later view and after the next start."""
        id = str(item["id"])
        with self._saving:
            self._wrote(self.service.put(item), id, item)
            self.service.commit(f"put {id}")
        self._show()

    def delete(self, id: str) -> None:
        """Takes an item out likewise."""
        with self._saving:
            self._wrote(self.service.delete(id), id, None)
            self.service.commit(f"delete {id}")
        self._show()

    def _wrote(self, number: int, id: str, item: Optional[Dict[str, Any]]) -> None:
        seen = self.service.views.current().token
        kept = {name: each for name, each in self._unseen.items() if each[0] > seen}
        self._unseen = {**kept, id: (number, item)}

    def _show(self) -> None:
        """Has a view made of what was written, where one may be made now; else the service does, as soon as it may."""
        try:
            self.service.views.make()
        except JasminedomeError as error:
            log.error("no view of what was saved: %s", error)  # it is saved all the same


def _word(word: str) -> Query:
    """Items with a word that begins so, or with the singular of it: boots finds a boot."""
    for ending, instead in _PLURALS:
        if word.endswith(ending):
            single = word[: len(word) - len(ending)] + instead
            is_other = single != word and len(single) >= _SHORTEST
            return any_of(prefix("words", word), prefix("words", single)) if is_other else prefix("words", word)
    return prefix("words", word)


def _mark(view: ViewCalls, query: Query, sort: Optional[str], skipped: int) -> Optional[int]:
    """The record behind which a page begins that has so many hits before it. In a view these stay what they are."""
    mark = None
    while skipped:
        hits = view.find(query, sort, mark, min(skipped, _CHUNK)).hits
        mark = hits[-1].number
        skipped -= len(hits)
    return mark
