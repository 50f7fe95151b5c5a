"""What reads are answered with: hits, pages of them, and counts of labels."""

from __future__ import annotations

from dataclasses import dataclass
from typing import Iterator, Tuple, Union

Key = Union[None, int, str]


@dataclass(frozen=True)
class Hit:
    """An item that a query matches: the number of the write that put it, its id, and what it was sorted by.

    `key` is None in the order of addition, or where the item has no value in the field.
    """

    number: int
    id: str
    key: Key


@dataclass(frozen=True)
class Page:
    """Some of the hits of a query, in order, and how many hits there are in all. It is gone through as `hits` is."""

    total: int
    hits: Tuple[Hit, ...]

    def __iter__(self) -> Iterator[Hit]:
        return iter(self.hits)

    def __len__(self) -> int:
        return len(self.hits)

    def __bool__(self) -> bool:
        return bool(self.hits)


@dataclass(frozen=True)
class FacetCount:
    """A label, and how many hits have it."""

    label: str
    count: int


@dataclass(frozen=True)
class Facets:
    """Counts of labels: how many hits have a label at all, how many labels they have, and the commonest of these."""

    matching: int
    labels: int
    counts: Tuple[FacetCount, ...]
