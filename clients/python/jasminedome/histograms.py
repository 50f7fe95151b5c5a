"""How many items have a number in each of some ranges, prices say."""

from __future__ import annotations

from dataclasses import dataclass
from typing import TYPE_CHECKING, List, Optional, Sequence, Tuple

from .errors import UsageError
from .query import EVERYTHING, Query, all_of, between
from .questions import Question, total_of

if TYPE_CHECKING:
    from .http.calls import ViewCalls

MOST_EDGES = 100


@dataclass(frozen=True)
class Bar:
    """A range of numbers from `low` up to but without `high`, None being an open end, and how many hits have one in it."""

    low: Optional[int]
    high: Optional[int]
    count: int


def histogram(view: "ViewCalls", field: str, edges: Sequence[int], query: Query = EVERYTHING) -> Tuple[Bar, ...]:
    """The hits of the query by their number in the field: below the first edge, between each two, and from the last on.

    `edges` are 1 to 100 rising integers. All bars are asked in one write. Raises UsageError for what are no edges, and
    what `View.find` raises.
    """
    return tuple(view.answers(*bars_of(field, edges, query)))


def bars_of(field: str, edges: Sequence[int], query: Query = EVERYTHING) -> "List[Question[Bar]]":
    """The questions of a histogram, a bar each. Raises UsageError for what are no edges."""
    ends = _checked(edges)
    return [_bar_of(field, query, low, high) for low, high in zip((None, *ends), (*ends, None))]


def even_edges(low: int, high: int, count: int) -> Tuple[int, ...]:
    """Edges for `count` bars of about one width from `low` to `high`. Raises UsageError where there are no such."""
    if not 1 <= count < MOST_EDGES or high - low < count:
        raise UsageError(f"there are no {count} bars of integers from {low} to {high}")
    return tuple(low + (high - low) * step // count for step in range(count + 1))


def _bar_of(field: str, query: Query, low: Optional[int], high: Optional[int]) -> "Question[Bar]":
    total = total_of(all_of(query, between(field, low, None if high is None else high - 1)))
    return Question(total.command, total.rest, total.more, lambda told: Bar(low, high, total.read(told)))


def _checked(edges: object) -> Tuple[int, ...]:
    ends = tuple(edges) if isinstance(edges, (list, tuple)) else ()
    are_numbers = all(isinstance(each, int) and not isinstance(each, bool) and abs(each) < 2**62 for each in ends)
    if not 1 <= len(ends) <= MOST_EDGES or not are_numbers or any(a >= b for a, b in zip(ends, ends[1:])):
        raise UsageError(f"{edges!r:.200} are no edges: 1 to {MOST_EDGES} rising integers")
    return ends
