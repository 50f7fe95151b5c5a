"""All items of a view, one after another."""

from __future__ import annotations

from typing import Any, Dict, Iterator, Tuple, Union

from .query import Query
from .view import View

_PAGE = 500


def sources(view: View, query: Union[str, Query] = "*:*") -> Iterator[Tuple[str, str]]:
    """The id and the text of every item that the query matches, as it was put, in the order of addition.

    The view has to stay open meanwhile. Raises what `View.find` and `source` raise.
    """
    for page in view.pages(query, count=_PAGE):
        for hit, source in zip(page, view.sources(page)):
            if source is not None:
                yield hit.id, source


def dump(view: View, query: Union[str, Query] = "*:*") -> Iterator[Dict[str, Any]]:
    """Every item that the query matches, in the order of addition. Raises what `sources` raises."""
    for page in view.pages(query, count=_PAGE):
        yield from (item for item in view.get_many(page) if item is not None)
