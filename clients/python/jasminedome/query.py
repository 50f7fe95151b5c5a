"""Queries from parts, so that what a visitor types is only ever a value.

`term`, `prefix`, `words` and `between` make a clause; `all_of`, `any_of` and `none_of` join clauses. They take fields
and values as plain texts and write signs, quotes and parentheses themselves. A query has at most 64 clauses, groups
counted, and 8 groups inside one another: the program refuses what passes that (`BadQuery`).
"""

from __future__ import annotations

import re
from dataclasses import dataclass
from typing import Optional, Union

from .errors import UsageError
from .lines import text as _a_text

Value = Union[str, int]

_FIELD = re.compile(r"[a-z][a-z0-9_]{0,31}\Z")
_NOT_BARE = re.compile(r'[ ()\[\]"*\\\n]')
_WORDS = re.compile(r"[A-Za-z0-9\u0080-\U0010ffff]+")


@dataclass(frozen=True)
class Query:
    """A query's text. `is_clause` says that it is one clause without a sign, and needs no parentheses to be joined.

    `a & b` is `all_of(a, b)`, `a | b` is `any_of(a, b)`, and `~a` is `none_of(a)`.
    """

    text: str
    is_clause: bool = False

    def __str__(self) -> str:
        return self.text

    def __and__(self, other: "Query") -> "Query":
        return all_of(self, other) if isinstance(other, Query) else NotImplemented

    def __or__(self, other: "Query") -> "Query":
        return any_of(self, other) if isinstance(other, Query) else NotImplemented

    def __invert__(self) -> "Query":
        return none_of(self)


EVERYTHING = Query("*:*", True)
"""Matches every item."""

NOTHING = Query("-*:*")
"""Matches no item."""


def query_text(query: object) -> str:
    """The text of a query, made here or written as a text. Raises UsageError for anything else."""
    if isinstance(query, Query):
        return query.text
    if isinstance(query, str):
        return query
    raise UsageError(f"{query!r:.200} is no query: neither a Query nor a text")


def quote(text: str) -> str:
    """The text as a quoted value: in a query it means the text itself, whatever it holds.

    Raises UsageError where it holds a line feed, which no line can carry, or a lone surrogate, which UTF-8 can't.
    """
    if "\n" in _a_text(text, "the value"):
        raise UsageError("a line feed can't stand in a query")
    _encodable(text)
    return '"' + text.replace("\\", "\\\\").replace('"', '\\"') + '"'


def term(field: str, value: Value) -> Query:
    """Items that have the value: the one word of a text field, the keyword, the number, or one of the labels.

    The program refuses a value that is wrong for the field's kind (`BadQuery`), such as two words for a text field:
    see `words`. Raises UsageError where the field's name isn't one, or the value can't be written.
    """
    return Query(f"{_field(field)}:{quote(_text(value))}", True)


def prefix(field: str, text: str) -> Query:
    """Items with a word, keyword or label that begins with the text.

    A prefix can't be quoted: raises UsageError where the text is empty or holds a space, one of `( ) [ ] " * \\`, or a
    line feed, or the field's name isn't one.
    """
    if not _a_text(text, "the prefix") or _NOT_BARE.search(text):
        raise UsageError(f"{text!r} can't be a prefix: it is empty, or holds what would have to be quoted")
    _encodable(text)
    return Query(f"{_field(field)}:{text}*", True)


def words(field: str, text: str) -> Query:
    """Items whose text field has every word of the text, cut as the program cuts; every item where it has none.

    This is for a search box. Raises UsageError where the field's name isn't one, or UTF-8 can't hold the text.
    """
    _encodable(_a_text(text, "what was typed"))
    name = _field(field)
    found = dict.fromkeys(_WORDS.findall(text))
    return all_of(*[term(name, word) for word in found])


def between(field: str, low: Optional[Value] = None, high: Optional[Value] = None) -> Query:
    """Items whose number or keyword lies from `low` to `high`, both included; None leaves that end open.

    Keywords compare by bytes. Raises UsageError where the field's name isn't one, or an end can't be written.
    """
    ends = ["*" if end is None else quote(_text(end)) for end in (low, high)]
    return Query(f"{_field(field)}:[{ends[0]} TO {ends[1]}]", True)


def all_of(*queries: Query) -> Query:
    """Items that every query matches; of no queries, every item. Raises UsageError for what no builder made."""
    if len(queries) == 1:
        return _made(queries[0])
    return Query(" ".join("+" + _clause(query) for query in queries)) if queries else EVERYTHING


def any_of(*queries: Query) -> Query:
    """Items that some query matches; of no queries, no item. Raises UsageError for what no builder made."""
    if len(queries) == 1:
        return _made(queries[0])
    return Query(" ".join(_clause(query) for query in queries)) if queries else NOTHING


def none_of(*queries: Query) -> Query:
    """Items that no query matches; of no queries, every item. Raises UsageError for what no builder made."""
    return Query(" ".join(["*:*", *("-" + _clause(query) for query in queries)])) if queries else EVERYTHING


def _made(query: Query) -> Query:
    # A plain text could close a group that it didn't open, so it has no place inside a query.
    if not isinstance(query, Query):
        raise UsageError(f"{query!r} isn't made by term, prefix, words, between, all_of, any_of or none_of")
    return query


def _clause(query: Query) -> str:
    return query.text if _made(query).is_clause else f"({query.text})"


def _field(name: str) -> str:
    if not isinstance(name, str) or not _FIELD.match(name) or name == "id":
        raise UsageError(f"{name!r} is no name of a field")
    return name


def _text(value: Value) -> str:
    if isinstance(value, bool) or not isinstance(value, (str, int)):
        raise UsageError(f"{value!r} is neither a text nor an integer")
    return str(value)


def _encodable(text: str) -> None:
    try:
        text.encode()
    except UnicodeEncodeError as error:
        raise UsageError(f"{text!r} isn't UTF-8: {error}") from None
