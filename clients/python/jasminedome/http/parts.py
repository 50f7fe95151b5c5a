"""Queries as JSON: the parts from which a program builds one, so that what a visitor typed is only ever a value."""

from __future__ import annotations

from typing import Callable, Dict, List, Mapping, Optional, Tuple, Union

from ..query import NOTHING, Query, all_of, any_of, between, none_of, prefix, term, words
from .problems import wrong

Value = Union[str, int]

_DEEPEST = 8  # groups inside one another, as the program has it
_MOST = 64  # parts of a list, as clauses of a query


def query_of(part: object, depth: int = 0) -> Query:
    """The query that a part of JSON means. Raises Problem where it is none, and UsageError for a value that can't be one.

    A text is a query as it is written. `{"field": F, ..}` with `is`, `in`, `begins`, `words`, or `from` and `to`, is about
    one field; `{"all": [..]}`, `{"any": [..]}` and `{"none": [..]}` join parts.
    """
    if isinstance(part, str):
        return written(part)
    if not isinstance(part, Mapping) or depth > _DEEPEST:
        raise wrong(f"{part!r:.200} is no part of a query, or lies deeper than {_DEEPEST} others")
    if "field" in part:
        return _of_field(part)
    joins: Dict[str, Callable[..., Query]] = {"all": all_of, "any": any_of, "none": none_of}
    if len(part) != 1 or not set(part) <= set(joins):
        raise wrong(f"{dict(part)!r:.200} is no part of a query: it has neither field, nor just one of all, any and none")
    (name, members), *_ = part.items()
    return joins[name](*(query_of(each, depth + 1) for each in _list(members, name)))


def filter_of(field: str, asked: object) -> Query:
    """What a filter on a field means: a value, a list of values of which any will do, or `{"from": .., "to": ..}`."""
    if isinstance(asked, Mapping):
        return _of_field({"field": field, **asked})
    values = asked if isinstance(asked, list) else [asked]
    return _any_term(field, values, "the filter")


def written(text: str) -> Query:
    """A query as it is written, to stand beside others. Raises Problem where it would close a group that it didn't open."""
    depth, is_quoted, at = 0, False, 0
    while at < len(text):
        letter = text[at]
        at += 2 if is_quoted and letter == "\\" else 1
        if letter == '"':
            is_quoted = not is_quoted
        elif not is_quoted:
            depth += (letter == "(") - (letter == ")")
            if depth < 0:
                break
    if depth or is_quoted:
        raise wrong(f"{text!r:.200} is no query: its parentheses or quotes don't fit together")
    return Query(text)


def _of_field(part: Mapping[str, object]) -> Query:
    field = part["field"]
    if not isinstance(field, str):
        raise wrong(f"{field!r:.200} is no name of a field")
    asked = {name: value for name, value in part.items() if name != "field"}
    names = set(asked)
    if names == {"is"}:
        return term(field, _value(asked["is"]))
    if names == {"in"}:
        return _any_term(field, _list(asked["in"], "in"), "in")
    if names == {"begins"}:
        return prefix(field, _text(asked["begins"], "begins"))
    if names == {"words"}:
        return words(field, _text(asked["words"], "words"))
    if names and names <= {"from", "to"}:
        low, high = _ends(asked)
        return between(field, low, high)
    raise wrong(f"{dict(part)!r:.200} says of its field neither is, in, begins, words, nor from and to")


def _any_term(field: str, values: List[object], what: str) -> Query:
    made = [term(field, _value(each)) for each in _list(values, what)]
    return any_of(*made) if made else NOTHING


def _ends(asked: Mapping[str, object]) -> Tuple[Optional[Value], Optional[Value]]:
    low, high = (None if asked.get(name) is None else _value(asked[name]) for name in ("from", "to"))
    return low, high


def _value(value: object) -> Value:
    if isinstance(value, bool) or not isinstance(value, (str, int)):
        raise wrong(f"{value!r:.200} is neither a text nor an integer")
    return value


def _text(value: object, what: str) -> str:
    if not isinstance(value, str):
        raise wrong(f"{what} {value!r:.200} is no text")
    return value


def _list(value: object, what: str) -> List[object]:
    if not isinstance(value, list) or len(value) > _MOST:
        raise wrong(f"{what} is no list of at most {_MOST}")
    return value
