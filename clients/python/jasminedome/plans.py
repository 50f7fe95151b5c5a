"""What becomes of a file's columns: the fields of a catalogue, and which column is the id."""

from __future__ import annotations

import re
from dataclasses import dataclass
from typing import Dict, List, Mapping, Optional, Tuple

from .errors import UsageError
from .tables import Column

SKIP = "skip"
"""In place of a kind: the column is left out."""

CENTS = "cents"
"""In place of a kind: the column has prices with a point or a comma, and becomes a number of hundredths."""

KINDS = ("text", "keyword", "number", "facet")
ASKED = (*KINDS, CENTS, SKIP)
"""What may be said of a column."""

_MAX_FIELDS = 32


@dataclass(frozen=True)
class Plan:
    """What becomes of a file's columns: the catalogue's fields, the column of the id, the field of each other one, and
    the fields whose values are prices that become hundredths.
    """

    fields: Dict[str, str]
    id_column: str
    names: Dict[str, str]
    cents: Tuple[str, ...] = ()


def planned(
    columns: Mapping[str, Column],
    asked: Mapping[str, str],
    existing: Optional[Mapping[str, str]],
    id_column: Optional[str] = None,
) -> Plan:
    """The plan for a file with these columns; `existing` are the fields of the folder's commit.

    Raises UsageError, also where most values of a column are numbers and some aren't, and nobody said what it is.
    """
    own = _id_column(columns, id_column)
    names: Dict[str, str] = {}
    kinds: Dict[str, str] = dict(existing or {})
    unclear: List[str] = []
    for column, found in columns.items():
        name = field_name(column)
        kind = asked.get(column, asked.get(name))
        if column == own or kind == SKIP:
            continue
        if name in names.values() or name == "id":
            raise UsageError(f"two columns would be the field {name}: leave one out by --field '{column}:{SKIP}'")
        names[column] = name
        if existing is None:
            unclear += _question(column, found) if kind is None else []
            kinds[name] = _stored(kind) or found.kind
        elif name not in existing:
            raise UsageError(f"the folder has no field {name}: leave it out by --field '{column}:{SKIP}'")
    if unclear:
        raise UsageError("\n".join(unclear))
    cents = _check_asked(asked, kinds, existing is None)
    if len(kinds) > _MAX_FIELDS:
        most = f"{len(kinds)} fields, and a catalogue has at most {_MAX_FIELDS}"
        raise UsageError(f"{most}: leave some out by --field NAME:{SKIP}")
    return Plan(dict(sorted(kinds.items())), own, names, cents)


def field_name(column: str) -> str:
    """The field that a column becomes: small letters, digits and `_`. Raises UsageError where nothing is left of it."""
    name = re.sub(r"[^a-z0-9_]+", "_", column.lower()).strip("_").lstrip("0123456789_")[:32]
    if not name:
        raise UsageError(f"{column!r} gives no field a name: leave it out by --field '{column}:{SKIP}'")
    return name


def _question(column: str, found: Column) -> List[str]:
    """What has to be asked of a column whose values are numbers for the most part."""
    if found.odd is None:
        return []
    line, value = found.odd
    whole = found.counts["integer"] + found.counts["digits"]
    others = found.total - whole
    ways = [f"--field '{column}:{CENTS}' (19.99 becomes 1999)"] if found.counts["decimal"] else []
    ways += [f"--field '{column}:number' (other lines are refused)"] if whole else []
    ways += [f"--field '{column}:text' or '{column}:{SKIP}'"]
    are = "isn't" if others == 1 else "aren't"
    counted = f"{whole:,} of {found.total:,} values are integers, and {others:,} {are}"
    return [f"{column}: {counted}; the first is {value!r} in line {line:,}. Say what it is: {', '.join(ways)}"]


def _stored(kind: Optional[str]) -> Optional[str]:
    return "number" if kind == CENTS else kind


def _id_column(columns: Mapping[str, Column], asked: Optional[str]) -> str:
    if asked is not None:
        if asked not in columns:
            raise UsageError(f"no column is named {asked}: there are {', '.join(columns) or 'none'}")
        return asked
    for column in ("id", *columns):
        if column in columns and column.lower() == "id":
            return column
    raise UsageError(f"no column is named id: --id says which one tells items apart, of {', '.join(columns) or 'none'}")


def _check_asked(asked: Mapping[str, str], kinds: Dict[str, str], is_new: bool) -> Tuple[str, ...]:
    """Holds what was asked against the fields; answers those that are of cents."""
    cents = []
    for name, kind in asked.items():
        if kind not in ASKED:
            raise UsageError(f"{kind!r} is no kind: {', '.join(ASKED[:-1])} or {SKIP}")
        if kind == SKIP:
            continue
        target, stored = field_name(name), "number" if kind == CENTS else kind
        if is_new:
            kinds.setdefault(target, stored)  # no column of this file fills it; a later file may
        if kinds.get(target) != stored:
            raise UsageError(f"the folder has {target} as {kinds.get(target, 'no field')}, and not as {stored}")
        cents += [target] if kind == CENTS else []
    return tuple(sorted(cents))
