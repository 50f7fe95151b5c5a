"""A folder's items under other fields, in a folder of their own: a catalogue's fields never change."""

from __future__ import annotations

import os
from pathlib import Path
from typing import Any, Callable, Dict, Iterator, Mapping, Optional

from .catalogue import Catalogue
from .dumps import dump
from .errors import UsageError
from .folders import fields_of
from .putting import PutMany
from .starting import Command, Folder, folder_path
from .tables import INTEGER
from .view import View

Change = Callable[[Dict[str, Any]], Optional[Mapping[str, Any]]]
"""What becomes of an item; None leaves it out."""


def reindex(
    old: Folder,
    new: Folder,
    fields: Mapping[str, str],
    change: Optional[Change] = None,
    program: Optional[Command] = None,
    progress: Optional[Callable[[int], object]] = None,
) -> PutMany:
    """Puts all items of a folder's newest commit into a new folder with these fields, and commits them there.

    Without `change` a value goes into its field as `fitted` makes it, and what has no field any more is left out. The
    old folder stays as it is, and no other program may work over it meanwhile. `progress` is as of `put_many`. Answers
    what was put and what was refused, by its place in the order of addition. Raises UsageError where the old folder has
    no commit or the new one is there already, OSError, and what `Catalogue` and `put_many` raise.
    """
    source, target = folder_path(old), folder_path(new)
    kept = None if source is None else fields_of(source)
    if kept is None or target is None:
        raise UsageError(f"{old!r:.200} has no commit, or {new!r:.200} is no path")
    if os.path.lexists(target):
        raise UsageError(f"{target} is there already")
    with Catalogue(kept, source, program=program) as shop, shop.open() as view:
        Path(target).mkdir(parents=True)
        with Catalogue(fields, target, program=program) as made:
            told = made.put_many(_changed(view, change or (lambda item: fitted(item, fields))), progress)
            made.upkeep()
            made.commit(f"reindexed: {told.accepted} of {told.accepted + len(told.refused)} items")
            made.sweep()
    return told


def fitted(item: Mapping[str, Any], fields: Mapping[str, str]) -> Dict[str, Any]:
    """The item with what these fields take of it: the label of a facet as a text, a text as a label, digits as a number.

    A value that fits no way stays what it is, and is refused then.
    """
    kept = ((name, fields[name], item[name]) for name in item if name in fields)
    return {"id": item.get("id"), **{name: _fitted(value, kind) for name, kind, value in kept}}


def _fitted(value: Any, kind: str) -> Any:
    if value is None:
        return None
    if kind == "facet":
        return value if isinstance(value, list) else [str(value)] if str(value) else []
    if kind == "number":
        return int(value) if isinstance(value, str) and INTEGER.match(value) else value
    return " ".join(map(str, value)) if isinstance(value, list) else str(value)


def _changed(view: View, change: Change) -> Iterator[Mapping[str, Any]]:
    for item in dump(view):
        made = change(item)
        if made is not None:
            yield made
