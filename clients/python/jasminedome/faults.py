"""Why an item was refused: the members that no field takes."""

from __future__ import annotations

import json
import re
from typing import Iterator, Mapping, Optional

_ID = re.compile(r"[!-~]{1,64}\Z")
_CONTROL = re.compile(r"[\x00-\x1f\x7f]")
_MAX_KEYWORD = 128  # bytes
_MAX_LABELS = 64
_SHOWN = 40  # characters of a value at fault that are told
_MOST = 5  # members that are told


def faults(item: object, fields: Mapping[str, str]) -> str:
    """The members of an item (a mapping, or its JSON text) that are at fault, with the beginning of each value.

    It is empty where none is, or the text is no JSON object.
    """
    if isinstance(item, str):
        try:
            item = json.loads(item)
        except (ValueError, RecursionError):
            return ""
    if not isinstance(item, Mapping):
        return ""
    told = list(_faults(item, fields))
    more = [f"and {len(told) - _MOST} more"] if len(told) > _MOST else []
    return ", ".join([*told[:_MOST], *more])


def _faults(item: Mapping[str, object], fields: Mapping[str, str]) -> Iterator[str]:
    if "id" not in item:
        yield "there is no id"
    for name, value in item.items():
        if name == "id":
            why = None if isinstance(value, str) and _ID.match(value) else f"is {_shown(value)}"
        elif name not in fields:
            why = "is no field"
        else:
            why = _fault(fields[name], value)
        if why is not None:
            yield f"{name} {why}"


def _fault(kind: str, value: object) -> Optional[str]:
    """What is wrong with a value of a field of this kind."""
    if value is None:
        return None
    if kind == "number":
        is_integer = isinstance(value, int) and not isinstance(value, bool) and -(2**63) <= value < 2**63
        return None if is_integer else f"is {_shown(value)}"
    if kind == "facet":
        return _labels_fault(value)
    if not isinstance(value, str):
        return f"is {_shown(value)}"
    return _keyword_fault(value) if kind == "keyword" else None


def _labels_fault(value: object) -> Optional[str]:
    if not isinstance(value, (list, tuple)):
        return f"is {_shown(value)}"
    if len(value) > _MAX_LABELS:
        return f"has {len(value)} labels, and may have {_MAX_LABELS}"
    for label in value:
        why = _keyword_fault(label) if isinstance(label, str) and label else f"is {_shown(label)}"
        if why is not None:
            return f"has a label that {why}"
    return None


def _keyword_fault(text: str) -> Optional[str]:
    size = len(text.encode(errors="replace"))
    if size > _MAX_KEYWORD:
        return f"has {size} bytes, and may have {_MAX_KEYWORD}"
    return f"is {_shown(text)}, with a control character" if _CONTROL.search(text) else None


def _shown(value: object) -> str:
    try:
        return json.dumps(value, ensure_ascii=False)[:_SHOWN]
    except (TypeError, ValueError, RecursionError):
        return repr(value)[:_SHOWN]
