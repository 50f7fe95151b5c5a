"""Lines of the protocol, and the arguments that stand in them."""

from __future__ import annotations

import contextlib
import threading
from typing import Iterator, Optional

from .errors import BadReply, UsageError

MAX_LINE = 10_000
"""The most bytes that a line may have, its line feed not counted."""

MAX_NUMBER = 2**63 - 1


def line(text: str) -> bytes:
    """The bytes of a line. Raises UsageError where it would be read as something else, or not at all."""
    if "\n" in text or text.endswith("\r"):
        raise UsageError("a line feed, or a carriage return at the end, can't stand in a line")
    try:
        data = text.encode()
    except UnicodeEncodeError as error:
        raise UsageError(f"the line isn't UTF-8: {error}") from None
    if len(data) > MAX_LINE:
        raise UsageError(f"the line has {len(data):,} bytes, and may have {MAX_LINE:,}")
    return data + b"\n"


def number(value: object, what: str) -> int:
    """The value, where it is a number of the protocol: 0 to 9,223,372,036,854,775,807. Else raises UsageError."""
    if isinstance(value, bool) or not isinstance(value, int) or not 0 <= value <= MAX_NUMBER:
        raise UsageError(f"{what} {value!r} isn't an integer from 0 to {MAX_NUMBER:,}")
    return value


def text(value: object, what: str) -> str:
    """The value, where it is a text. Else raises UsageError."""
    if not isinstance(value, str):
        raise UsageError(f"{what} {value!r:.200} isn't a text")
    return value


def seconds(value: object) -> Optional[float]:
    """A timeout, where it is one: None, or seconds above 0. Else raises UsageError."""
    if value is None:
        return None
    if isinstance(value, bool) or not isinstance(value, (int, float)) or not 0 < value <= threading.TIMEOUT_MAX:
        raise UsageError(f"the timeout {value!r} isn't a number of seconds above 0")
    return float(value)


@contextlib.contextmanager
def reading() -> Iterator[None]:
    """Around code that takes a reply apart: what isn't as it should be is a BadReply."""
    try:
        yield
    except (ValueError, IndexError, TypeError) as error:
        raise BadReply(f"no reply of the protocol: {error}") from None
