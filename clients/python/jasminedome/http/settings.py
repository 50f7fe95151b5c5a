"""What may be set of an HTTP service: times, limits, keys, and the fields in which visitors' words are looked for."""

from __future__ import annotations

import hmac
import ipaddress
from dataclasses import dataclass, field
from typing import Mapping, Optional, Tuple

from ..errors import UsageError
from ..typed import searchable

READ, WRITE = "read", "write"
"""What a request may ask for: to look, or to change the catalogue and copy all of it."""


@dataclass(frozen=True)
class Folding:
    """A text field that the service fills itself, with the folded words of other fields of the item."""

    field: str
    of: Tuple[str, ...]

    def check(self, fields: Mapping[str, str]) -> None:
        """Raises UsageError where these are no such fields of the catalogue."""
        if fields.get(self.field) != "text" or not self.of or self.field in self.of:
            raise UsageError(f"words can't be folded into {self.field!r}: it has to be a text field, and none of its sources")
        wrong = [name for name in self.of if fields.get(name, "number") == "number"]
        if wrong:
            raise UsageError(f"the words of {wrong[0]!r} can't be folded: it has no texts")

    def apply(self, item: Mapping[str, object]) -> Mapping[str, object]:
        """The item with the field filled."""
        return {**item, self.field: searchable(item, self.of)}


@dataclass(frozen=True)
class Settings:
    """Times are in seconds and sizes in bytes.

    A view is made of what was written at most once in `show_every`, and what was written is committed `commit_every`
    after the first write at the latest. Whoever waits for a view waits `show_seconds` at most. `most_views` are kept, of
    the 64 that a program records, and one that nobody used goes after `oldest`. `words` are the fields in which words are
    looked for, all text fields where it is None; or `folding` says how a field is filled and looked into. A request's body
    may have `most_body`, a bulk `most_bulk`, and has `body_seconds` to come. So many threads are `readers` and `writers`,
    and so many requests may wait before more are refused.
    """

    show_every: float = 1.0
    commit_every: float = 5.0
    most_views: int = 56
    oldest: float = 3_600.0
    words: Optional[Tuple[str, ...]] = None
    folding: Optional[Folding] = None
    most_body: int = 65_536
    most_bulk: int = 1 << 30
    body_seconds: float = 30.0
    show_seconds: float = 30.0
    readers: int = 16
    writers: int = 8
    most_waiting: int = 512

    def __post_init__(self) -> None:
        least = {"show_every": 0, "commit_every": 0, "oldest": 0, "body_seconds": 0.01, "show_seconds": 0}
        least.update(most_body=1, most_bulk=1, most_views=1, readers=1, writers=1, most_waiting=1)
        for name, smallest in least.items():
            value = getattr(self, name)
            if isinstance(value, bool) or not isinstance(value, (int, float)) or not smallest <= value < 2**40:
                raise UsageError(f"{name} {value!r:.200} isn't a number from {smallest} on")
        if self.most_views > 60:
            raise UsageError(f"{self.most_views} views can't be kept: a program records 64, and some are in the making")

    def searched(self, fields: Mapping[str, str]) -> Tuple[str, ...]:
        """The fields of the catalogue in which words are looked for where a request names none.

        Raises UsageError where they are no text fields of it.
        """
        if self.folding is not None:
            self.folding.check(fields)
            return (self.folding.field,)
        if self.words is None:
            return tuple(name for name, kind in fields.items() if kind == "text")
        wrong = [name for name in self.words if fields.get(name) == "number" or name not in fields]
        if wrong:
            raise UsageError(f"words can't be looked for in {wrong[0]!r}: it is no field with texts")
        return self.words


@dataclass(frozen=True)
class Keys:
    """Who may do what: a request shows one as `Authorization: Bearer KEY`. What has no key is open to everybody.

    The key for writing is one for reading too. Where there is none, a request that writes has to name the service by a
    number or as localhost, unless `by_any_name`: a page of somebody else's may give this machine a name of its own, and
    would then write with its visitor's browser.
    """

    read: Optional[str] = field(default=None, repr=False)
    write: Optional[str] = field(default=None, repr=False)
    by_any_name: bool = False

    def __post_init__(self) -> None:
        for key in (self.read, self.write):
            if key is not None and not (key.isascii() and key.isprintable() and key.strip() == key and len(key) >= 8):
                raise UsageError("a key is 8 characters or more, printable ones of ASCII without spaces around them")

    def allows_name(self, right: str, host: str) -> bool:
        """Whether a request may ask for the right under the name in its header `Host`."""
        if right != WRITE or self.write is not None or self.by_any_name:
            return True
        name = host.partition("]")[0].lstrip("[") if host.startswith("[") else host.partition(":")[0]
        try:
            return name == "localhost" or bool(ipaddress.ip_address(name))
        except ValueError:
            return False

    def status(self, right: str, shown: str) -> int:
        """200 where the header `Authorization`, or its absence as an empty text, gives the right; else 401 or 403."""
        wanted = [key for key in ((self.write,) if right == WRITE else (self.read, self.write)) if key is not None]
        if not wanted or (right == READ and self.read is None):
            return 200
        kind, _, key = shown.partition(" ")
        if kind.lower() != "bearer" or not key:
            return 401
        if any(_is_same(key.strip(), each) for each in wanted):
            return 200
        return 403 if right == WRITE and self.read is not None and _is_same(key.strip(), self.read) else 401


def _is_same(one: str, other: str) -> bool:
    return hmac.compare_digest(one.encode(), other.encode())
