"""Many items at once: they go out ahead of their replies, and what was refused is told by its place."""

from __future__ import annotations

import json
from dataclasses import dataclass
from typing import Any, Callable, List, Mapping, Optional, Sequence, Tuple, Union

from .errors import JasminedomeError, Refusal, UsageError
from .faults import faults
from .lines import MAX_LINE, line, reading
from .replies import Limit, Replies, read_refusal

Item = Union[str, Mapping[str, object]]
Numbered = Tuple[int, Item]
Told = Union[int, Refusal]
"""What became of a write: its number, or why it was refused."""

BATCH = 512
"""How many items go out in one write."""

AHEAD = 8
"""How many batches wait for replies at the same time."""

_WRITES = ("PUT ", "DEL ", "DELW ")
_MAX_CHARACTER = 4  # bytes of one in UTF-8
_to_json = json.JSONEncoder(ensure_ascii=False, allow_nan=False, separators=(",", ":")).encode


@dataclass(frozen=True)
class RefusedItem:
    """An item that wasn't put: which one it was, from 0, and why (a Refusal, or a UsageError where it wasn't sent)."""

    index: int
    error: JasminedomeError


@dataclass(frozen=True)
class PutMany:
    """How many items were put, the number of the last write among them (None where none was), and what was refused."""

    accepted: int
    last: Optional[int]
    refused: Tuple[RefusedItem, ...]


class Load:
    """The items of one `put_many`: what goes out, what came back, and what was refused."""

    def __init__(self, session: int, fields: Mapping[str, str], progress: Optional[Callable[[int], object]] = None) -> None:
        self.session = session
        self._fields = fields
        self._head = f"{session} PUT "
        self._ok = b"%d OK " % session
        self._progress = progress
        self._refused: List[RefusedItem] = []
        self._accepted = 0
        self._answered = 0
        self._last: Optional[int] = None

    def lines(self, items: Sequence[Numbered]) -> Tuple[bytes, Sequence[Numbered]]:
        """The lines of the items that can be sent, and these; notes the others."""
        together = self._together(items)
        if together is not None:
            return together, items
        lines: List[bytes] = []
        sent: List[Numbered] = []
        for index, item in items:
            try:
                lines.append(line(self._head + item_text(item)))
            except UsageError as error:
                self._refused.append(RefusedItem(index, error))
                self._answered += 1
            else:
                sent.append((index, item))
        return b"".join(lines), sent

    def _together(self, items: Sequence[Numbered]) -> Optional[bytes]:
        """The lines of all items, made in one go, which is twice as fast; None where one may not be fit to be sent."""
        if not {type(item) for _, item in items} <= {dict, str}:
            return None
        try:
            texts = [item if isinstance(item, str) else _to_json(item) for _, item in items]
            ended = "\n".join(texts) + "\n"
            are_lines = ended.count("\n") == len(texts) and "\r\n" not in ended
            if are_lines and max(map(len, texts)) <= (MAX_LINE - len(self._head)) // _MAX_CHARACTER:
                return (self._head + ended[:-1].replace("\n", "\n" + self._head) + "\n").encode()
        except (TypeError, ValueError, RecursionError):
            pass  # one item is at fault, and which one is found by a look at each
        return None

    def note(self, replies: Replies, sent: Sequence[Numbered], limit: Limit) -> None:
        """Waits for the replies to these items, and notes them."""
        last = b""
        for (index, item), reply in zip(sent, replies.wait(limit)):
            if reply.startswith(self._ok):
                self._accepted += 1
                last = reply[len(self._ok) :]
            else:
                self._refused.append(RefusedItem(index, explained(read_refusal(reply), item, self._fields)))
        if last:
            with reading():
                self._last = int(last)
        self._answered += len(sent)
        if self._progress is not None:
            self._progress(self._answered)

    def told(self) -> PutMany:
        """All that was noted."""
        refused = tuple(sorted(self._refused, key=lambda each: each.index))
        return PutMany(self._accepted, self._last, refused)


def write_line(said: object) -> str:
    """A line that writes, behind the session's number. Raises UsageError for any other."""
    if not isinstance(said, str) or not said.startswith(_WRITES):
        raise UsageError(f"{said!r:.200} isn't PUT, DEL or DELW and its argument")
    return said


def written(replies: Sequence[bytes], session: int) -> List[Told]:
    """What the replies to lines that write tell of each. Raises BadReply."""
    ok = b"%d OK " % session
    with reading():
        return [int(each[len(ok) :]) if each.startswith(ok) else read_refusal(each) for each in replies]


def explained(refusal: Refusal, item: Item, fields: Mapping[str, str]) -> Refusal:
    """The refusal of an item, with the members that are at fault."""
    return type(refusal)(refusal.number, refusal.place, faults(item, fields))


def item_text(item: object) -> str:
    """The JSON text of an item. Raises UsageError where it is neither a text nor a mapping, or no JSON."""
    if isinstance(item, str):
        return item
    if not isinstance(item, Mapping):
        raise UsageError(f"{item!r:.200} is no item: neither a mapping nor a text of JSON")
    return json_text(item if isinstance(item, dict) else dict(item))


def json_text(value: Any) -> str:
    """The value's JSON text. Raises UsageError where it has none."""
    try:
        return _to_json(value)
    except (TypeError, ValueError, RecursionError) as error:
        raise UsageError(f"no JSON: {error}") from None
