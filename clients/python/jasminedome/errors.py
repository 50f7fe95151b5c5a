"""What can go wrong: a class for each refusal of the program, and for what is no refusal."""

from __future__ import annotations

import copy
from typing import Dict, Optional, Tuple, Type, TypeVar


class JasminedomeError(Exception):
    """The base of every exception of this package."""


class UsageError(JasminedomeError, ValueError):
    """A call was wrong in itself, and nothing was sent: an argument of a wrong type, a line feed in it, a closed view."""


class Timeout(JasminedomeError, TimeoutError):
    """The program didn't answer within the catalogue's `timeout`. The catalogue stays open, and may be asked again.

    `was_sent` says what the call left. False: nothing of it went out, and nothing of it will ever be done. True: it went
    out, or will, so that it may be done now, later, or not at all where the program ends before. Its reply, if it still
    comes, is matched to this call and dropped; a view that is opened late is closed. A write or a commit may be said
    again, where nobody else writes the same items.
    """

    def __init__(self, seconds: float, was_sent: bool) -> None:
        self.seconds = seconds
        self.was_sent = was_sent
        left = "it was sent, and may be done yet" if was_sent else "nothing of it was sent"
        super().__init__(f"no reply within {seconds:g} s: {left}")

    def __reduce__(self) -> "Tuple[Type[Timeout], Tuple[float, bool]]":
        return type(self), (self.seconds, self.was_sent)


class ProgramEnded(JasminedomeError):
    """The program isn't running any more; whether what was asked last was done isn't known.

    `status` is its exit status (negative: the signal that ended it), or None where it isn't known; `said` is what
    it wrote to standard error, at most the last 2,000 bytes of it.
    """

    def __init__(self, status: Optional[int], said: str = "") -> None:
        self.status = status
        self.said = said.strip()
        text = "the program ended" if status is None else f"the program ended with status {status}"
        super().__init__(f"{text}: {self.said}" if self.said else text)

    def __reduce__(self) -> "Tuple[Type[ProgramEnded], Tuple[Optional[int], str]]":
        return type(self), (self.status, self.said)


class BadReply(JasminedomeError):
    """A reply isn't one of the protocol. Where that leaves open which line the next one answers, the program is ended."""


class Refusal(JasminedomeError):
    """The program refused a line, which changed nothing.

    `number` is the refusal's number in the protocol, `text` what it means in words, and `place` the offset of the
    fault in the query, in bytes of its UTF-8 from 0 (None for every refusal but `BadQuery`). `detail` is what the package
    knows beside: the folder that doesn't open, say; it is empty where it knows nothing.
    """

    number = 0
    text = "the program refused the line"

    def __init__(self, number: Optional[int] = None, place: Optional[int] = None, detail: str = "") -> None:
        if number is not None:
            self.number = number
        self.place = place
        self.detail = detail
        at = "" if place is None else f", at byte {place}"
        super().__init__(f"{self.text}{at} (refusal {self.number}){f': {detail}' if detail else ''}")

    def __reduce__(self) -> "Tuple[Type[Refusal], Tuple[int, Optional[int], str]]":
        return type(self), (self.number, self.place, self.detail)


class BadLine(Refusal):
    """10: the line has no form, as a schema line with a factor or a least number of rows out of range."""

    number = 10
    text = "the line has no form"


class BadJson(Refusal):
    """11: the text of an item or of a schema is no JSON."""

    number = 11
    text = "the text is no JSON"


class UnknownField(Refusal):
    """12: a member of the item is no field of the schema."""

    number = 12
    text = "a member of the item is no field of the schema"


class WrongKind(Refusal):
    """13: a value has the wrong kind, a schema is wrong or isn't the folder's, or a commit's text has a control character."""

    number = 13
    text = "a value has the wrong kind, or the schema is wrong"


class BadId(Refusal):
    """14: the id is missing, or isn't 1 to 64 bytes, each from `!` to `~`."""

    number = 14
    text = "the id is missing or has the wrong form"


class TooLarge(Refusal):
    """15: an item is above 8,192 bytes, a keyword or label above 128, a commit's text above 256, or labels are above 64."""

    number = 15
    text = "an item, a keyword, a label, a list of labels or a commit's text is too large"


class NumberSpent(Refusal):
    """16: all numbers of writes, segments, commits or snapshots are used up."""

    number = 16
    text = "a number is used up"


class NotHeld(Refusal):
    """20: the session doesn't hold the token."""

    number = 20
    text = "the session doesn't hold the token"


class TokenGone(Refusal):
    """21: the token isn't recorded, or not any more."""

    number = 21
    text = "the token isn't recorded"


class AllHeld(Refusal):
    """22: 64 tokens are recorded, and open views hold all of them."""

    number = 22
    text = "64 tokens are recorded and all are held"


class BadMark(Refusal):
    """23: `after` is the number of no record of the view."""

    number = 23
    text = "the mark is no item of the held catalogue"


class BadQuery(Refusal):
    """24: the text is no query; `place` says where it goes wrong, in bytes from 0."""

    number = 24
    text = "the text is no query"


class TooMany(Refusal):
    """25: more than 1,000 entries are asked for at once."""

    number = 25
    text = "more than 1,000 entries are asked for"


class NoCommit(Refusal):
    """26: there is no such commit, or none at all."""

    number = 26
    text = "there is no such commit"


class NoSnapshot(Refusal):
    """27: the commit has no snapshot."""

    number = 27
    text = "the commit has no snapshot"


class NotSortable(Refusal):
    """28: the sort isn't by a number or keyword field."""

    number = 28
    text = "the field can't be sorted by"


class NotFacet(Refusal):
    """29: the field isn't a facet field."""

    number = 29
    text = "the dimension is no facet field"


class DeviceFailed(Refusal):
    """30: a read or a write of the folder failed."""

    number = 30
    text = "a device failed"


class FolderInUse(DeviceFailed):
    """30 of a schema line: another program works over the folder."""

    text = "another program works over the folder"


class Damaged(Refusal):
    """31: a file of the folder is damaged or missing."""

    number = 31
    text = "a file is damaged or missing"


class OutOfMemory(Refusal):
    """40: the program was refused memory."""

    number = 40
    text = "memory was wanting"


REFUSALS: Dict[int, Type[Refusal]] = {kind.number: kind for kind in Refusal.__subclasses__()}
"""The class of each refusal, by its number."""


def refusal(number: int, place: Optional[int] = None) -> Refusal:
    """The exception for a refusal's number; the base class where this package doesn't know the number."""
    return REFUSALS.get(number, Refusal)(number, place)


_Error = TypeVar("_Error", bound=JasminedomeError)


def fresh(error: _Error) -> _Error:
    """An exception like this one that was never raised: one that is raised again and again keeps every caller's frames."""
    return copy.copy(error)
