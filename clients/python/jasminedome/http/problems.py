"""What goes wrong, as a status of HTTP and an object of JSON."""

from __future__ import annotations

from typing import Dict, Optional, Type

from ..errors import (
    AllHeld,
    BadReply,
    Damaged,
    DeviceFailed,
    JasminedomeError,
    NoCommit,
    NumberSpent,
    OutOfMemory,
    ProgramEnded,
    Refusal,
    Timeout,
    TokenGone,
    UsageError,
)

_STATUS: Dict[Type[JasminedomeError], int] = {
    TokenGone: 410,
    NoCommit: 409,
    AllHeld: 503,
    ProgramEnded: 503,
    Timeout: 504,
    BadReply: 502,
    Damaged: 500,
    DeviceFailed: 507,
    NumberSpent: 507,
    OutOfMemory: 507,
    Refusal: 422,
    UsageError: 422,
    JasminedomeError: 503,
}
"""The status of each exception, or of the nearest class above it."""


class Problem(Exception):
    """A request that isn't done: a status, a name for programs and a message for people; `more` stands beside them."""

    def __init__(self, status: int, name: str, message: str, more: Optional[Dict[str, object]] = None) -> None:
        super().__init__(message)
        self.status = status
        self.name = name
        self.message = message
        self.more = more or {}

    def told(self) -> Dict[str, object]:
        """The object of JSON that the request is answered with."""
        return {"error": self.name, "message": self.message, **self.more}


class Gone(Problem):
    """A token whose view isn't kept any more; `newest` is the token of the newest view."""

    def __init__(self, token: str, newest: str) -> None:
        super().__init__(410, "TokenGone", f"the view {token:.100} isn't kept any more", {"newest": newest})


def unread(message: str) -> Problem:
    """A request that can't be read at all."""
    return Problem(400, "BadRequest", message)


def wrong(message: str) -> Problem:
    """A request that is read, and asks for what there isn't."""
    return Problem(422, "UsageError", message)


def problem_of(error: JasminedomeError) -> Problem:
    """What an exception of the client is answered with."""
    status = next(_STATUS[kind] for kind in type(error).__mro__ if kind in _STATUS)
    more: Dict[str, object] = {}
    if isinstance(error, Refusal):
        more["number"] = error.number
        more.update({"place": error.place} if error.place is not None else {})
        more.update({"detail": error.detail} if error.detail else {})
    if isinstance(error, Timeout):
        more["was_sent"] = error.was_sent
    return Problem(status, type(error).__name__, str(error), more)
