"""What may go wrong between a log, its replicas and their readers."""

from __future__ import annotations

from ..errors import JasminedomeError, TokenGone, UsageError


class WrongBatch(UsageError):
    """A batch that no log may hold, or a key that was used for another one: nothing was appended."""


class LogBehind(JasminedomeError):
    """The replicas are too far behind the log, so that it takes no more for now: nothing was appended."""


class LogUnreachable(JasminedomeError):
    """PostgreSQL couldn't be asked within the patience. Whether the last append is there isn't known: say its key again."""


class LogRefused(JasminedomeError):
    """PostgreSQL refused a statement: there is no such log, say, or its settings would lose what was appended."""


class LogDiffers(JasminedomeError):
    """The log isn't the one that was applied, or was cut behind what is needed: nothing of it can be applied here."""


class Diverged(JasminedomeError):
    """This replica was answered otherwise than others were for the same writes: it can't go on by itself."""


class Tainted(JasminedomeError):
    """A program did what the others don't do, so that its process is given up, and a base is opened again."""


class TokenLost(TokenGone):
    """No replica has the token, or not any more: the visitor is to be shown the newest, and told so."""

    text = "no replica has the token"


class NoReplica(JasminedomeError):
    """No replica could be asked, or none came so far in time."""


class NotTold(JasminedomeError):
    """No replica has told in time what became of a batch. It stands in the log, and will be applied."""


class Skipped(JasminedomeError):
    """The line is left out by every replica, since somebody said so."""
