"""Replicas: one log of writes in PostgreSQL, programs on many machines that apply it, and tokens that outlive each of them.

docs/REPLICAS.md says how it is set up and what it promises. It needs psycopg2: `pip install 'jasminedome[postgres]'`.
"""

from .batches import Delete, DeleteWhere, Mark, Put, Write
from .errors import (
    Diverged,
    LogBehind,
    LogDiffers,
    LogRefused,
    LogUnreachable,
    NoReplica,
    NotTold,
    Skipped,
    TokenLost,
    WrongBatch,
)
from .log import Head, Log, Outcome, ReplicaRow, Writing
from .logged import LoggedCatalogue
from .shelves import ShelfView, Shelves, Shown

__all__ = [
    "Delete",
    "DeleteWhere",
    "Diverged",
    "Head",
    "Log",
    "LogBehind",
    "LogDiffers",
    "LogRefused",
    "LogUnreachable",
    "LoggedCatalogue",
    "Mark",
    "NoReplica",
    "NotTold",
    "Outcome",
    "Put",
    "ReplicaRow",
    "ShelfView",
    "Shelves",
    "Shown",
    "Skipped",
    "TokenLost",
    "Write",
    "WrongBatch",
    "Writing",
]
