"""Search over a catalogue whose views hold still: a client that starts the program and speaks its line protocol."""

import logging

from .answers import FacetCount, Facets, Hit, Page
from .backups import backup, tar_of
from .catalogue import Catalogue
from .dumps import dump
from .errors import (
    REFUSALS,
    AllHeld,
    BadId,
    BadJson,
    BadLine,
    BadMark,
    BadQuery,
    BadReply,
    Damaged,
    DeviceFailed,
    FolderInUse,
    JasminedomeError,
    NoCommit,
    NoSnapshot,
    NotFacet,
    NotHeld,
    NotSortable,
    NumberSpent,
    OutOfMemory,
    ProgramEnded,
    Refusal,
    Timeout,
    TokenGone,
    TooLarge,
    TooMany,
    UnknownField,
    UsageError,
    WrongKind,
)
from .folders import fields_of
from .highlights import highlighted, marks
from .histograms import Bar, even_edges, histogram
from .journal import Journal
from .putting import PutMany, RefusedItem
from .query import EVERYTHING, NOTHING, Query, all_of, any_of, between, none_of, prefix, quote, term, words
from .questions import Question, facets_of, item_of, page_of, source_of, total_of
from .reindexing import fitted, reindex
from .stats import SegmentStat, Snapshot, Stat
from .typed import folded, searchable, typed
from .version import __version__
from .view import View

__all__ = [
    "AllHeld",
    "BadId",
    "BadJson",
    "BadLine",
    "BadMark",
    "BadQuery",
    "BadReply",
    "Bar",
    "Catalogue",
    "Damaged",
    "DeviceFailed",
    "EVERYTHING",
    "FacetCount",
    "Facets",
    "FolderInUse",
    "Hit",
    "JasminedomeError",
    "Journal",
    "NOTHING",
    "NoCommit",
    "NoSnapshot",
    "NotFacet",
    "NotHeld",
    "NotSortable",
    "NumberSpent",
    "OutOfMemory",
    "Page",
    "ProgramEnded",
    "PutMany",
    "Query",
    "Question",
    "REFUSALS",
    "Refusal",
    "RefusedItem",
    "SegmentStat",
    "Snapshot",
    "Stat",
    "Timeout",
    "TokenGone",
    "TooLarge",
    "TooMany",
    "UnknownField",
    "UsageError",
    "View",
    "WrongKind",
    "__version__",
    "all_of",
    "any_of",
    "backup",
    "between",
    "dump",
    "even_edges",
    "facets_of",
    "fields_of",
    "fitted",
    "folded",
    "highlighted",
    "histogram",
    "item_of",
    "marks",
    "none_of",
    "page_of",
    "prefix",
    "quote",
    "reindex",
    "searchable",
    "source_of",
    "tar_of",
    "term",
    "total_of",
    "typed",
    "words",
]

logging.getLogger(__name__).addHandler(logging.NullHandler())  # whoever wants to hear it sets a handler
