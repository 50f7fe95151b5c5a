"""How a catalogue stands: what STAT and SNAP tell of it."""

from __future__ import annotations

from dataclasses import dataclass
from typing import Sequence, Tuple

from .lines import reading


@dataclass(frozen=True)
class SegmentStat:
    """A segment: its number, its rows, and how many of them are live."""

    number: int
    rows: int
    live: int


@dataclass(frozen=True)
class Stat:
    """How many writes were taken, items are buffered, tokens recorded, sets cached, and names of files pending."""

    writes: int
    buffered: int
    recorded: int
    cached: int
    pending: int
    segments: Tuple[SegmentStat, ...]

    @property
    def rows(self) -> int:
        """The rows of all segments, those that are not live too."""
        return sum(each.rows for each in self.segments)

    @property
    def live(self) -> int:
        """The rows that are live."""
        return sum(each.live for each in self.segments)


@dataclass(frozen=True)
class Snapshot:
    """A commit that is kept, by its generation; `files` are the names of its files, its own first.

    A copy of these files in another folder, made while the snapshot stands, opens at that commit.
    """

    generation: int
    files: Tuple[str, ...]


def read_stat(told: Sequence[str]) -> Stat:
    """The lines of a reply to STAT. Raises BadReply."""
    first, *lines = told
    with reading():
        writes, buffered, _, recorded, cached, pending = (int(word) for word in first.split(" "))
        segments = tuple(SegmentStat(*(int(word) for word in line.split(" "))) for line in lines)
    return Stat(writes, buffered, recorded, cached, pending, segments)


def most_segments(stat: Stat, factor: int, least: int) -> int:
    """How many segments may stand where merges keep up: `factor - 1` of each level up to the greatest one's.

    A segment is of level 0 with at most `least` rows, and of each further level with at most `factor` times as many.
    """
    levels, most = 1, least
    greatest = max((each.rows for each in stat.segments), default=0)
    while most < greatest:
        levels, most = levels + 1, most * factor
    return levels * (factor - 1)
