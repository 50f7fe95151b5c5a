"""The log as a replica reads it: batches in order, each held against its seal, and what replicas tell each other."""

from __future__ import annotations

from dataclasses import dataclass
from typing import Dict, List, Optional, Tuple

from .batches import Batch, next_seal
from .database import Database, Statement
from .errors import Diverged, LogDiffers
from .log import Head, Row, read_batches, read_digests, read_head

NEWEST = 8
"""How many tokens of the newest marks every replica holds."""

ANCHORS = 48
"""How many tokens of the newest anchors it holds; both together stay below the 64 that a program records."""

_FOREVER = 1e9  # seconds
_AT_ONCE = 64  # batches
_TURN = 1.0  # seconds between two looks, where no word comes
_SEAL = "SELECT seal FROM batch WHERE position = %s UNION ALL SELECT cut_seal FROM head WHERE cut = %s"
_PULSE = "SELECT pulse(%s::interval, %s::interval, %s::interval)"
_WINDOW = """
    (SELECT position FROM batch WHERE mark <> '-' AND position <= %s ORDER BY position DESC LIMIT %s) UNION
    (SELECT position FROM batch WHERE mark IN ('a', 'd') AND position <= %s ORDER BY position DESC LIMIT %s) ORDER BY 1
"""
_TOLD = """
    INSERT INTO replica (name, address, version, position, shown, token, base, is_ready)
    VALUES (%s, %s, %s, %s, %s, %s, %s, %s)
    ON CONFLICT (name) DO UPDATE SET
        address = excluded.address, version = excluded.version, position = excluded.position, shown = excluded.shown,
        token = excluded.token, base = excluded.base, is_ready = excluded.is_ready, at = clock_timestamp()
"""
_VIEW = "INSERT INTO view VALUES (%s, %s, %s, %s) ON CONFLICT DO NOTHING"
_REFUSED = "INSERT INTO refused VALUES (%s, %s, %s) ON CONFLICT DO NOTHING"
_DIGEST = "INSERT INTO digest VALUES (%s, %s, %s) ON CONFLICT (position, name) DO UPDATE SET digest = excluded.digest"


@dataclass(frozen=True)
class Pulse:
    """How often, in PostgreSQL's words for an interval, a view, an anchor and a checked anchor are due."""

    views: str = "1s"
    anchors: str = "30s"
    digests: str = "1h"


class Follower:
    """A log from a replica's side, for one thread at a time. It waits for PostgreSQL as long as that takes.

    Calls raise LogRefused, and LogDiffers where the log isn't the one that was applied.
    """

    def __init__(self, dsn: str, name: str) -> None:
        self._database = Database(dsn, name, _FOREVER, listens=True)
        self._news: List[Statement] = []
        self._shown: Dict[int, Tuple[int, str]] = {}

    def close(self) -> None:
        """Ends the connection; the next call makes another."""
        self._database.close()

    def wake(self) -> None:
        """Ends a wait of `next`; from any thread."""
        self._database.wake()

    def stop(self) -> None:
        """Has a call that waits raise LogUnreachable, and a wait of `next` end; from any thread."""
        self._database.patience = 0.0
        self._database.wake()

    def head(self) -> Head:
        """How the log stands."""
        return read_head(self._database)

    def seal_at(self, position: int) -> Optional[bytes]:
        """The seal at a position; None where the log has none such, or not any more."""
        found = self._database.ask(_SEAL, (position, position))
        return bytes(found[0][0]) if found else None

    def window(self, upto: int) -> List[int]:
        """The positions of the marks whose tokens are held once everything up to `upto` is applied."""
        return [row[0] for row in self._database.ask(_WINDOW, (upto, NEWEST, upto, ANCHORS))]

    def batch_at(self, position: int) -> Batch:
        """The batch at a position that the log has."""
        return read_batches(self._database, position - 1, 1)[0]

    def next(self, position: int, seal: bytes) -> List[Batch]:
        """The batches behind a position; none where a second passes in which none comes.

        Each answer begins with a look whether what was applied last is still there, so that a log which lost its end, or
        another log in its place, isn't gone on with: raises LogDiffers.
        """
        found = self._behind(position, seal)
        if not found:
            self._database.wait(_TURN)
            found = self._behind(position, seal)
        return found

    def _behind(self, position: int, seal: bytes) -> List[Batch]:
        found = read_batches(self._database, position - 1, _AT_ONCE + 1)
        last = found.pop(0).seal if found and found[0].position == position else self.seal_at(position)
        if last != seal:
            has = "no such batch" if last is None else "another past"
            raise LogDiffers(f"at {position} the log has {has}: it lost its end, was cut there, or is another")
        for batch in found:
            position += 1
            if batch.position != position:
                raise LogDiffers(f"the log has no batch {position}, and {batch.position}: it was cut")
            seal = next_seal(seal, batch.mark, batch.lines)
            if seal != batch.seal:
                raise LogDiffers(f"at {position} the log's bytes aren't those of its seal")
        return found

    # What replicas tell

    def note_refused(self, position: int, line: int, number: int) -> None:
        """Has it told that a line was refused, or left out (0)."""
        self._news.append((_REFUSED, (position, line, number)))

    def note_shown(self, position: int, token: int, refusals: str, name: str) -> None:
        """Has it told which token a mark has here, and the sum of all refusals before it."""
        self._news.append((_VIEW, (position, token, refusals, name)))
        self._shown[position] = token, refusals

    def note_digest(self, position: int, name: str, digest: str) -> None:
        """Has it told what a checked anchor shows here."""
        self._news.append((_DIGEST, (position, name, digest)))

    def tell(self, row: Row) -> None:
        """Tells how far this is, and all that was noted; holds it against what the others told.

        Raises Diverged where another replica was told another token or other refusals at a mark, or LogUnreachable: what
        was noted is told at the next call then.
        """
        columns = (row.name, row.address, row.version, row.position, row.shown, row.token, row.base, row.is_ready)
        self._database.tell([*self._news, (_TOLD, columns)])
        shown = dict(self._shown)
        if shown:
            for position, *told in self._database.ask(
                "SELECT position, token, refusals FROM view WHERE position = ANY(%s)", (list(shown),)
            ):
                if tuple(told) != shown[position]:
                    raise Diverged(f"at {position} this is at {shown[position]}, and another replica at {tuple(told)}")
        self._news.clear()
        self._shown.clear()

    def pulse(self, pulse: Pulse) -> None:
        """Appends the mark that is due, if one is."""
        self._database.ask(_PULSE, (pulse.views, pulse.anchors, pulse.digests))

    def digests(self, position: int) -> Dict[str, str]:
        """What each replica has told of a checked anchor, by its name."""
        return read_digests(self._database, position)

    def others(self, name: str) -> List[str]:
        """The addresses of the other replicas, whoever told last first."""
        rows = self._database.ask("SELECT address FROM replica WHERE name <> %s ORDER BY at DESC", (name,))
        return [row[0] for row in rows]

