"""The log: writes of many programs in one order, in PostgreSQL, which every replica applies."""

from __future__ import annotations

import contextlib
import json
import os
import threading
import time
import uuid
from dataclasses import dataclass
from itertools import islice
from pathlib import Path
from typing import Any, Dict, Iterable, Iterator, List, Mapping, Optional, Sequence, Tuple, Union

from ..closing import Closing
from ..errors import JasminedomeError, UsageError, refusal
from ..lines import number, text
from ..putting import Item, json_text
from ..query import Query
from .batches import Batch, Delete, DeleteWhere, Mark, Put, Write, first_seal, joined
from .database import Database, refusing, say_together, schema_name
from .errors import LogBehind, NotTold, Skipped, WrongBatch
from .gathering import Gathering
from .rules import own_rules

PATIENCE = 60.0
"""For how many seconds an append waits for PostgreSQL, or for replicas that are too far behind."""

MOST_LEAD = 10_000
"""How many batches the log may be ahead of the slowest replica, where `create` isn't told otherwise."""

SKIPPED = 0
"""What stands in place of a refusal's number for a line that is left out."""

_TOGETHER = 64  # appends in one transaction
_ITEMS = 500  # of one batch of put_many
_BATCHES = """
    SELECT position, mark::text, lines, seal, ARRAY(SELECT s.line FROM skip s WHERE s.position = b.position)
    FROM batch b WHERE position > %s ORDER BY position LIMIT %s
"""
_APPEND = "SELECT append(%s, %s, %s)"
_FIRST_REST, _LONGEST_REST = 0.01, 0.2  # seconds between two looks at what replicas have told
_Appended = Tuple[str, str, str]  # key, mark and lines


@dataclass(frozen=True)
class Head:
    """How a log stands: its id, fields and rules; the position of its newest batch; up to where it was cut."""

    id: str
    fields: Dict[str, str]
    rules: str
    position: int
    seal: bytes
    cut: int
    cut_seal: bytes
    most_lead: int


@dataclass(frozen=True)
class Outcome:
    """What became of a batch: how many of its lines were accepted, and why the others weren't, by their place from 0."""

    accepted: int
    refused: Dict[int, JasminedomeError]


@dataclass(frozen=True)
class Row:
    """What a replica tells of itself. Positions are of the log; at `base` it would start again."""

    name: str
    address: str
    version: str
    position: int
    shown: int
    token: int
    base: int
    is_ready: bool


@dataclass(frozen=True)
class ReplicaRow(Row):
    """What a replica told last, and how many seconds ago."""

    age: float


class Log(Closing):
    """A log of writes. Any thread may call; what many threads append goes into PostgreSQL together.

    A call raises LogUnreachable where PostgreSQL is away for longer than `patience` seconds, LogRefused where it refuses
    a statement (there is no such log, say), and what it names.
    """

    def __init__(self, dsn: str, name: str = "shop", patience: float = PATIENCE) -> None:
        """`dsn` is as libpq has it, `name` the schema of PostgreSQL that the log is in. Connects when called first."""
        self.dsn = text(dsn, "the dsn")
        self.name = schema_name(name)
        self.patience = patience
        self._appending = Database(dsn, name, patience)
        self._gathering: Gathering[_Appended, int] = Gathering(self._append_all, _TOGETHER, WrongBatch)
        self._reading = Database(dsn, name, patience)
        self._reads = threading.Lock()

    @classmethod
    def create(
        cls,
        dsn: str,
        fields: Mapping[str, str],
        name: str = "shop",
        rules: Optional[str] = None,
        most_lead: int = MOST_LEAD,
    ) -> "Log":
        """Makes an empty log for a catalogue of these fields, a schema `name` of PostgreSQL.

        `rules` are those of the programs that will apply it; this package's where nothing is said. Appends of writes are
        refused (LogBehind) while a replica is `most_lead` batches behind; 0 sets no bound. Raises UsageError, LogRefused
        (it is there already), LogUnreachable.
        """
        spelled = json_text({text(field, "the field"): text(fields[field], "the kind") for field in sorted(fields)})
        said, id = rules or own_rules(), os.urandom(8).hex()
        seal = first_seal(id, said, spelled)
        values = (id, spelled, said, seal, seal, number(most_lead, "the lead"))
        columns = "id, fields, rules, position, seal, cut_seal, most_lead"
        statements = [
            (f"CREATE SCHEMA {schema_name(name)}; SET LOCAL search_path = {name}", ()),
            (Path(__file__).with_name("schema.sql").read_text(encoding="utf-8"), ()),
            (f"INSERT INTO head ({columns}) VALUES (%s, %s, %s, 0, %s, %s, %s)", values),
        ]
        say_together(dsn, statements)
        return cls(dsn, name)

    def close(self) -> None:
        """Ends the connections; a later call makes them anew."""
        self._appending.close()
        self._reading.close()

    # Writes

    def append(self, writes: Sequence[Write], mark: Mark = Mark.NOTHING, key: Optional[str] = None) -> int:
        """Appends a batch, whole or not at all, and answers its position.

        The key is the writer's: said again under it, the batch is there once, and the answer is the same. Whoever got
        LogUnreachable says it again. Raises WrongBatch for lines that no log may hold, and for a key of another batch;
        LogBehind where replicas stay too far behind.
        """
        lines = joined(writes)
        given = (uuid.uuid4().hex if key is None else text(key, "the key"), mark.value, lines)
        until = time.monotonic() + self.patience
        rest = _FIRST_REST
        while True:
            try:
                return self._gathering.do(given)
            except LogBehind:
                if time.monotonic() + rest > until:
                    raise
            time.sleep(rest)
            rest = min(_LONGEST_REST, rest * 2)

    def append_in(
        self, connection: Any, writes: Sequence[Write], mark: Mark = Mark.NOTHING, key: Optional[str] = None
    ) -> int:
        """Appends a batch in the transaction of a connection of psycopg2, which commits or rolls back both.

        Say it last, since no other append goes on before the transaction ends. Raises WrongBatch, LogBehind, and what
        psycopg2 raises.
        """
        lines = joined(writes)
        given = (uuid.uuid4().hex if key is None else text(key, "the key"), mark.value, lines)
        with connection.cursor() as cursor:
            cursor.execute("SELECT current_setting('search_path')")
            before = cursor.fetchone()[0]
            cursor.execute(f"SET LOCAL search_path = {self.name}")
            with refusing():
                cursor.execute(_APPEND, given)
            position = int(cursor.fetchone()[0])
            cursor.execute("SELECT set_config('search_path', %s, true)", (before,))
        return position

    def put(self, item: Item, show: bool = False) -> int:
        """Appends an item, a mapping or its JSON text, and answers the position; `show` has it shown at once."""
        return self.append([Put(item)], _shown(show))

    def put_many(self, items: Iterable[Item], key: Optional[str] = None) -> int:
        """Appends items in batches of 500, and answers the position of the last; 0 where there were none.

        Each batch is whole or not there, and all of them aren't: under a `key`, the same items said again go on where
        the first call was stopped.
        """
        if isinstance(items, (str, bytes, Mapping)) or not isinstance(items, Iterable):
            raise UsageError(f"{items!r:.200} are no items: an iterable of mappings or texts of JSON")
        rest, position, count = iter(items), 0, 0
        while True:
            writes = [Put(item) for item in islice(rest, _ITEMS)]
            if not writes:
                return position
            position = self.append(writes, key=None if key is None else f"{key} {count}")
            count += 1

    def delete(self, id: str, show: bool = False) -> int:
        """Appends that the item with the id is taken out; answers the position."""
        return self.append([Delete(id)], _shown(show))

    def delete_where(self, query: Union[str, Query], show: bool = False) -> int:
        """Appends that every item is taken out which the query matches there; answers the position."""
        return self.append([DeleteWhere(query)], _shown(show))

    def refresh(self, keep: bool = False) -> int:
        """Appends a mark, so that everything before it can be read; answers its position.

        Where replicas pulse, marks come by themselves. `keep` makes it an anchor, whose token lasts for the next 48.
        """
        return self.append([], Mark.ANCHOR if keep else Mark.VIEW)

    @contextlib.contextmanager
    def batch(self, key: Optional[str] = None, show: bool = False) -> Iterator["Writing"]:
        """Gathers writes, and appends them as one batch at the end of the `with`, unless that is left by an exception.

        `position` of what it yields is then the batch's. `show` has it shown at once.
        """
        writing = Writing()
        yield writing
        writing.position = self.append(writing.writes, _shown(show), key)

    # What became of them

    def outcome(self, position: int, patience: float = 10.0) -> Outcome:
        """What became of the lines of a batch, once some replica has applied it.

        Raises NotTold where none has within `patience` seconds, and UsageError where there is no such batch (any more).
        """
        self._wait_until_applied(number(position, "the position"), patience)
        found = self._ask("SELECT lines FROM batch WHERE position = %s", (position,))
        if not found:
            raise UsageError(f"the log has no batch {position}, or not any more")
        told = self.refused_in(position, position)
        count = found[0][0].count("\n") + 1 if found[0][0] else 0
        return Outcome(count - len(told), {line: error for (_, line), error in told.items()})

    def refused_in(self, first: int, last: int) -> Dict[Tuple[int, int], JasminedomeError]:
        """The lines of these batches that were refused, by position and place, as far as replicas have told of them."""
        rows = self._ask("SELECT position, line, number FROM refused WHERE position BETWEEN %s AND %s", (first, last))
        return {(position, line): Skipped() if kind == SKIPPED else refusal(kind) for position, line, kind in rows}

    def _wait_until_applied(self, position: int, patience: float) -> None:
        until = time.monotonic() + patience
        rest = _FIRST_REST
        while True:
            applied = self._ask("SELECT max(position) FROM replica")[0][0]
            if applied is not None and applied >= position:
                return
            if time.monotonic() + rest > until:
                raise NotTold(f"no replica has applied {position} yet: the furthest is at {applied}")
            time.sleep(rest)
            rest = min(_LONGEST_REST, rest * 2)

    # How it stands

    @property
    def fields(self) -> Dict[str, str]:
        """The fields of its catalogue, and their kinds."""
        return self.head().fields

    def head(self) -> Head:
        """How the log stands."""
        with self._reads:
            return read_head(self._reading)

    def replicas(self) -> List[ReplicaRow]:
        """What each replica told last, by name."""
        columns = "name, address, version, position, shown, token, base, is_ready"
        age = "extract(epoch FROM clock_timestamp() - at)::float8"
        return [ReplicaRow(*row) for row in self._ask(f"SELECT {columns}, {age} FROM replica ORDER BY name")]

    def batches(self, after: int, count: int) -> List[Batch]:
        """The first `count` batches behind a position, in their order."""
        with self._reads:
            return read_batches(self._reading, number(after, "the position"), number(count, "the count"))

    def digests(self, position: int) -> Dict[str, str]:
        """What each replica has told of all that it shows at a checked anchor, by its name."""
        with self._reads:
            return read_digests(self._reading, number(position, "the position"))

    def forget(self, name: str) -> bool:
        """Forgets a replica that won't come back, so that a cut no longer waits for it; False where there is none."""
        return bool(self._ask("DELETE FROM replica WHERE name = %s RETURNING 1", (text(name, "the name"),)))

    def cut(self, days: float) -> int:
        """Deletes the batches that are older than so many days and that no replica needs; answers up to which position.

        Their keys go with them: a retry that comes later is appended again. Nothing is cut before a replica has told.
        """
        return int(self._ask("SELECT cut(make_interval(secs => %s))", (days * 86_400,))[0][0])

    def skip(self, position: int, line: int, reason: str) -> None:
        """Has every replica leave a line out, by its place in the batch from 0: one that ends every program, say.

        Raises WrongBatch where there is no such line, or some replica has applied it: the others would differ then.
        """
        arguments = (number(position, "the position"), number(line, "the line"), text(reason, "the reason"))
        self._ask("SELECT leave_out(%s, %s, %s)", arguments)

    def _ask(self, sql: str, arguments: Sequence[object] = ()) -> List[Tuple[Any, ...]]:
        with self._reads:
            return self._reading.ask(sql, arguments)

    def _append_all(self, given: Sequence[_Appended]) -> List[int]:
        if len(given) == 1:
            return [int(self._appending.ask(_APPEND, given[0])[0][0])]
        columns = [list(column) for column in zip(*given)]
        return [int(each) for each in self._appending.ask("SELECT append_all(%s, %s, %s)", columns)[0][0]]


class Writing:
    """The writes of a batch in the making; `Log.batch` yields it, and appends it at its end."""

    def __init__(self) -> None:
        self.writes: List[Write] = []
        self.position: Optional[int] = None
        """The batch's position, once it is appended."""

    def put(self, item: Item) -> None:
        """Adds an item, a mapping or its JSON text."""
        self.writes.append(Put(item))

    def delete(self, id: str) -> None:
        """Adds that the item with the id is taken out."""
        self.writes.append(Delete(id))

    def delete_where(self, query: Union[str, Query]) -> None:
        """Adds that every item is taken out which the query matches there."""
        self.writes.append(DeleteWhere(query))


def read_head(database: Database) -> Head:
    """How the log of a connection stands."""
    row = database.ask("SELECT id, fields, rules, position, seal, cut, cut_seal, most_lead FROM head")[0]
    return Head(row[0], json.loads(row[1]), *row[2:])


def read_batches(database: Database, after: int, count: int) -> List[Batch]:
    """The first `count` batches of a connection's log behind a position."""
    rows = database.ask(_BATCHES, (after, count))
    return [Batch(position, Mark(mark), lines, seal, frozenset(skips)) for position, mark, lines, seal, skips in rows]


def read_digests(database: Database, position: int) -> Dict[str, str]:
    """What replicas have told a connection's log of a checked anchor, by their names."""
    rows = database.ask("SELECT name, digest FROM digest WHERE position = %s", (position,))
    return {name: digest for name, digest in rows}


def _shown(show: bool) -> Mark:
    return Mark.VIEW if show else Mark.NOTHING
