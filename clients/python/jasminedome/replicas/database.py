"""A connection to PostgreSQL that comes back: statements are said again while it is away."""

from __future__ import annotations

import contextlib
import os
import re
import select
import time
import weakref
from typing import Any, Iterator, List, Optional, Sequence, Tuple

try:
    import psycopg2
except ImportError:
    raise ImportError("jasminedome.replicas speaks with PostgreSQL by psycopg2: pip install 'jasminedome[postgres]'") from None

from ..errors import UsageError
from .errors import LogBehind, LogRefused, LogUnreachable, WrongBatch

Statement = Tuple[str, Sequence[object]]
"""A statement and its arguments."""

CHANNEL = "jasminedome"

_AWAY = (psycopg2.OperationalError, psycopg2.InterfaceError)
_NAME = re.compile(r"[a-z][a-z0-9_]{0,62}\Z")
_FIRST_REST, _LONGEST_REST = 0.02, 0.5  # seconds before a statement is said again
_CONNECTING = 5  # seconds
_REFUSED_BY = {"JD001": WrongBatch, "JD002": LogBehind}


def schema_name(name: object) -> str:
    """The name of a log, where it can be one of a schema of PostgreSQL. Raises UsageError."""
    if not isinstance(name, str) or not _NAME.match(name) or name.startswith("pg_"):
        raise UsageError(f"the log's name {name!r:.100} isn't a small letter and then small letters, digits and _")
    return name


class Database:
    """A connection for one thread at a time, whose statements are each a transaction of their own."""

    def __init__(self, dsn: str, schema: str, patience: float, listens: bool = False) -> None:
        """`dsn` is as libpq has it; `patience` are the seconds in which PostgreSQL may be away, and may be set at any time.

        Connects when asked first. One that `listens` hears of appends.
        """
        self._dsn = dsn
        self._schema = schema_name(schema)
        self.patience = patience
        self._listens = listens
        self._connection: Optional[Any] = None
        self._woken, self._wakes = os.pipe() if listens else (-1, -1)
        if listens:
            weakref.finalize(self, _close, self._woken, self._wakes)

    def close(self) -> None:
        """Ends the connection; the next statement makes another."""
        if self._connection is not None:
            with contextlib.suppress(*_AWAY):
                self._connection.close()
        self._connection = None

    def ask(self, sql: str, arguments: Sequence[object] = ()) -> List[Tuple[Any, ...]]:
        """The rows of a statement, which is said again while PostgreSQL is away.

        Raises LogUnreachable where it is away for longer than the patience; WrongBatch, LogBehind and LogRefused.
        """
        begun = time.monotonic()
        rest = _FIRST_REST
        while True:
            try:
                return self._ask_once(sql, arguments)
            except _AWAY as error:
                self.close()
                if time.monotonic() - begun > self.patience:
                    raise LogUnreachable(f"PostgreSQL is away: {str(error).strip()}") from None
                time.sleep(rest)
                rest = min(_LONGEST_REST, rest * 2)
            except psycopg2.Error as error:
                raise _refused(error) from None

    def tell(self, statements: Sequence[Statement]) -> None:
        """Says what may be lost, in one transaction that waits for no disk. Raises LogUnreachable and LogRefused."""
        try:
            with self._connected().cursor() as cursor:
                cursor.execute("BEGIN; SET LOCAL synchronous_commit = off")
                for sql, arguments in statements:
                    cursor.execute(sql, arguments)
                cursor.execute("COMMIT")
        except _AWAY as error:
            self.close()
            raise LogUnreachable(f"PostgreSQL is away: {str(error).strip()}") from None
        except psycopg2.Error as error:
            self.close()
            raise _refused(error) from None

    def wait(self, seconds: float) -> None:
        """Waits for a word that something was appended, for `wake`, or for the time to pass; for one that listens."""
        try:
            connection = self._connected()
            if not connection.notifies:
                there = select.select([connection, self._woken], [], [], seconds)[0]
                if self._woken in there:
                    os.read(self._woken, 4096)
                if connection not in there:
                    return
            connection.poll()
            connection.notifies.clear()
        except _AWAY:
            self.close()
            time.sleep(_FIRST_REST)

    def wake(self) -> None:
        """Ends a wait, or the next one; from any thread."""
        os.write(self._wakes, b".")

    def _ask_once(self, sql: str, arguments: Sequence[object]) -> List[Tuple[Any, ...]]:
        with self._connected().cursor() as cursor:
            cursor.execute(sql, arguments or None)
            return [tuple(map(_plain, row)) for row in cursor.fetchall()] if cursor.description else []

    def _connected(self) -> Any:
        if self._connection is None or self._connection.closed:
            connection = psycopg2.connect(
                self._dsn, connect_timeout=_CONNECTING, options=f"-c search_path={self._schema}", application_name=CHANNEL
            )
            connection.autocommit = True
            if self._listens:  # before anything is read, so that no word is lost between
                with connection.cursor() as cursor:
                    cursor.execute(f"LISTEN {CHANNEL}")
            self._connection = connection
        return self._connection


def say_together(dsn: str, statements: Sequence[Statement]) -> None:
    """Says statements in one transaction of a connection of its own.

    Raises LogUnreachable, and LogRefused; none of them holds then.
    """
    try:
        connection = psycopg2.connect(dsn, connect_timeout=_CONNECTING)
    except psycopg2.Error as error:
        raise LogUnreachable(f"PostgreSQL is away: {str(error).strip()}") from None
    try:
        with connection, connection.cursor() as cursor:
            for sql, arguments in statements:
                cursor.execute(sql, arguments or None)
    except psycopg2.Error as error:
        raise LogRefused(_first_line(error)) from None
    finally:
        connection.close()


@contextlib.contextmanager
def refusing() -> Iterator[None]:
    """Around a statement of somebody else's connection: what the log's own functions raise is what it means."""
    try:
        yield
    except psycopg2.Error as error:
        found = _known(error)
        raise error if found is None else found from None


def _refused(error: Exception) -> Exception:
    return _known(error) or LogRefused(_first_line(error))


def _known(error: Exception) -> Optional[Exception]:
    known = _REFUSED_BY.get(getattr(error, "pgcode", None) or "")
    return known(_first_line(error)) if known else None


def _first_line(error: Exception) -> str:
    return str(error).strip().split("\n")[0]


def _close(*descriptors: int) -> None:
    for each in descriptors:
        os.close(each)


def _plain(value: object) -> object:
    return bytes(value) if isinstance(value, memoryview) else value
