"""The catalogue: a running program, and everything that can be asked of it."""

from __future__ import annotations

import asyncio
import contextlib
import logging
import weakref
from collections import deque
from itertools import islice
from typing import Callable, Deque, Iterable, Iterator, List, Mapping, Optional, Sequence, Tuple, Union

from .closing import Closing
from .errors import JasminedomeError, Refusal, Timeout, UsageError
from .lines import line, number, reading, seconds
from .lines import text as _text
from .program import Program
from .putting import AHEAD, BATCH, Item, Load, Numbered, PutMany, Told, explained, item_text, write_line, written
from .query import Query, query_text
from .replies import NEVER, Limit, Replies, Reply, Together
from .sessions import UPKEEP, Sessions
from .starting import Command, Folder, command_for, folder_path, schema_line, threads_of
from .starting import explained as explained_opening
from .stats import Snapshot, Stat, most_segments, read_stat
from .view import View

_MOST_SETS = 64  # sets that are kept

log = logging.getLogger("jasminedome")

More = Callable[[str], int]
"""Of what follows OK in a reply's first line, how many lines the reply goes on for."""


class Catalogue(Closing):
    """A catalogue that a program of its own serves; a context manager, which ends the program.

    `fields` maps each field's name to its kind: "text", "keyword", "number" or "facet". `folder` is one that exists,
    for a catalogue that outlives the program; None keeps it in memory. `factor` (2 to 100) and `least` (1 to 100,000
    rows) say when segments are merged: with 1,024 or more a full buffer's segment is of the lowest level, as those of a
    REFRESH are, so that merges go on. `program` is the program's path, or a command with arguments; without it the
    environment variable JASMINEDOME_PROGRAM is asked, and then `catalogue` on the PATH. `timeout` is how many seconds a
    call waits for its reply; None waits for ever. `threads`, 1 to 64, has as many threads of the program answer the
    calls, so that calls of different threads and views go on side by side; such a program merges, sweeps and makes
    cached sets by itself.

    Any thread may call: each speaks under a session of its own, and so does each open view, 9,999 in all. A call
    raises the Refusal that the program answers (those that it names), ProgramEnded where the program is gone, Timeout,
    and UsageError for what can't be sent. The program is in a session of its own, so that an interrupt at the terminal
    doesn't end it; one that comes in a call leaves a catalogue that can be asked.
    """

    def __init__(
        self,
        fields: Mapping[str, str],
        folder: Optional[Folder] = None,
        factor: int = 10,
        least: int = 1024,
        program: Optional[Command] = None,
        timeout: Optional[float] = None,
        threads: Optional[int] = None,
    ) -> None:
        """Starts the program. Raises WrongKind for wrong fields, or ones that aren't the folder's; BadLine for a factor
        or least out of range; DeviceFailed and Damaged for a folder that can't be opened, FolderInUse for one that
        another program has; ProgramEnded where the program can't be started.
        """
        schema = schema_line(fields, factor, least)
        self.folder = folder_path(folder)
        self.fields = dict(fields)
        self._factor, self._least = factor, least
        self.timeout = timeout
        self.threads = threads_of(threads)
        command = command_for(program, self.folder, self.threads)
        self._program = Program(command, is_threaded=self.threads is not None)
        self._sessions = Sessions()
        self._left: Deque[Tuple[int, int]] = deque()
        self._leave = weakref.finalize(self, self._program.leave)
        self.opened_at = self._opened(schema)
        """The number of writes that it opened with."""

    def _opened(self, schema: str) -> int:
        try:
            with reading():
                return int(self._program.ask(None, schema, limit=self._limit())[0])
        except Refusal as refused:
            self.close()
            raise explained_opening(refused, self.folder, self.fields, self._program.last_words) from None
        except Timeout:
            self._leave.detach()
            self._program.close(patience=0)
            raise
        except BaseException:
            self.close()
            raise

    def __repr__(self) -> str:
        where = "memory" if self.folder is None else repr(self.folder)
        return f"<Catalogue in {where}, process {self.pid}{'' if self._leave.alive else ', closed'}>"

    async def __aexit__(self, *_: object) -> None:
        await asyncio.to_thread(self.close)

    def close(self) -> None:
        """Ends the program, once it has answered what was asked, and waits for its end. Nothing is committed by this.

        Every later call raises UsageError. A second call does nothing.
        """
        self._leave.detach()
        self._program.close()

    @property
    def pid(self) -> int:
        """The program's process id."""
        return self._program.pid

    @property
    def timeout(self) -> Optional[float]:
        """How many seconds a call waits; None waits for ever. It may be set, and holds for calls that begin later."""
        return self._timeout

    @timeout.setter
    def timeout(self, value: Optional[float]) -> None:
        self._timeout = seconds(value)

    def _limit(self) -> Limit:
        return NEVER if self._timeout is None else Limit(self._timeout)

    # Writes

    def put(self, item: Item) -> int:
        """Puts an item, a mapping or its JSON text, in place of the one with its `id`; answers the write's number.

        Raises BadJson, WrongKind, BadId, UnknownField, TooLarge, NumberSpent, DeviceFailed, OutOfMemory; UsageError
        where it is no JSON at all, or the line passes 10,000 bytes.
        """
        try:
            return self._number(f"PUT {item_text(item)}")
        except Refusal as refused:
            raise explained(refused, item, self.fields) from None

    def put_many(self, items: Iterable[Item], progress: Optional[Callable[[int], object]] = None) -> PutMany:
        """Puts items in order without waiting for each reply, and tells which were refused; the others are put.

        `progress` is called with how many items were answered so far, every 512 items or so. Raises ProgramEnded,
        Timeout, and what `items` or `progress` raise, or an interrupt: of the items that were taken from `items` before,
        the first so many are put then, and the catalogue can be asked how it stands (`stat().writes`).
        """
        if isinstance(items, (str, bytes, Mapping)) or not isinstance(items, Iterable):
            raise UsageError(f"{items!r:.200} are no items: an iterable of mappings or texts of JSON")
        if progress is not None and not callable(progress):
            raise UsageError(f"the progress {progress!r:.200} can't be called")
        load = Load(self._session(), self.fields, progress)
        waiting: Deque[Tuple[Replies, Sequence[Numbered]]] = deque()
        numbered = enumerate(items)
        while True:
            batch = list(islice(numbered, BATCH))
            if not batch:
                break
            data, sent = load.lines(batch)
            if sent:
                replies = Replies(len(sent), load.session)
                self.close_left()
                self._program.send(data, replies, self._limit())
                waiting.append((replies, sent))
            if len(waiting) >= AHEAD:
                load.note(*waiting.popleft(), self._limit())
        for replies, sent in waiting:
            load.note(replies, sent, self._limit())
        return load.told()

    def say_many(self, lines: Iterable[str]) -> List[Told]:
        """Says writes in order without waiting for each reply: `PUT {..}`, `DEL id` and `DELW query`, as the protocol has
        them behind the session's number. Answers for each the write's number, or the Refusal, which changed nothing.

        Raises UsageError, before anything is sent, where one is no such line; ProgramEnded, and Timeout.
        """
        session = self._session()
        said = [line(f"{session} {write_line(each)}") for each in lines]
        waiting: Deque[Replies] = deque()
        told: List[Told] = []
        self.close_left()
        for start in range(0, len(said), BATCH):
            batch = said[start : start + BATCH]
            replies = Replies(len(batch), session)
            self._program.send(b"".join(batch), replies, self._limit())
            waiting.append(replies)
            if len(waiting) >= AHEAD:
                told += written(waiting.popleft().wait(self._limit()), session)
        for replies in waiting:
            told += written(replies.wait(self._limit()), session)
        return told

    def delete(self, id: str) -> int:
        """Takes out the item with the id, if there is one; answers the write's number.

        Raises BadId, NumberSpent, DeviceFailed.
        """
        return self._number(f"DEL {_text(id, 'the id')}")

    def delete_where(self, query: Union[str, Query]) -> int:
        """Takes out every item that the query matches now; answers the write's number.

        Raises BadQuery, NumberSpent, DeviceFailed, OutOfMemory.
        """
        return self._number(f"DELW {query_text(query)}")

    # Views

    def refresh(self) -> int:
        """Records the catalogue as it is now, so that it can be opened; answers its token, the number of writes so far.

        Raises AllHeld (64 tokens are recorded and open views hold all), NumberSpent, DeviceFailed, OutOfMemory.
        """
        return self._number("REFRESH")

    def open(self, token: Optional[int] = None) -> View:
        """Opens a view: the newest that was recorded, or the one of a token. What was written since isn't in it.

        Raises TokenGone, OutOfMemory.
        """
        asked = "OPEN" if token is None else f"OPEN {number(token, 'the token')}"
        self.close_left()  # first of all, since their sessions may be the only ones
        session, limit = self._sessions.take(), self._limit()
        reply = Reply(session, lambda _: 0)
        try:
            self._program.send(line(f"{session} {asked}"), reply, limit)
            with reading():
                opened = int(reply.wait(limit)[0])
        except BaseException as error:
            if isinstance(error, JasminedomeError) and not (isinstance(error, Timeout) and error.was_sent):
                self._sessions.give(session)
            else:
                _close_late(reply, session, self._left, self._sessions)
            raise
        return View(self, session, opened, self._left)

    def prune(self, keep: int) -> int:
        """Drops the recorded tokens but the newest `keep` (1 at the least) and those of open views; answers how many.

        Raises OutOfMemory.
        """
        return self._number(f"PRUNE {number(keep, 'keep')}")

    # Commits

    def commit(self, text: str = "") -> int:
        """Makes what was written outlive the program, with a text of 0 to 256 bytes; answers the commit's generation.

        Raises TooLarge and WrongKind for the text (no control characters), NumberSpent, DeviceFailed, OutOfMemory.
        """
        note = _text(text, "the commit's text")
        return self._number(f"COMMIT {note}" if note else "COMMIT")

    def note(self, generation: int) -> str:
        """The text of a commit that is kept. Raises NoCommit, OutOfMemory."""
        return self.ask(f"NOTE {number(generation, 'the generation')}")[0][1:]

    @contextlib.contextmanager
    def snapshot(self) -> Iterator[Snapshot]:
        """Keeps the newest commit, whatever is committed and swept meanwhile, until the end of the `with`.

        Raises NoCommit, NumberSpent, OutOfMemory.
        """
        generation = self._number("SNAP")
        try:
            yield Snapshot(generation, tuple(self.ask(f"FILES g {generation}", int)[1:]))
        finally:
            self.ask(f"UNSNAP {generation}")

    # Upkeep

    def merge(self) -> int:
        """Merges segments, step by step, until nothing is to be merged; answers how many merges were ended.

        Raises NumberSpent, DeviceFailed, Damaged, OutOfMemory, each of which ends the merge that was under way.
        """
        return self._steps("MERGE").count("done")

    def force(self) -> bool:
        """Begins a merge of all segments, and ends it; False where there was nothing to merge. Raises what `merge` does."""
        told = self.ask("FORCE", session=UPKEEP)[0]
        while told == "busy":
            self.ask("MERGE", session=UPKEEP)
            told = self.ask("FORCE", session=UPKEEP)[0]
        if told == "idle":
            return False
        while self.ask("MERGE", session=UPKEEP)[0] not in ("done", "idle"):
            pass
        return True

    def warm(self) -> int:
        """Makes the cached sets of the queries that were asked last; answers how many it made.

        It ends when none is missing, and at 64 in any case: as many are kept, and a further one would only take the place
        of one of these. Raises OutOfMemory.
        """
        made = 0
        while made < _MOST_SETS:
            told = self.ask("WARM", session=UPKEEP)[0]
            if told == "idle":
                break
            made += told == "stored"
        return made

    def upkeep(self) -> Stat:
        """Merges what is due, to the end, and deletes the files that nobody needs; answers how the catalogue stands then.

        Where more segments stand than merges leave (`factor - 1` of each level), no merge is due for their sizes don't
        fit together: then all are forced into one, which the program does up to 262,144 rows. Raises what `merge`,
        `force` and `sweep` do.
        """
        self.merge()
        stat = self.stat()
        if len(stat.segments) > most_segments(stat, self._factor, self._least):
            is_forced = self.force()
            what = "are one now" if is_forced else "can't be forced into one"
            log.info("%d segments stood, and %s", len(stat.segments), what)
        self.sweep()
        return self.stat()

    def sweep(self) -> int:
        """Deletes the files that nobody uses any more; answers how many. Raises DeviceFailed."""
        return self._number("SWEEP", UPKEEP)

    def stat(self) -> Stat:
        """How the catalogue stands, with the number of sets that are cached. Raises OutOfMemory."""
        return read_stat(self.ask("STAT", lambda told: int(told.split(" ")[2]), session=UPKEEP))

    def _steps(self, command: str) -> List[str]:
        told: List[str] = []
        while not told or told[-1] != "idle":
            told.append(self.ask(command, session=UPKEEP)[0])
        return told

    # Lines

    def ask(self, text: str, more: More = lambda _: 0, session: Optional[int] = None) -> List[str]:
        """Sends a line and waits for its reply: for what this package has no method for.

        `text` is the line behind the session's number, which is the calling thread's where none is given. `more` says,
        of what follows OK, how many lines the reply goes on for. Answers these, without OK and the session's number.
        """
        asked = _text(text, "the line")
        self.close_left()  # first of all, since a thread may get the session of one
        return self._program.ask(self._session(session), asked, more, self._limit())

    def ask_many(self, asked: Iterable[Tuple[str, More]], session: Optional[int] = None) -> List[List[str]]:
        """Sends lines in one piece, each with its `more`, and waits for all of their replies, as `ask` does for one.

        Raises the first Refusal among them.
        """
        self.close_left()
        speaker, limit = self._session(session), self._limit()
        data, replies = [], []
        for spelled, more in asked:
            data.append(line(f"{speaker} {_text(spelled, 'the line')}"))
            replies.append(Reply(speaker, more))
        if replies:
            self._program.send(b"".join(data), Together(replies), limit)
        return [reply.wait(limit) for reply in replies]

    def _session(self, session: Optional[int] = None) -> int:
        return self._sessions.own() if session is None else number(session, "the session")

    def _number(self, text: str, session: Optional[int] = None) -> int:
        told = self.ask(text, session=session)[0]
        with reading():
            return int(told)

    def close_left(self) -> None:
        """Closes the views that were closed or forgotten; every call begins with it."""
        while self._left:
            try:
                session, token = self._left.popleft()
            except IndexError:  # another thread was first
                return
            try:
                # Whatever the session says next comes behind this line, so the number is free at once.
                self._program.send(line(f"{session} CLOSE {token}"), Reply(session, lambda _: 0), Limit(0))
            except JasminedomeError as error:
                if isinstance(error, Timeout) and not error.was_sent:  # the pipe is full: at a later call
                    self._left.appendleft((session, token))
                    return
            except BaseException:
                self._left.appendleft((session, token))
                raise
            self._sessions.give(session)


def _close_late(reply: Reply, session: int, left: "Deque[Tuple[int, int]]", sessions: Sessions) -> None:
    """Has the view closed that the reply may open yet, for which nobody waits any more, and its session given back."""

    def settle() -> None:
        token = reply.accepted
        if token is not None and token.isdigit():
            left.append((session, int(token)))
        else:
            sessions.give(session)

    reply.then(settle)
