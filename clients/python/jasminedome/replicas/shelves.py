"""Readers of replicas: a read under a token goes to one of them, and on to the next where that one is lost."""

from __future__ import annotations

import contextlib
import itertools
import json
import logging
import re
import threading
import time
from collections import deque
from typing import Any, Callable, Deque, Dict, Iterable, List, NamedTuple, Optional, Sequence, Tuple, TypeVar, Union

from ..closing import Closing
from ..errors import BadReply, JasminedomeError, Refusal, UsageError
from ..lines import line, number, reading, text
from ..replies import Reply
from ..view import Reads
from .applying import READER
from .engine import is_own_trouble
from .errors import NoReplica, TokenLost
from .log import Log
from .wire import GONE, Wire, endpoint

Picked = TypeVar("Picked")
Told = Dict[str, Any]
"""What a replica answers to STATUS."""

SILENCE = 2.0
"""After how many seconds in which nothing comes a replica is taken for lost, where nothing else is said."""

PATIENCE = 5.0
"""For how many seconds a call goes round the replicas, where nothing else is said."""

log = logging.getLogger("jasminedome")

_FIRST_REST, _LONGEST_REST = 0.5, 10.0  # seconds in which a replica that failed isn't asked
_TURN = 0.1  # seconds between two rounds
_ALIVE = 60.0  # seconds since its last word in which a replica counts
_LOOKED = 5.0  # seconds between two looks into the log for addresses
_IDLE = 16  # connections of one replica that are kept for later calls
_TOKEN = re.compile(r"(0|[1-9][0-9]{0,18})(-[0-9a-f]{12})?\Z", re.ASCII)  # or a stamp
_Asked = Tuple[str, Callable[[str], int]]


class Shown(NamedTuple):
    """A mark that replicas show: its position in the log, its token, and the stamp that goes into an address."""

    position: int
    token: int
    stamp: str


class ShelfView(Closing, Reads):
    """The catalogue under one token, wherever it is read; `Shelves.open` makes it. A context manager, which ends nothing:
    replicas hold the token for as long as their log says, whoever reads.

    `token` is the stamp to be put into an address. Any thread may read. Reads raise TokenLost where no replica has it
    any more, NoReplica where none can be asked, and the Refusals that `View`'s name.
    """

    def __init__(self, shelves: "Shelves", token: str, position: Optional[int] = None) -> None:
        self._shelves = shelves
        self.token = token
        self._under = token
        self.position = position
        """The position of the log up to which it shows the catalogue, where that is known."""

    def __repr__(self) -> str:
        return f"<ShelfView of token {self.token}>"

    def close(self) -> None:
        """Does nothing: nothing is held for a view."""

    def _ask(self, asked: str, more: Callable[[str], int] = lambda _: 0) -> List[str]:
        return self._shelves.read([(asked, more)])[0]

    def _ask_many(self, asked: Iterable[_Asked]) -> List[List[str]]:
        return self._shelves.read(list(asked))


class _Shelf:
    """One replica, as readers see it. Any thread may call."""

    def __init__(self, address: str) -> None:
        endpoint(address)
        self.address = address
        self._idle: Deque[Wire] = deque()
        self._failures = 0
        self._rests_until = 0.0

    @property
    def rests(self) -> bool:
        """Whether it failed so lately that it isn't asked."""
        return time.monotonic() < self._rests_until

    def ask(self, lines: Sequence[bytes], silence: float) -> Optional[List[bytes]]:
        """The replies to lines; None where it can't be asked."""
        try:
            wire = self._take()
            try:
                replies = wire.ask(lines, silence)
            except BaseException:
                wire.close()
                raise
        except (OSError, ValueError) as error:
            self._fail(error)
            return None
        self._failures = 0
        self._give(wire)
        return replies

    def status(self, line: bytes, silence: float) -> Optional[Told]:
        """What it answers to STATUS or WAIT; None where it can't be asked."""
        replies = self.ask([line], silence)
        with reading():
            return None if replies is None else dict(json.loads(replies[0]))

    def close(self) -> None:
        """Ends the connections that wait."""
        with contextlib.suppress(IndexError):
            while True:
                self._idle.pop().close()

    def _take(self) -> Wire:
        try:
            return self._idle.pop()
        except IndexError:
            return Wire(self.address)

    def _give(self, wire: Wire) -> None:
        self._idle.append(wire)
        if len(self._idle) > _IDLE:
            with contextlib.suppress(IndexError):
                self._idle.popleft().close()

    def _fail(self, error: Exception) -> None:
        self._failures += 1
        rest = min(_LONGEST_REST, _FIRST_REST * 2 ** min(self._failures - 1, 10))
        self._rests_until = time.monotonic() + rest
        log.info("the replica at %s isn't asked for %g s: %s", self.address, rest, error)
        self.close()  # what waits there is of the same replica


class Shelves(Closing):
    """The replicas of a log, for readers. Any thread may call; nothing of a visitor is kept here or there.

    `replicas` are their addresses, HOST:PORT or the path of a socket; or a Log, which knows them.
    """

    def __init__(
        self, replicas: Union[Sequence[str], Log], silence: float = SILENCE, patience: float = PATIENCE
    ) -> None:
        """`silence` are the seconds after which a replica that says nothing is passed over, `patience` those in which a
        call goes round them all. Raises UsageError for what is no address.
        """
        # Of its own, since nobody is to wait for PostgreSQL who could read without it.
        self._log = Log(replicas.dsn, replicas.name, patience=0) if isinstance(replicas, Log) else None
        self._looking = threading.Lock()
        self._silence = silence
        self._patience = patience
        self._turn = itertools.count()
        self._shelves: Dict[str, _Shelf] = {}
        self._looked_at = -_LOOKED
        self.moved = 0
        """How many reads another replica answered than the one that was asked first."""
        if isinstance(replicas, str):
            raise UsageError(f"{replicas!r:.200} is no list of addresses")
        if not isinstance(replicas, Log):
            self._shelves = {text(each, "the address"): _Shelf(each) for each in replicas}
            if not self._shelves:
                raise UsageError("there are no addresses of replicas")

    def close(self) -> None:
        """Ends the connections; a later call makes them anew."""
        for each in self._shelves.values():
            each.close()
        if self._log is not None:
            self._log.close()

    @property
    def addresses(self) -> List[str]:
        """The replicas that are asked."""
        return [shelf.address for shelf in self._known()]

    @property
    def fields(self) -> Dict[str, str]:
        """The fields of the catalogue, and their kinds. Raises NoReplica."""
        return self._picked(lambda told: dict(told["fields"]) if told["fields"] else None)[0]

    def open(
        self,
        token: Union[None, int, str] = None,
        after: Optional[int] = None,
        on: int = 1,
        is_lasting: bool = True,
    ) -> ShelfView:
        """A view: of a token or stamp, or of the newest.

        Without a token it is the newest anchor, which lasts for the next 48 of them (24 minutes of writing, where they
        come every 30 seconds); where `is_lasting` is False, or no anchor is there, the newest mark, which lasts for the
        next 8. `after` is a position that is to be shown, as `Log.put` answers it: waits until `on` replicas show it.
        Raises TokenLost, NoReplica, and UsageError.
        """
        if token is not None:
            return self._reopened(text(token, "the token") if isinstance(token, str) else str(number(token, "the token")))
        if after is not None:
            return self._view(self._newest_behind(number(after, "the position"), number(on, "the replicas"), is_lasting))
        return self._view(self.newest(is_lasting))

    def newest(self, is_lasting: bool = True) -> Shown:
        """What `open` without a token would open. Raises NoReplica."""
        return max(self._picked(lambda told: _shown(told, is_lasting)))

    def status(self) -> Dict[str, Optional[Told]]:
        """What each replica answers of itself, by its address; None for one that can't be asked."""
        return {shelf.address: shelf.status(b"STATUS\n", self._silence) for shelf in self._known()}

    def read(self, asked: Sequence[_Asked]) -> List[List[str]]:
        """The replies to FIND, FACETS or GET lines under one token, each with its `more`, as `Catalogue.ask_many` has them.

        Raises what `ShelfView`'s calls do.
        """
        lines = [line(_text(each)) for each, _ in asked]
        if not lines:
            return []
        return self._told(lines, lambda replies: [_read(reply, more) for reply, (_, more) in zip(replies, asked)])

    def _reopened(self, token: str) -> ShelfView:
        asked = line(f"HAS {token}")
        if not _TOKEN.match(token):
            raise UsageError(f"{token!r:.200} is no token")
        return self._told([asked], lambda replies: ShelfView(self, _read_stamp(replies[0])))

    def _told(self, lines: Sequence[bytes], pick: Callable[[List[bytes]], Picked]) -> Picked:
        """What is picked of the replies of a replica that has the token of these lines; goes round until one has it."""
        until = time.monotonic() + self._patience
        trouble: Optional[Refusal] = None
        is_first, are_past, end = True, False, None
        while True:
            lacking = 0
            for shelf in self._every():
                replies = shelf.ask(lines, self._silence)
                if replies is not None and GONE not in replies:
                    try:
                        told = pick(replies)
                    except Refusal as error:
                        if not is_own_trouble(error):
                            raise
                        trouble = error
                    else:
                        self.moved += not is_first
                        return told
                lacking += replies is not None and GONE in replies
                is_first = False
            if are_past and lacking:
                raise TokenLost(detail=_token_of(lines[0]))
            if time.monotonic() > until:
                why = f"no replica has {_token_of(lines[0])} yet" if lacking else "no replica could be asked"
                raise trouble or NoReplica(why)
            end = self._end() if lacking and end is None else end
            are_past = lacking == len(self._shelves) and self._are_past(_token_of(lines[0]), end)
            if not are_past:  # else asked once more, since one may have come to have it meanwhile
                time.sleep(_TURN)

    def _are_past(self, token: str, end: Optional[int]) -> bool:
        """Whether every replica has caught up, and is past the token or at this end of the log, so that none that lacks it
        will have it. One that comes back brings back every token that the log has in the window.
        """
        number = int(token.partition("-")[0])
        told = self.status().values()
        return all(
            each is not None and each["is_ready"] and each["newest"]
            and (each["newest"]["token"] >= number or (end is not None and each["position"] >= end))
            for each in told
        )  # fmt: skip

    def _end(self) -> Optional[int]:
        """The position of the log now, behind that of every token that was given out; None where it isn't known."""
        try:
            return None if self._log is None else self._log.head().position
        except JasminedomeError:
            return None

    def _newest_behind(self, position: int, on: int, is_lasting: bool) -> Shown:
        """A mark that `on` replicas show, at or behind a position."""
        until = time.monotonic() + self._patience
        while True:
            told: List[Told] = []
            for shelf in self._round():
                left = min(self._silence / 2, max(0.0, until - time.monotonic()))
                status = shelf.status(b"WAIT %d %.3f\n" % (position, left), self._silence)
                if status is not None and status["newest"] and status["shown"] >= position:
                    told.append(status)
                if len(told) >= on:
                    return min(_shown_behind(each, position, is_lasting) for each in told)
            if time.monotonic() > until:
                raise NoReplica(f"{len(told)} of {on} replicas show {position}")

    def _picked(self, pick: Callable[[Told], Optional[Picked]]) -> List[Picked]:
        """What is picked of the status of each replica that has it; one at the least."""
        until = time.monotonic() + self._patience
        while True:
            told = [shelf.status(b"STATUS\n", self._silence) for shelf in self._round()]
            found = [each for each in (pick(status) for status in told if status is not None) if each is not None]
            if found:
                return found
            if time.monotonic() > until:
                raise NoReplica(f"no replica of {', '.join(self.addresses) or 'the log'} has anything to show")
            time.sleep(_TURN)

    def _view(self, shown: Shown) -> ShelfView:
        return ShelfView(self, shown.stamp, shown.position)

    def _round(self) -> List[_Shelf]:
        """The replicas that don't rest, or all where each does; another first each time."""
        every = self._every()
        return [shelf for shelf in every if not shelf.rests] or every

    def _every(self) -> List[_Shelf]:
        """All replicas, another first each time, and those that rest last."""
        known = self._known()
        turn = next(self._turn) % max(1, len(known))
        return sorted(known[turn:] + known[:turn], key=lambda shelf: shelf.rests)

    def _known(self) -> List[_Shelf]:
        rest = _LOOKED if self._shelves else _TURN
        if self._log is not None and time.monotonic() - self._looked_at > rest and self._looking.acquire(blocking=False):
            self._looked_at = time.monotonic()
            if self._shelves:
                threading.Thread(target=self._look, args=(self._log,), daemon=True).start()
            else:
                self._look(self._log)
        return list(self._shelves.values())

    def _look(self, known_by: Log) -> None:
        """Asks the log for the replicas that told of themselves lately."""
        try:
            alive = [row.address for row in known_by.replicas() if row.age < _ALIVE]
            self._shelves = {each: self._shelves.get(each) or _Shelf(each) for each in alive} or self._shelves
        except JasminedomeError as error:
            log.info("the log doesn't say which replicas there are: %s", error)
        finally:
            self._looking.release()


def _text(asked: str) -> str:
    return text(asked, "the line")


def _read(reply: bytes, more: Callable[[str], int]) -> List[str]:
    lines = reply.split(b"\n")[:-1]
    taken = Reply(READER, more)
    with reading():
        if taken.take(lines, 0) != len(lines) or not taken.is_whole:
            raise BadReply(f"no reply of the protocol: {reply[:200]!r}")
    return taken.wait()


def _shown(told: Told, is_lasting: bool) -> Optional[Shown]:
    mark = (told["anchor"] if is_lasting else None) or told["newest"]
    return Shown(mark["position"], mark["token"], mark["stamp"]) if mark else None


def _shown_behind(told: Told, position: int, is_lasting: bool) -> Shown:
    """The anchor, where that shows the position and is wanted; else the newest mark, which does."""
    anchor = _shown(told, True) if is_lasting and told["anchor"] else None
    found = anchor if anchor is not None and anchor.position >= position else _shown(told, False)
    assert found is not None
    return found


def _read_stamp(reply: bytes) -> str:
    if not reply.startswith(b"OK "):
        raise BadReply(f"no stamp: {reply[:200]!r}")
    return reply[3:-1].decode()


def _token_of(asked: bytes) -> str:
    words = asked.decode().split()
    return words[1] if len(words) > 1 else ""
