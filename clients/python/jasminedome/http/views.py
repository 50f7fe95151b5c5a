"""The views that visitors look at: made at most once in some seconds, and kept by age and use."""

from __future__ import annotations

import contextlib
import re
import secrets
import threading
import time
from dataclasses import dataclass
from typing import Callable, Dict, Optional

from ..errors import AllHeld, JasminedomeError, TokenGone, UsageError
from .calls import KeeperCalls, ReaderCalls, Token, ViewCalls
from .problems import Gone

Clock = Callable[[], float]

_STAMP = re.compile(r"(0|[1-9][0-9]{0,18})-([0-9a-f]{8})\Z", re.ASCII)
_MOST_STAMP = 200  # characters of a token that is a text
_MAKE_ROOM = 8  # views that go at once where all that a program records are held


@dataclass
class _Kept:
    """A view, when it was used last, and whether a visitor has its token."""

    view: ViewCalls
    used: float
    is_given: bool = False


class Views:
    """The newest view, and those that visitors come back to. Any thread may call; no call waits for a commit or a merge.

    A visitor has a view by its stamp: the token, and where that is an integer a mark of this run, since another run may
    give the same number to other writes. Where more than `most` are kept, one goes that no visitor was given, and else
    the one that was used least recently; and one that nobody used for `oldest` seconds.
    """

    def __init__(
        self, catalogue: ReaderCalls, every: float, most: int = 56, oldest: float = 3_600.0, clock: Clock = time.monotonic
    ) -> None:
        self._catalogue = catalogue
        self._recorder = catalogue if isinstance(catalogue, KeeperCalls) else None
        self._every = every
        self._most = most
        self._oldest = oldest
        self._clock = clock
        self._run = secrets.token_hex(4)
        self._making = threading.Lock()  # held over lines to the program, for which no visitor is to wait
        self._lock = threading.Lock()
        self._kept: Dict[Token, _Kept] = {}
        self._made = clock()
        self._newest: Token = 0
        self._begun = self._done = 0  # how many views were begun, and the number of the last that is there
        self.gone = 0
        """How many times a view was asked for that isn't kept."""
        self._make()

    @property
    def newest(self) -> str:
        """The stamp of the newest view."""
        return self.stamp(self._newest)

    def stamp(self, token: Token) -> str:
        """What a visitor has of a token."""
        return f"{token}-{self._run}" if isinstance(token, int) else token

    def wait(self) -> float:
        """The seconds until a new view may be made; 0 where it may be now."""
        return max(0.0, self._made + self._every - self._clock())

    @property
    def next(self) -> int:
        """The number of the next view that will be made, which has all that was written until now."""
        return self._begun + 1

    def has(self, number: int) -> bool:
        """Whether the view of that number, or a later one, was made."""
        return self._done >= number

    def make(self) -> bool:
        """Makes a view of what was written, where one may be made now; False where it is too soon."""
        with self._making:
            if self.wait() > 0:
                return False
            self._make()
            return True

    def get(self, stamp: Optional[str] = None) -> ViewCalls:
        """The view of a stamp, for a visitor; the newest where it is None. Raises Gone where it isn't kept, or not any more."""
        token = None if stamp is None else self._token(stamp)
        with self._lock:
            wanted = self._newest if stamp is None else token
            kept = None if wanted is None else self._kept.get(wanted)
            if kept is not None:
                kept.used, kept.is_given = self._clock(), True
                return kept.view
        found = self._opened(token) if isinstance(token, str) else None
        if found is None:
            raise self.lost(stamp or "")
        return found

    def lost(self, stamp: str) -> Gone:
        """What a visitor is told whose view isn't kept any more; counts it."""
        self.gone += 1
        return Gone(stamp, self.newest)

    def drop(self, view: ViewCalls) -> None:
        """Forgets a view that others held, and hold no more. Where it was the newest, a newer one is made."""
        with self._making:
            if view.token == self._newest:
                self._make()
        with self._lock:
            if view.token != self._newest:
                self._kept.pop(view.token, None)

    def current(self) -> ViewCalls:
        """The newest view, for whoever keeps no token."""
        with self._lock:
            return self._kept[self._newest].view

    def __len__(self) -> int:
        return len(self._kept)

    def _token(self, stamp: str) -> Optional[Token]:
        if isinstance(self._newest, str):
            return stamp if stamp.isprintable() and len(stamp) <= _MOST_STAMP else None
        match = _STAMP.match(stamp)
        return int(match.group(1)) if match and match.group(2) == self._run else None

    def _opened(self, token: str) -> Optional[ViewCalls]:
        """A view whose token is a text, which another run or another machine may have given."""
        try:
            view = self._catalogue.open(token)
        except (TokenGone, UsageError):  # the latter for what is no token
            return None
        with self._lock:
            kept = self._kept.setdefault(token, _Kept(view, self._clock(), True))
            self._thin()
        return kept.view

    def _make(self) -> None:
        self._made = self._clock()
        self._begun += 1
        # Where it is kept already, the one that is opened here is forgotten.
        view = self._catalogue.open(None if self._recorder is None else self._recorded(self._recorder))
        token: Token = view.token
        with self._lock:
            self._kept.setdefault(token, _Kept(view, self._made))
            self._newest = token
            self._thin()
        self._done = self._begun
        if self._recorder is not None:
            with contextlib.suppress(JasminedomeError):
                self._recorder.prune(1)  # what was recorded before and nobody holds

    def _recorded(self, recorder: KeeperCalls) -> Token:
        """Records the catalogue as it is now. Views that went and are still read from count too, so more may have to go."""
        while True:
            try:
                found: Token = recorder.refresh()
                return found
            except AllHeld:
                with self._lock:
                    if len(self._kept) <= 1:
                        raise
                    self._thin(max(1, len(self._kept) - _MAKE_ROOM))

    def _thin(self, most: Optional[int] = None) -> None:
        # Whoever still reads from a view that goes has it; then it is forgotten, and so closed.
        others = sorted((each.is_given, each.used, place) for place, each in enumerate(self._kept.values()))
        tokens = list(self._kept)
        others = [each for each in others if tokens[each[2]] != self._newest]
        too_many = len(self._kept) - (self._most if most is None else most)
        for index, (_, used, place) in enumerate(others):
            if index < too_many or self._clock() - used > self._oldest:
                del self._kept[tokens[place]]
