"""Which tokens a replica holds: those of the newest marks and of the newest anchors of its log, and no others."""

from __future__ import annotations

from collections import Counter, deque
from dataclasses import dataclass
from typing import Counter as Counts
from typing import Deque, Dict, List, Optional, Tuple

from .batches import Batch
from .following import ANCHORS, NEWEST

_PAST = 12  # hexadecimal digits of a seal that a stamp has


@dataclass(frozen=True)
class Shown:
    """A mark that can be read: its position in the log, its token, and its stamp.

    The stamp is the token, `-`, and the first digits of the seal there: it names the past too, so that it is refused
    where another past came to have the token.
    """

    position: int
    token: int
    stamp: str


class Window:
    """The marks whose tokens are held: a function of the log alone, up to where it is applied."""

    def __init__(self) -> None:
        self._newest: Deque[Shown] = deque()
        self._anchors: Deque[Shown] = deque()
        self._uses: Counts[bytes] = Counter()
        self.tokens: Dict[bytes, bytes] = {}
        """The token of each name that a reader may say: of itself, and of the stamps of its marks."""

    @property
    def newest(self) -> Optional[Shown]:
        """The newest mark."""
        return self._newest[-1] if self._newest else None

    @property
    def anchor(self) -> Optional[Shown]:
        """The newest anchor."""
        return self._anchors[-1] if self._anchors else None

    @property
    def first(self) -> Optional[int]:
        """The position of the oldest mark that is held."""
        return min((marks[0].position for marks in (self._newest, self._anchors) if marks), default=None)

    @property
    def held(self) -> List[int]:
        """The tokens, rising."""
        return sorted({int(token) for token in self.tokens.values()})

    def named(self, name: bytes) -> Optional[Shown]:
        """The mark that a token or a stamp names: of several the one that lasts longest."""
        if name not in self.tokens:
            return None
        for marks in (self._anchors, self._newest):
            for shown in reversed(marks):
                if name in _names(shown):
                    return shown
        return None

    def add(self, batch: Batch, token: int) -> List[int]:
        """Adds the mark behind a batch; answers the tokens that are no longer held."""
        shown = Shown(batch.position, token, f"{token}-{batch.seal.hex()[:_PAST]}")
        gone = self._push(self._newest, shown, NEWEST)
        return gone + (self._push(self._anchors, shown, ANCHORS) if batch.mark.is_anchor else [])

    def _push(self, marks: Deque[Shown], shown: Shown, most: int) -> List[int]:
        marks.append(shown)
        for name in _names(shown):
            self._uses[name] += 1
            self.tokens[name] = b"%d" % shown.token
        return self._drop(marks.popleft()) if len(marks) > most else []

    def _drop(self, old: Shown) -> List[int]:
        for name in _names(old):
            self._uses[name] -= 1
            if not self._uses[name]:
                del self._uses[name], self.tokens[name]
        return [] if b"%d" % old.token in self.tokens else [old.token]


def _names(shown: Shown) -> Tuple[bytes, bytes]:
    return b"%d" % shown.token, shown.stamp.encode()
