"""Which calls the HTTP service makes of a catalogue and its views. `Catalogue` and `Journal` have them all.

One that is read alone, or that shows and commits by itself, has fewer: `ReaderCalls` are enough.
"""

from __future__ import annotations

from typing import Any, ContextManager, Dict, Iterable, List, Mapping, Optional, Protocol, Sequence, Union, runtime_checkable

from ..answers import Hit, Page
from ..errors import JasminedomeError
from ..putting import Item
from ..questions import Question, QueryText
from ..stats import Snapshot, Stat

Token = Union[int, str]
"""The name of a catalogue that holds still. An integer means something in one run of a program alone; a text outlives it."""


class ViewCalls(Protocol):
    """A view, as `jasminedome.View` describes these calls. Any thread may call."""

    @property
    def token(self) -> Any:
        """Its token: a `Token`."""

    def find(
        self, query: QueryText = "*:*", sort: Optional[str] = None, after: Optional[int] = None, count: int = 20
    ) -> Page:
        """A page of hits."""

    def answers(self, *questions: "Question[Any]") -> List[Any]:
        """The answers to questions, asked together."""

    def get_many(self, ids: Iterable[Union[str, Hit]]) -> List[Optional[Dict[str, Any]]]:
        """The items of these ids."""

    def source(self, id: str) -> Optional[str]:
        """The text of an item."""

    def close(self) -> None:
        """Ends the hold. A view that is forgotten has to end its hold by itself."""


class ReaderCalls(Protocol):
    """What the service needs of a catalogue to be read. Any thread may call; so it is with all calls here.

    A call raises the exceptions of `jasminedome.errors`, and others of JasminedomeError, and nothing else.
    """

    @property
    def fields(self) -> Mapping[str, str]:
        """Its fields and their kinds."""

    def open(self, token: Any = None) -> ViewCalls:
        """A view of the newest token, or of this one. Raises TokenGone where that isn't there, or not any more.

        Where tokens are texts, it may be one that this process was never given.
        """


@runtime_checkable
class WriterCalls(Protocol):
    """What the service needs to write, as `jasminedome.Catalogue` describes these calls."""

    def put(self, item: Item) -> int:
        """Puts an item; answers the write's number."""

    def delete(self, id: str) -> int:
        """Takes an item out; answers the write's number."""

    def delete_where(self, query: QueryText) -> int:
        """Takes out what a query matches; answers the write's number."""

    def say_many(self, lines: Iterable[str]) -> Sequence[Union[int, JasminedomeError]]:
        """Writes as lines of the protocol; answers what became of each."""


@runtime_checkable
class KeeperCalls(Protocol):
    """What a catalogue has that shows, commits and merges when it is told to, as `jasminedome.Catalogue` describes it."""

    def refresh(self) -> Any:
        """Records the catalogue as it is now; answers its token."""

    def prune(self, keep: int) -> int:
        """Drops recorded tokens that nobody holds but the newest ones."""

    def commit(self, text: str = "") -> int:
        """Makes what was written last; answers a number that rises."""

    def upkeep(self) -> Stat:
        """Merges and sweeps; answers how it stands."""

    def stat(self) -> Stat:
        """How it stands."""


@runtime_checkable
class SharedCalls(Protocol):
    """What a catalogue has that is shown and kept for many services, as `jasminedome.replicas.LoggedCatalogue` does it."""

    def show(self) -> Any:
        """Waits until all that was written can be read; answers the token of a view that has it."""

    def lasts(self) -> int:
        """A number that rises with what is written: all up to there outlives the program."""


class CatalogueCalls(ReaderCalls, WriterCalls, KeeperCalls, Protocol):
    """All of it: `Catalogue` and `Journal` have these."""


@runtime_checkable
class BackupCalls(Protocol):
    """What a catalogue has beside where a backup can be made of it."""

    folder: Optional[str]

    def snapshot(self) -> ContextManager[Snapshot]:
        """Keeps the newest commit's files meanwhile."""
