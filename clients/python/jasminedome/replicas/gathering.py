"""Appends of many threads, gathered: what waits while one transaction runs goes into the next, all of it together."""

from __future__ import annotations

import threading
from collections import deque
from dataclasses import dataclass
from typing import Callable, Deque, Generic, List, Optional, Sequence, Type, TypeVar

from ..errors import JasminedomeError, fresh

Given = TypeVar("Given")
Told = TypeVar("Told")


@dataclass(eq=False)
class _Waiting(Generic[Given, Told]):
    given: Given
    told: Optional[Told] = None
    error: Optional[JasminedomeError] = None

    @property
    def is_done(self) -> bool:
        return self.told is not None or self.error is not None


class Gathering(Generic[Given, Told]):
    """Calls of many threads, of which one does all that wait, by a `work` that may be done twice without harm."""

    def __init__(self, work: Callable[[Sequence[Given]], List[Told]], most: int, fault: Type[JasminedomeError]) -> None:
        """`most` calls are done together at the most. Where `work` raises `fault`, which says that one of several is
        wrong and none was done, each is done by itself.
        """
        self._work = work
        self._most = most
        self._fault = fault
        self._waiting: Deque[_Waiting[Given, Told]] = deque()
        self._changed = threading.Condition()
        self._is_working = False

    def do(self, given: Given) -> Told:
        """Has it done, and answers what `work` answers to it. Raises what `work` raises for it."""
        mine: _Waiting[Given, Told] = _Waiting(given)
        with self._changed:
            self._waiting.append(mine)
            while self._is_working and not mine.is_done:
                self._changed.wait()
            leads = not mine.is_done
            self._is_working = self._is_working or leads
        if leads:
            self._lead(mine)
        if mine.error is not None:
            raise fresh(mine.error)
        assert mine.told is not None
        return mine.told

    def _lead(self, mine: _Waiting[Given, Told]) -> None:
        """Works until its own is done; another thread goes on with what waits then."""
        together: List[_Waiting[Given, Told]] = []
        try:
            while not mine.is_done:
                with self._changed:
                    together = [self._waiting.popleft() for _ in range(min(self._most, len(self._waiting)))]
                self._do_together(together)
        finally:
            with self._changed:
                # After an interrupt the others are still to be done; who was interrupted isn't.
                self._waiting.extendleft(each for each in reversed(together) if not each.is_done and each is not mine)
                if not mine.is_done and mine in self._waiting:
                    self._waiting.remove(mine)
                self._is_working = False
                self._changed.notify_all()

    def _do_together(self, together: Sequence[_Waiting[Given, Told]]) -> None:
        try:
            for each, told in zip(together, self._work([each.given for each in together])):
                each.told = told
        except JasminedomeError as error:
            if isinstance(error, self._fault) and len(together) > 1:
                for each in together:
                    self._do_together([each])
            else:
                for each in together:
                    each.error = error
