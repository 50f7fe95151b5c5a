"""A thread for calls that block, beside an event loop."""

from __future__ import annotations

import asyncio
from concurrent.futures import ThreadPoolExecutor
from typing import Callable, TypeVar

Told = TypeVar("Told")


class Worker:
    """One thread, which does one call after another."""

    def __init__(self, name: str) -> None:
        self._pool = ThreadPoolExecutor(1, name)

    async def do(self, call: Callable[..., Told], *arguments: object) -> Told:
        """Has the call made, and answers what it answers, or raises what it raises."""
        return await asyncio.get_running_loop().run_in_executor(self._pool, lambda: call(*arguments))

    def close(self) -> None:
        """Waits for the call that is under way, and ends the thread."""
        self._pool.shutdown()
