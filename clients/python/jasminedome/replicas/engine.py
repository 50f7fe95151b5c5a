"""The program as a replica's child: one event loop writes its lines, and cuts its replies apart without reading them."""

from __future__ import annotations

import asyncio
from collections import deque
from typing import Callable, Deque, List, Optional, Sequence, cast

from ..errors import BadReply, JasminedomeError, ProgramEnded, Refusal, UsageError, fresh
from ..replies import read_refusal

More = Callable[[bytes], int]
"""Of what follows OK in a reply's first line, how many lines the reply goes on for."""

Done = Callable[[Optional[bytes]], object]
"""Is called with the bytes of a reply, each line with its line feed, or with None where the program has ended."""

_SAID = 2_000  # bytes of standard error that an exception tells
_PATIENCE = 10.0  # seconds in which a program whose input has ended has to end
_ENDING = 1.0  # seconds in which one that has closed a pipe by itself has to


def no_more(_: bytes) -> int:
    """Of a reply of one line."""
    return 0


class _Cut:
    """A reply that is waited for: where it ends among the bytes that come."""

    __slots__ = ("done", "head", "more", "lines")

    def __init__(self, done: Done, head: bytes, more: More, lines: int) -> None:
        self.done = done
        self.head = head  # of a first line that may go on: the session's number and OK
        self.more = more
        self.lines = lines  # that are there in any case

    def end(self, data: bytes, start: int) -> int:
        """Where the reply that begins at `start` ends; 0 where its end isn't there yet. Raises ValueError for none."""
        end = data.find(b"\n", start) + 1
        if end and data.startswith(self.head, start):
            lines = self.more(data[start + len(self.head) : end - 1])
        else:
            lines = 0
        for _ in range(self.lines - 1 + lines):
            if not end:
                break
            end = data.find(b"\n", end) + 1
        return end


class Engine(asyncio.SubprocessProtocol):
    """A running program. All calls are for the thread of its event loop. Lines are answered in the order of their calls."""

    def __init__(self, on_end: Callable[[], object]) -> None:
        self._on_end = on_end
        self._awaited: Deque[_Cut] = deque()
        self._rest = b""
        self._lines: List[bytes] = []
        self._said = b""
        self._end: Optional[JasminedomeError] = None
        self._loop = asyncio.get_running_loop()
        self._ended: "asyncio.Future[None]" = self._loop.create_future()
        self.pid = 0

    @classmethod
    async def start(cls, command: Sequence[str], schema: str, on_end: Callable[[], object] = lambda: None) -> "Engine":
        """Starts the command and opens it by the schema line; `on_end` is called when it has ended.

        Raises the Refusal of that line, or ProgramEnded.
        """
        loop = asyncio.get_running_loop()
        try:
            # Of a group of its own, so that an interrupt at the terminal is for the replica, which ends it in order.
            transport, protocol = await loop.subprocess_exec(lambda: cls(on_end), *command, start_new_session=True)
        except OSError as error:
            raise ProgramEnded(None, f"{command[0]} can't be started: {error}") from None
        engine = protocol
        engine.pid = transport.get_pid()
        try:
            engine.opened_at = int(read_ok(await engine.ask(schema.encode(), b"OK "), b"OK "))
        except BaseException:
            await engine.close()
            raise
        return engine

    opened_at = 0
    """The number of writes that it opened with."""

    @property
    def is_alive(self) -> bool:
        """Whether lines can be said to it."""
        return self._end is None

    @property
    def last_words(self) -> str:
        """What it wrote to standard error, at most the end of it."""
        return self._said.decode(errors="replace").strip()

    def ask(self, line: bytes, head: bytes, more: More = no_more) -> "asyncio.Future[bytes]":
        """Says a line, without its line feed; the reply's bytes come. Raises ProgramEnded in what it answers."""
        return self.say(line + b"\n", 1, head, more)

    def say(self, lines: bytes, count: int, head: bytes = b"", more: More = no_more) -> "asyncio.Future[bytes]":
        """Says `count` lines in one piece, whose replies have a line each, but for a single one that may go on.

        `head` is what such a one begins with then: the session's number, a space, OK and a space.
        """
        told: "asyncio.Future[bytes]" = self._loop.create_future()

        def done(data: Optional[bytes]) -> None:
            if told.done():
                return
            if data is None:
                assert self._end is not None
                told.set_exception(fresh(self._end))
                told.exception()  # whoever waited may be gone, and that is no error of its own
            else:
                told.set_result(data)

        self.relay(lines, done, head, more if head else no_more, count)
        return told

    def relay(self, line: bytes, done: Done, head: bytes, more: More, count: int = 1) -> None:
        """Says what ends in a line feed, and has `done` called with its replies as they come: the way of every read."""
        if self._end is not None:
            self._loop.call_soon(done, None)
            return
        if not self._lines:
            self._loop.call_soon(self._flush)  # together with what else this turn of the loop has to say
        self._lines.append(line)
        self._awaited.append(_Cut(done, head or b"\0", more, count))

    def kill(self) -> None:
        """Ends it at once."""
        if self._transport.get_returncode() is None:
            self._transport.kill()

    async def close(self) -> None:
        """Ends its input and waits for its end; one that doesn't end within 10 seconds is killed."""
        if self._end is None:
            self._end = UsageError("the program is closed")
        self._flush()
        self._input.close()
        try:
            await asyncio.wait_for(asyncio.shield(self._ended), _PATIENCE)
        except asyncio.TimeoutError:
            self.kill()
            await self._ended

    # Called by the loop

    def connection_made(self, transport: asyncio.BaseTransport) -> None:
        """The program runs."""
        self._transport = cast(asyncio.SubprocessTransport, transport)
        self._input = cast(asyncio.WriteTransport, self._transport.get_pipe_transport(0))

    def pipe_data_received(self, fd: int, data: bytes) -> None:
        """Bytes of its output: every reply that is whole is handed on."""
        if fd == 2:
            self._said = (self._said + data)[-_SAID:]
            return
        if self._rest:
            data = self._rest + data
        start = 0
        awaited = self._awaited
        try:
            while start < len(data):
                if not awaited:
                    raise ValueError("nobody asked for it")
                end = awaited[0].end(data, start)
                if not end:
                    break
                awaited.popleft().done(data[start:end])
                start = end
        except (ValueError, IndexError) as error:
            self._give_up(BadReply(f"no reply of the protocol: {data[start : start + 200]!r}: {error}"))
            return
        self._rest = data[start:] if start else data

    def pipe_connection_lost(self, fd: int, exc: Optional[Exception]) -> None:
        """It reads or says no more: without both it is of no use, and mostly about to end by itself."""
        if fd in (0, 1) and self._end is None:
            self._loop.call_later(_ENDING, self.kill)

    def connection_lost(self, exc: Optional[Exception]) -> None:
        """It has ended, and all of its output has come."""
        self._fail(ProgramEnded(self._transport.get_returncode(), self.last_words))
        self._transport.close()
        if not self._ended.done():
            self._ended.set_result(None)

    def _flush(self) -> None:
        if self._lines:
            self._input.write(b"".join(self._lines))
            self._lines.clear()

    def _give_up(self, error: JasminedomeError) -> None:
        self._fail(error)
        self.kill()

    def _fail(self, error: JasminedomeError) -> None:
        if self._end is None:
            self._end = error
        while self._awaited:
            self._awaited.popleft().done(None)
        self._on_end()


def read_ok(reply: bytes, head: bytes) -> str:
    """What follows OK in the first line of a reply. Raises the Refusal that it tells, or BadReply."""
    first = reply.split(b"\n", 1)[0]
    if first.startswith(head):
        return first[len(head) :].decode()
    raise read_refusal(first)


def read_lines(reply: bytes, head: bytes) -> List[str]:
    """The lines of a reply, without the session's number, and the first without OK. Raises what `read_ok` does."""
    first, *more = reply.decode().split("\n")[:-1]
    read_ok(reply, head)
    skipped = len(head) - len(b"OK ")
    return [first[len(head) :], *(line[skipped:] for line in more)]


def is_own_trouble(error: Refusal) -> bool:
    """Whether a refusal tells of this program's machine alone, and not of the line."""
    return error.number in (16, 22, 30, 31, 40)
