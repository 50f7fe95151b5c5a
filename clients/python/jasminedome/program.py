"""The program as a child: lines go to it, and a thread takes its replies apart, each for the call that waits for it."""

from __future__ import annotations

import contextlib
import fcntl
import logging
import os
import select
import subprocess
import tempfile
import threading
import time
import weakref
from collections import deque
from dataclasses import dataclass, field
from typing import Callable, Deque, List, Optional, Sequence, Union

from .awaiting import BySession, InOrder
from .errors import BadReply, JasminedomeError, ProgramEnded, UsageError, fresh
from .lines import line
from .replies import NEVER, Awaited, Limit, Reply

_BLOCK = 1 << 16
_PATIENCE = 10.0  # seconds in which a program whose input has ended has to end
_TURN = 0.2  # seconds between two looks at whether a pipe that takes nothing is still there
_PIPE = 1 << 20  # bytes that wait in the pipe to the program, where the system allows as many
_SAID = 2_000  # bytes of standard error that an exception tells
_SET_PIPE_SIZE = getattr(fcntl, "F_SETPIPE_SZ", 1031)

log = logging.getLogger("jasminedome")


@dataclass(eq=False)
class _Outgoing:
    """Lines on their way into the pipe, and the reply that waits for them. `counts` are the bytes of each write so far."""

    data: memoryview
    reply: Awaited
    counts: List[int] = field(default_factory=list)

    @property
    def sent(self) -> int:
        return sum(self.counts)

    @property
    def is_sent(self) -> bool:
        return self.sent == len(self.data)


class Program:
    """A running program. Any thread may ask; lines go out one after another, and replies come in their order.

    A program that answers sessions side by side (`is_threaded`) keeps to this order for each session by itself.
    An interrupt may come at any step of a call: what it leaves unsent goes out with the next call, so that lines stay
    whole and each reply goes to its own.
    """

    def __init__(self, command: Sequence[str], is_threaded: bool = False) -> None:
        """Starts the command. Raises ProgramEnded where it can't be started."""
        self._said = tempfile.TemporaryFile()
        try:
            self._child = subprocess.Popen(
                list(command), stdin=subprocess.PIPE, stdout=subprocess.PIPE, stderr=self._said, bufsize=0,
                start_new_session=True,  # an interrupt at the terminal is for the caller, who may want to commit first
            )
        except (OSError, ValueError) as error:
            self._said.close()
            raise ProgramEnded(None, f"{command[0]} can't be started: {error}") from None
        assert self._child.stdin is not None and self._child.stdout is not None
        self._input = self._child.stdin
        self._output = self._child.stdout
        self._open_pipe()
        self._outgoing: Deque[_Outgoing] = deque()
        self._awaited: Union[InOrder, BySession] = BySession() if is_threaded else InOrder()
        self._sending = threading.RLock()  # a finalizer may call `leave` in a thread that has it
        self._is_broken = False  # the program reads no more, and the thread that reads its replies meets the end
        self._end: Optional[JasminedomeError] = None
        self.last_words = ""
        """What it wrote to standard error, at most the end of it; it is there once the program has ended."""
        self._reader = threading.Thread(target=self._read, name="jasminedome replies", daemon=True)
        self._reader.start()
        _programs.add(self)
        log.debug("started %s as process %d", command[0], self._child.pid)

    @property
    def pid(self) -> int:
        """The child's process id."""
        return self._child.pid

    def send(self, data: bytes, reply: Awaited, limit: Limit = NEVER) -> None:
        """Sends whole lines, for which the reply then waits.

        Raises ProgramEnded, BadReply, Timeout where the pipe stays full, or UsageError once closed.
        """
        outgoing = _Outgoing(memoryview(data), reply)
        with self._sending:
            if self._end is not None:
                raise fresh(self._end)
            self._outgoing.append(outgoing)  # from here on it is said, by this call or by one that comes later
            self._write()
        while not outgoing.is_sent and not self._has_ended():
            if limit.left() == 0:
                raise limit.passed(was_sent=not self._take_back(outgoing))
            self._wait_for_room(limit)
            with self._sending:
                self._write()

    def ask(
        self, session: Optional[int], text: str, more: Callable[[str], int] = lambda _: 0, limit: Limit = NEVER
    ) -> List[str]:
        """Sends a line (behind the session's number, where there is one) and waits for its reply.

        Raises what `line`, `send` and `Reply.wait` raise.
        """
        reply = Reply(session, more)
        self.send(line(text if session is None else f"{session} {text}"), reply, limit)
        return reply.wait(limit)

    def leave(self) -> None:
        """Ends the program's input, without waiting. What was sent is answered; nothing can be sent any more."""
        with self._sending:
            if self._end is None:
                self._end = UsageError("the catalogue is closed")
            if self._outgoing and not self._input.closed:
                self._write()
                if self._outgoing:
                    self._child.kill()  # the end of the input would make a line of half a line
            self._input.close()

    def close(self, patience: float = _PATIENCE) -> None:
        """Ends the program's input and waits for its end; one that doesn't end within `patience` seconds is killed."""
        limit = Limit(patience)
        while self._outgoing and not self._has_ended() and limit.left():
            self._wait_for_room(limit)
            with self._sending:
                self._write()
        self.leave()
        self._reader.join(limit.left())
        if self._reader.is_alive():
            log.warning("process %d doesn't end, and is killed", self._child.pid)
            self._child.kill()
            self._reader.join()

    def _open_pipe(self) -> None:
        # Nobody blocks in a write, so that a stopped program holds no lock, and every wait for it can be given up.
        os.set_blocking(self._input.fileno(), False)
        with contextlib.suppress(OSError):
            fcntl.fcntl(self._input.fileno(), _SET_PIPE_SIZE, _PIPE)

    def _has_ended(self) -> bool:
        return self._end is not None or self._is_broken

    def _write(self) -> None:
        """Writes what is to go out, as far as the pipe takes it; the caller has the lock.

        Each step can be taken again where an interrupt came before, between or behind it.
        """
        while self._outgoing and not self._is_broken and not self._input.closed:
            first = self._outgoing[0]
            sent = first.sent
            if not sent and not self._awaited.is_last(first.reply):
                self._awaited.add(first.reply)
            if sent == len(first.data):
                self._outgoing.popleft()
                continue
            try:
                # `extend` notes the count that `os.write` answers without a step of Python's between them, where an
                # interrupt could come and leave it open how much went out.
                first.counts.extend(map(os.write, (self._input.fileno(),), (first.data[sent:],)))
            except BlockingIOError:
                return
            except BrokenPipeError:
                self._is_broken = True

    def _take_back(self, outgoing: _Outgoing) -> bool:
        """Takes lines back of which nothing went out; False where some did."""
        with self._sending:
            if outgoing.sent or outgoing not in self._outgoing:
                return False
            self._awaited.take_back(outgoing.reply)
            self._outgoing.remove(outgoing)
            return True

    def _wait_for_room(self, limit: Limit) -> None:
        left = limit.left()
        room = select.poll()
        with contextlib.suppress(ValueError, OSError):  # it was closed meanwhile
            room.register(self._input.fileno(), select.POLLOUT)
            room.poll(1_000 * (_TURN if left is None else min(_TURN, left)))

    def _read(self) -> None:
        error: Optional[JasminedomeError] = None
        try:
            self._read_replies()
        except BadReply as bad:
            error = bad
        except Exception as other:  # whatever it is, those who wait must not wait for ever
            error = BadReply(f"a reply can't be read: {other}")
        if error is not None:
            self._child.kill()
        self._child_ended(error)

    def _read_replies(self) -> None:
        rest = b""
        while True:
            data = os.read(self._output.fileno(), _BLOCK)
            if not data:
                return
            lines = (rest + data).split(b"\n")
            rest = lines.pop()
            at = 0
            while at < len(lines):
                reply = self._awaited.reply_of(lines[at])
                if reply is None:
                    raise BadReply(f"a reply that nobody asked for: {lines[at][:200]!r}")
                at = self._awaited.hand(reply, lines, at)
                if reply.is_whole:
                    self._awaited.came(reply)

    def _child_ended(self, error: Optional[JasminedomeError]) -> None:
        # Without its output the program is of no use, and who waits in `send` is to be let go.
        try:
            status: Optional[int] = self._child.wait(None if self._input.closed else 1.0)
        except subprocess.TimeoutExpired:
            self._child.kill()
            status = self._child.wait()
        size = self._said.seek(0, os.SEEK_END)
        self._said.seek(max(0, size - _SAID))
        self.last_words = self._said.read().decode(errors="replace").strip()
        ended = error or ProgramEnded(status, self.last_words)
        with self._sending:
            if self._end is None:
                self._end = ended
                log.warning("process %d: %s", self._child.pid, ended)
            for reply in [*self._awaited, *(each.reply for each in self._outgoing)]:
                reply.fail(ended)
            self._awaited.clear()
            self._outgoing.clear()
            self._input.close()
        self._output.close()
        self._said.close()

    def forked(self) -> None:
        """Lets a forked process go from its parent's program: it has the pipes, but not the thread that reads replies."""
        self._sending = threading.RLock()  # the old one may be locked by a thread that isn't here
        self._end = UsageError("a fork may not use the catalogue of its parent: open one of its own")
        self._outgoing.clear()
        self._awaited.clear()
        for file in (self._input, self._output, self._said):
            file.close()  # else the program's input wouldn't end with its parent


_programs: "weakref.WeakSet[Program]" = weakref.WeakSet()


def _in_child() -> None:
    for program in list(_programs):
        program.forked()


os.register_at_fork(after_in_child=_in_child)
