"""A program whose calls of the system fail where a test says so: those that it makes on the files of one folder, and, where a test
asks for it, on standard input and output and for memory.

The kernel stops each of these calls and asks (seccomp's user notification, Linux 5.6 or later on x86-64), and a thread of the test
answers: let it through, or fail it with this error, or do a part of it. So the program that is tried is the one that is released.

usage: python3 tests/faulty.py         (the status is 0 where this system lets a test do all that)
"""

import ctypes
import errno
import fcntl
import mmap
import os
import select
import signal
import socket
import struct
import sys
import tempfile
import threading
import time
from pathlib import Path

from limits import Broken, Child

# The calls that are stopped, by their numbers on x86-64: what is told of each, and which argument is the descriptor, or the path.
BY_DESCRIPTOR = {0: "read", 17: "read", 1: "write", 18: "write", 8: "seek", 73: "lock", 74: "sync", 75: "sync", 77: "cut"}
BY_DESCRIPTOR.update({217: "list", 332: "size"})
BY_PATH = {87: 0, 257: 1, 263: 1}
DELETES = (87, 263)
# The size of what is open is asked for by its descriptor, and what an entry of a folder is by its path, where none is given.
ASKS, NO_DESCRIPTOR = 332, 0xFFFFFF9C
# Standard input is read, and standard output written, by the call whose number its descriptor has.
STREAMS = (0, 1)
# The calls that take memory. An allocation that one of them refuses is tried by the next one: a library's list of ways.
TAKES_MEMORY = {9: "mmap", 12: "brk", 25: "mremap"}

# What stands in linux/seccomp.h and linux/filter.h.
NEW_LISTENER, SET_FILTER, SECCOMP, PIDFD_OPEN, PIDFD_GETFD = 8, 1, 317, 434, 438
ALLOW, NOTIFY = 0x7FFF0000, 0x7FC00000
RECEIVE, ANSWER, GO_ON = 0xC0502100, 0xC0182101, 1
LOAD, IS, IS_ABOVE, ENDS = 0x20, 0x15, 0x25, 0x06

LIBC = ctypes.CDLL(None, use_errno=True)
LIBC.syscall.restype = ctypes.c_long


def call(number, *words):
    """Makes the call of the system; words are whole numbers."""
    answer = LIBC.syscall(ctypes.c_long(number), *(ctypes.c_long(it) for it in words))
    if answer < 0:
        raise OSError(ctypes.get_errno(), f"call {number} of the system")
    return answer


def stop_calls(has_streams=False, has_memory=False):
    """Has the kernel ask of each such call that this process makes from now on. Answers the descriptor that tells of them."""
    lines = [(LOAD, 0, 0, 0)]
    for number in STREAMS if has_streams else ():
        lines += [(IS, 0, 4, number), (LOAD, 0, 0, 16), (IS, 0, 1, number), (ENDS, 0, 0, NOTIFY), (LOAD, 0, 0, 0)]
    for number in (*BY_PATH, *(TAKES_MEMORY if has_memory else ())):
        lines.append((IS, 0, 1, number))
        lines.append((ENDS, 0, 0, NOTIFY))
    # Standard input, output and error are no files of a folder: of these calls only descriptors above 2 are asked about.
    for number in BY_DESCRIPTOR:
        lines += [(IS, 0, 4, number), (LOAD, 0, 0, 16), (IS_ABOVE, 0, 1, 2), (ENDS, 0, 0, NOTIFY), (ENDS, 0, 0, ALLOW)]
    lines.append((ENDS, 0, 0, ALLOW))
    code = ctypes.create_string_buffer(b"".join(struct.pack("HBBI", *it) for it in lines))
    program = ctypes.create_string_buffer(struct.pack("HxxxxxxQ", len(lines), ctypes.addressof(code)))
    LIBC.prctl(38, 1, 0, 0, 0)
    return call(SECCOMP, SET_FILTER, NEW_LISTENER, ctypes.addressof(program))


def asks_by_path(number, words):
    """Whether the call asks what is at a path."""
    return number == ASKS and words[0] & 0xFFFFFFFF == NO_DESCRIPTOR


def break_of(process):
    """Where the process's memory from the break ends."""
    with open(f"/proc/{process}/maps") as file:
        heap = [line for line in file if line.rstrip().endswith("[heap]")]
    if heap:
        return int(heap[0].split()[0].split("-")[1], 16)
    with open(f"/proc/{process}/stat") as file:
        return int(file.read().rpartition(")")[2].split()[44])


def whole_process(thread):
    """The number of the process that the thread is of."""
    with open(f"/proc/{thread}/status") as file:
        return next(int(line.split()[1]) for line in file if line.startswith("Tgid:"))


def can_stop_calls():
    """Whether this system lets a process stop the calls of its child."""
    ours, theirs = socket.socketpair()
    child = os.fork()
    if not child:
        try:
            stop_calls()
            os._exit(0)
        except OSError:
            os._exit(1)
    ours.close()
    theirs.close()
    return os.waitpid(child, 0)[1] == 0


class Faults:
    """Which calls fail: the one behind so many others, or all behind these, and with which error. With `is_held` they don't fail, and go on
    once the program is told `release`."""

    def __init__(self, passes=None, all_behind=False, error=errno.EIO, kinds=None, is_held=False):
        self.passes, self.all_behind, self.error, self.kinds, self.is_held = passes, all_behind, error, kinds, is_held

    def fails(self, made, kind):
        if self.passes is None or self.kinds and kind not in self.kinds:
            return False
        return made >= self.passes if self.all_behind else made == self.passes


NEVER = Faults()


class Stream:
    """How standard input gives, or standard output takes: so many bytes at once, interrupted so often before each piece. Past its
    room each call fails with the error, or only the first one, or all of them move 0 bytes."""

    def __init__(self, at_once=None, interrupts=0, room=None, error=errno.EIO, is_silent=False, is_once=False):
        self.at_once, self.interrupts, self.due, self.room = at_once, interrupts, interrupts, room
        self.error, self.is_silent, self.is_once = error, is_silent, is_once
        # How many calls there were.
        self.calls = 0

    def answer(self, asked, move):
        """The result, the error and the flags for a call of so many bytes. `move` does so many of them in the program's place."""
        self.calls += 1
        if self.due:
            self.due -= 1
            return 0, -errno.EINTR, 0
        self.due = self.interrupts
        if self.room == 0 and asked:
            if self.is_once:
                self.room = None
            return (0, 0, 0) if self.is_silent else (0, -self.error, 0)
        most = min(it for it in (asked, self.at_once, self.room) if it is not None)
        if most == asked and self.room is None:
            return 0, 0, GO_ON
        moved = move(most)
        if self.room is not None:
            self.room -= moved
        return moved, 0, 0


class Memory:
    """Which allocations find no memory: the one behind so many others, or all behind these too. It counts where the program takes
    each by a call of its own (`by_calls`)."""

    # What is tried next for an allocation that this call refused.
    NEXT = {"mremap": "mmap", "mmap": "brk", "brk": "mmap"}
    MORE = 1 << 20

    def __init__(self, passes=None, all_behind=False):
        self.passes, self.all_behind, self.made, self.refused = passes, all_behind, 0, 0
        self.next = self.last = None

    def refuses(self, kind, size):
        """Whether this call is refused: it is one of the allocation that fails."""
        if self.is_next(kind, size):
            self.last, self.next = kind, None if (self.last, kind) == ("brk", "mmap") else self.NEXT[kind]
            return True
        self.next = self.last = None
        if kind == "brk":
            return False
        fails = self.passes is not None and (self.made >= self.passes if self.all_behind else self.made == self.passes)
        self.made += 1
        if fails:
            self.refused += 1
            self.last, self.next = kind, self.NEXT[kind]
        return fails

    def is_next(self, kind, size):
        """Whether the call is a further try of the allocation that was refused. Behind a break it takes a megabyte or more."""
        return kind == self.next and (self.last != "brk" or size >= self.MORE)


def by_calls():
    """Has the C library of the program that this process becomes take each piece of memory by a call of the system."""
    tunables = ("mmap_threshold=1", "mmap_max=1000000", "tcache_count=0", "arena_max=1", "top_pad=0")
    os.environ["GLIBC_TUNABLES"] = ":".join(f"glibc.malloc.{it}" for it in tunables)


class Faulty(Child):
    """The program over a folder. `calls` has each call that it made since `meet` was called, as its kind and its file's name.
    With `reading` or `writing`, standard input and output are stopped too; with `memory`, what takes memory is. Calls that ask what
    an entry of the folder is are let through uncounted, unless `asks` is true: their kind is "ask"."""

    def __init__(self, folder, program, *arguments, faults=NEVER, bytes_at_once=None, reading=None, writing=None, memory=None, asks=False):
        self.folder, self.faults, self.calls, self.bytes_at_once = os.path.realpath(folder).encode(), faults, [], bytes_at_once
        self.streams, self.memory, self.asks = (reading, writing), memory, asks
        self.taken = 0
        # The calls that are held, and how they are answered; `holds` is set once there is one.
        self.held, self.holds = [], threading.Event()
        self.ours, self.theirs = socket.socketpair()
        self.asked = threading.Thread(target=self.answer_all, daemon=True)
        self.asked.start()
        super().__init__(program, *arguments)
        self.theirs.close()

    def prepare(self):
        super().prepare()
        if self.memory:
            by_calls()
        socket.send_fds(self.theirs, [b"."], [stop_calls(any(self.streams), self.memory is not None)])

    def meet(self, faults=NEVER):
        """Lets these calls fail from now on, and begins to count."""
        self.faults, self.calls, self.taken = faults, [], 0

    def wait_until_it_reads(self, patience=60):
        """Waits until the program waits for its standard input: the system needs memory to begin it."""
        last = time.monotonic() + patience
        while time.monotonic() < last:
            with open(f"/proc/{self.process.pid}/syscall", encoding="ascii") as it:
                if it.read().split()[:2] == ["0", "0x0"]:
                    return
            time.sleep(0.001)
        raise Broken("the program doesn't ask for its input")

    def release(self):
        """Lets the calls that are held go on, and fails none any more."""
        self.meet()
        self.holds.clear()
        while self.held:
            listener, number = self.held.pop()
            fcntl.ioctl(listener, ANSWER, bytearray(struct.pack("Qqii", number, 0, 0, GO_ON)))

    def answer_all(self):
        """Answers the kernel until the program has ended."""
        _, (listener,), _, _ = socket.recv_fds(self.ours, 1, 1)
        waiting = select.poll()
        waiting.register(listener, select.POLLIN)
        while True:
            if waiting.poll()[0][1] & select.POLLHUP:
                break
            request = bytearray(80)
            try:
                fcntl.ioctl(listener, RECEIVE, request)
                number, process, _, call_number = struct.unpack_from("QIIi", request)
                answer = self.answer(process, call_number, struct.unpack_from("6Q", request, 32))
                if answer is None:
                    self.held.append((listener, number))
                    self.holds.set()
                else:
                    fcntl.ioctl(listener, ANSWER, bytearray(struct.pack("Qqii", number, *answer)))
            except OSError as gone:
                # The program was killed while it was asked about.
                if gone.errno not in (errno.ENOENT, errno.EINTR, errno.ESRCH):
                    raise
        os.close(listener)
        self.ours.close()

    def answer(self, process, number, words):
        """The result, the error and the flags for one call; None where it is held."""
        if number in TAKES_MEMORY:
            return self.allocation(process, number, words)
        if number in STREAMS and words[0] == number:
            stream = self.streams[number]
            return stream.answer(words[2], lambda most: self.part(process, number, words, most)) if stream else (0, 0, GO_ON)
        path = self.path_of(process, number, words)
        if path != self.folder and not path.startswith(self.folder + b"/"):
            return 0, 0, GO_ON
        kind = self.kind_of(number, words)
        if kind == "ask" and not self.asks:
            return 0, 0, GO_ON
        passed = self.taken
        fails = self.faults.fails(passed, kind)
        if not self.faults.kinds or kind in self.faults.kinds:
            self.taken += 1
        self.calls.append((kind, path[len(self.folder) + 1 :].decode(errors="replace")))
        if fails:
            return None if self.faults.is_held else (0, -self.faults.error, 0)
        if self.bytes_at_once and number in (0, 1) and words[2] > self.bytes_at_once:
            return self.part(process, number, words, self.bytes_at_once), 0, 0
        return 0, 0, GO_ON

    def allocation(self, process, number, words):
        """The same for a call that takes memory. Files are mapped as ever, and a break that is only asked for is told."""
        kind = TAKES_MEMORY[number]
        is_other = kind == "mmap" and not words[3] & mmap.MAP_ANONYMOUS or kind == "brk" and not words[0]
        if is_other or not self.memory.refuses(kind, words[2] if kind == "mremap" else words[1]):
            return 0, 0, GO_ON
        return (break_of(process), 0, 0) if kind == "brk" else (0, -errno.ENOMEM, 0)

    def kind_of(self, number, words):
        if number in DELETES:
            return "delete"
        if number in BY_PATH:
            return "create" if words[2] & os.O_CREAT else "open"
        return "ask" if asks_by_path(number, words) else BY_DESCRIPTOR[number]

    def path_of(self, process, number, words):
        if number in BY_DESCRIPTOR and not asks_by_path(number, words):
            try:
                return os.readlink(f"/proc/{process}/fd/{words[0]}").encode()
            except FileNotFoundError:
                return b""
        with open(f"/proc/{process}/mem", "rb", buffering=0) as memory:
            memory.seek(words[BY_PATH.get(number, 1)])
            said = memory.read(4096).split(b"\0")[0]
        return said.rstrip(b"/")

    def part(self, process, number, words, most):
        """Does so many bytes of a read or write in the program's place, by its own descriptor."""
        watched = call(PIDFD_OPEN, whole_process(process), 0)
        try:
            file = call(PIDFD_GETFD, watched, words[0], 0)
        finally:
            os.close(watched)
        try:
            with open(f"/proc/{process}/mem", "r+b", buffering=0) as memory:
                memory.seek(words[1])
                if number:
                    return os.write(file, memory.read(most))
                said = os.read(file, most)
                memory.write(said)
                return len(said)
        finally:
            os.close(file)


def can_answer_calls():
    """Whether a test may also look into the memory of its child and use the descriptors of that: a file of two bytes is read by one."""
    with tempfile.TemporaryDirectory(prefix="faulty-") as folder:
        file = Path(folder, "said")
        file.write_bytes(b"ab")
        child = Faulty(folder, "cat", str(file), bytes_at_once=1)
        try:
            told = child.process.stdout.read()
        finally:
            child.kill()
    return told == b"ab" and child.calls.count(("read", "said")) > 1


if __name__ == "__main__":
    # tests/runs.sh asks so whether the tests that stop calls can be run here. Where a call is never answered, this is ended.
    signal.alarm(20)
    sys.exit(0 if can_stop_calls() and can_answer_calls() else 1)
