#!/usr/bin/env python3
"""Two sessions at once over one folder, or in memory, with a merger and a warmer beside them: each sees what it wrote, all writes are
counted, all four are at work at once, and pages are made while the merger has the lock.

usage: tests/at_once.py PROGRAM        (the catalogue)

Each session is a thread of this script, which says its lines to `run --threads` without regard to the others. tests/callers.py tells the
days of tests/days to threads, one line behind another, and the Python client's test_threads.py compares what eight threads are told with
a plain model. The last line is `N passed, M failed`.
"""

import os
import queue
import socket
import subprocess
import sys
import threading
from concurrent.futures import ThreadPoolExecutor

from faulty import GO_ON, TAKES_MEMORY, Faults, Faulty, can_stop_calls, stop_calls
from limits import Child, lines_behind
from tries import Wrong, expect, run

USAGE = "usage: tests/at_once.py PROGRAM"
SECONDS = 60
# Merges are due often, and hardly ever.
SCHEMAS = ('SCHEMA 2 1 {"name":"text","price":"number"}', 'SCHEMA 10 1000 {"name":"text","price":"number"}')
# How many writes each of the two sessions makes.
EACH = 100


class Shared:
    """A program that several threads talk to, each as a session of its own."""

    def __init__(self, child, schema, sessions):
        self.child, self.lock, self.told = child, threading.Lock(), {it: queue.Queue() for it in sessions}
        expect("the schema line", child.ask(schema), "OK 0")
        self.reader = threading.Thread(target=self.hear, daemon=True)
        self.reader.start()

    def hear(self):
        """Hands each line that is said to its session."""
        for line in iter(self.child.process.stdout.readline, b""):
            session, _, text = line.decode()[:-1].partition(" ")
            self.told[int(session)].put(text)

    def say(self, session, line):
        with self.lock:
            self.child.process.stdin.write(f"{session} {line}\n".encode())
            self.child.process.stdin.flush()

    def reply(self, session, line):
        try:
            first = self.told[session].get(timeout=SECONDS)
            return "\n".join([first, *(self.told[session].get(timeout=SECONDS) for _ in range(lines_behind(line, first)))])
        except queue.Empty:
            raise Wrong(f"session {session} isn't answered to {line}") from None

    def ask(self, session, line):
        self.say(session, line)
        return self.reply(session, line)

    def number(self, session, line):
        """The number that the line is answered."""
        told = self.ask(session, line).split()
        expect(f"session {session}, {line}: the first word", told[0], "OK")
        return int(told[1])

    def end(self):
        self.child.process.stdin.close()
        self.reader.join(SECONDS)
        expect("how it ended", self.child.process.wait(SECONDS), 0)


class Try:
    def __init__(self, room, program):
        self.room, self.program = room, program

    def tell(self, words, lines):
        """What the program says to the lines, line by line, and how it ends."""
        given = "".join(f"{it}\n" for it in lines).encode()
        ran = subprocess.run([self.program, *words], input=given, stdout=subprocess.PIPE, timeout=SECONDS)
        return ran.stdout.decode().split("\n")[:-1], ran.returncode

    def count_again(self, folder, schema, count):
        """A second run over the folder has all the writes, and no item but theirs."""
        lines = (schema, "1 OPEN", f"1 FIND {count} 0 . . *:*")
        said, _ = self.tell(("run", folder), lines)
        expect("the second run", said[:3], [f"OK {count}", f"1 OK {count}", f"1 OK 0 {count}"])


def text_of(session, number):
    return f'{{"id":"s{session}-{number}","price":7}}'


def write_and_look(shared, session):
    """Makes the session's writes, and looks at a view behind each. Answers the numbers of the writes."""
    written = []
    for number in range(EACH):
        name, what = f"s{session}-{number}", f"session {session}, write {number}"
        written.append(shared.number(session, f"PUT {text_of(session, number)}"))
        token = shared.number(session, "REFRESH")
        opened = shared.number(session, "OPEN")
        expect(f"{what}: its number, the token and the view rise: {written[-1]} {token} {opened}", written[-1] <= token <= opened, True)
        expect(f"{what}: the item", shared.ask(session, f"GET {opened} {name}"), f"OK {text_of(session, number)}")
        page = shared.ask(session, f"FIND {opened} 1 . {written[-1] - 1 if written[-1] > 1 else '.'} price:[1 TO *]").split("\n")
        expect(f"{what}: the page behind the write before", page[1], f"{written[-1]} {name} .")
        expect(f"{what}: all that it wrote is there", int(page[0].split()[2]) > number, True)
        expect(f"{what}: the close", shared.number(session, f"CLOSE {opened}"), opened)
        expect(f"{what}: the closed view", shared.ask(session, f"GET {opened} {name}"), "NO 20")
    expect(f"session {session}: whether its numbers rise", written, sorted(set(written)))
    return written


def keep_up(shared, ended):
    """Asks for upkeep all the time, until both sessions have ended. Answers how often."""
    count = 0
    while not ended.is_set():
        for line in ("MERGE", "WARM", "STAT", "SWEEP", "PRUNE 2"):
            shared.number(0, line) if line in ("STAT", "SWEEP", "PRUNE 2") else expect(line, shared.ask(0, line).split()[0], "OK")
        count += 1
    return count


def two_sessions_write_side_by_side(try_):
    """And at the end all of their writes are counted, each once; each session sees those of the other; and a second run has them."""
    for schema in SCHEMAS:
        for threads in ("1", "3"):
            for place in ([str(try_.room.folder())], []):
                child = Child(try_.program, "run", "--threads", threads, *place)
                try:
                    both_write(Shared(child, schema, (0, 1, 2)))
                finally:
                    child.kill()
                for folder in place:
                    try_.count_again(folder, schema, 2 * EACH)


def both_write(shared):
    ended = threading.Event()
    with ThreadPoolExecutor(3) as lanes:
        beside = lanes.submit(keep_up, shared, ended)
        try:
            both = [lanes.submit(write_and_look, shared, session) for session in (1, 2)]
            written = sorted(number for it in both for number in it.result())
        finally:
            ended.set()
        expect("whether upkeep was asked for", beside.result() > 0, True)
    all_is_counted(shared, written)
    expect("the commit", shared.ask(1, "COMMIT").split()[0], "OK")
    shared.end()


def all_is_counted(shared, written):
    expect("the writes", written, list(range(1, 2 * EACH + 1)))
    expect("the count of writes", shared.number(0, "STAT"), 2 * EACH)
    for session in (1, 2):
        expect("the token at last", (shared.number(session, "REFRESH"), shared.number(session, "OPEN")), (2 * EACH, 2 * EACH))
        expect("how many are shown", shared.ask(session, f"FIND {2 * EACH} 0 . . price:7"), f"OK 0 {2 * EACH}")


# How many rounds a session makes at most until a merger and a warmer are seen.
ROUNDS = 2_000


def all_are_at_work_at_once(try_):
    """Nobody asks for upkeep, and both sessions go on until the merger has joined segments and the warmer has stored a set beside them.
    Both put an item of the same id, of which a view has one."""
    for place in ([str(try_.room.folder())], []):
        child = Child(try_.program, "run", "--threads", "3", *place)
        try:
            shared, seen = Shared(child, SCHEMAS[0], (0, 1, 2)), threading.Event()
            with ThreadPoolExecutor(2) as lanes:
                both = [lanes.submit(put_the_same, shared, session, seen) for session in (1, 2)]
                try:
                    while not any(it.done() for it in both) and not are_at_work(shared):
                        pass
                    had_ended = [it.done() for it in both]
                finally:
                    seen.set()
                written = sorted(number for it in both for number in it.result())
            expect("whether a session ended before", had_ended, [False, False])
            expect("the writes", written, list(range(1, len(written) + 1)))
            expect("the count of writes", shared.number(0, "STAT"), len(written))
            shared.end()
        finally:
            child.kill()


def are_at_work(shared):
    """Whether there is a segment that only a merge makes, and a set. One that a REFRESH makes has the waiting writes of both at most."""
    first, *segments = shared.ask(0, "STAT").split("\n")
    return int(first.split()[5]) > 0 and any(int(it.split()[1]) > 4 for it in segments)


def put_the_same(shared, session, seen):
    """Puts an item of its own and one that both put, and looks at them, until the others are seen. Answers the numbers of the writes."""
    written = []
    for number in range(ROUNDS):
        what = f"session {session}, round {number}"
        written.append(shared.number(session, f"PUT {text_of(session, number)}"))
        written.append(shared.number(session, 'PUT {"id":"both","name":"red","price":7}'))
        token = shared.number(session, "REFRESH")
        opened = shared.number(session, "OPEN")
        expect(f"{what}: its number, the token and the view rise: {written[-1]} {token} {opened}", written[-1] <= token <= opened, True)
        count, shown = shared.ask(session, f"FIND {opened} 9 +price . name:red").split("\n")
        expect(f"{what}: how many have the id of both", count, "OK 1 1")
        expect(f"{what}: which of them it is", int(shown.split()[0]) >= written[-1] and shown.split()[1:] == ["both", "7"], True)
        expect(f"{what}: the close", shared.number(session, f"CLOSE {opened}"), opened)
        if seen.is_set():
            break
    expect(f"session {session}: whether its numbers rise", written, sorted(set(written)))
    return written


def two_sessions_of_an_input_write_side_by_side(try_):
    """By `threads FOLDER`: what a session opened at its beginning stays as it was, beside all writes of both."""
    for schema in SCHEMAS:
        folder = str(try_.room.folder())
        said, _ = try_.tell(("run", folder), (schema, '1 PUT {"id":"old","price":3}', "1 COMMIT"))
        expect("the first run", said, ["OK 0", "1 OK 1", "1 OK 1"])
        lines = [schema, *(line for number in range(EACH) for session in (1, 2) for line in lines_of(session, number))]
        lines += ["0 MERGE", "0 WARM", "0 STAT", "1 COMMIT", "2 COMMIT"]
        (first, *said), status = try_.tell(("threads", folder), lines)
        expect("the schema line, and the status", (first, status), ("OK 1", 0))
        written = [number for session in (1, 2) for number in numbers_of(session, [it for it in said if it.startswith(f"{session} ")])]
        expect("the writes", sorted(written), list(range(2, 2 * EACH + 2)))
        try_.count_again(folder, schema, 2 * EACH + 1)


def lines_of(session, number):
    if not number:
        yield f"{session} OPEN 1"
    yield from (f"{session} PUT {text_of(session, number)}", f"{session} REFRESH", f"{session} FIND 1 9 . . *:*", f"{session} GET 1 old")


def numbers_of(session, said):
    """The numbers of the session's writes. A REFRESH's is no less than that of the write before."""
    expect(f"session {session}: the view", said.pop(0), f"{session} OK 1")
    expect(f"session {session}: the commit", said.pop().split()[:2], [str(session), "OK"])
    written = []
    for at in range(0, 5 * EACH, 5):
        put, token, *read = said[at : at + 5]
        written.append(int(put.split()[2]))
        expect(f"session {session}, write {written[-1]}: its token {token}", int(token.split()[2]) >= written[-1], True)
        expect("what it reads", read, [f"{session} OK 1 1", f"{session} 1 old .", f'{session} OK {{"id":"old","price":3}}'])
    expect(f"session {session}: whether its numbers rise", written, sorted(set(written)))
    return written


# What a merger calls while it has the lock, in two steps: the texts of two segments into one file, and then the segment's. A FORCE
# has created the first of them.
MERGER = ("open", "size", "seek", "read", "open", "size", "seek", "read", "open", "write", "open", "write")


def pages_are_made_while_the_merger_has_the_lock(try_):
    """Each call of the merger on a file is held in turn. Two sessions read their views meanwhile, of which a text comes from a file, and
    a third one's write waits for the lock."""
    for passes, kind in enumerate(MERGER):
        folder = try_.room.folder()
        child = Faulty(folder, try_.program, "run", "--threads", "4", str(folder))
        try:
            shared = Shared(child, SCHEMAS[1], (0, 1, 2, 3))
            for number in (1, 2):
                expect("a write", shared.number(1, f"PUT {text_of(1, number)}"), number)
                expect("a token", shared.number(1, "REFRESH"), number)
            expect("the views", [shared.number(session, "OPEN") for session in (1, 2)], [2, 2])
            child.meet(Faults(passes, kinds=MERGER, is_held=True))
            expect("a merge", shared.ask(0, "FORCE"), "OK begun 2")
            expect("whether a call of the merger is held", child.holds.wait(SECONDS), True)
            expect("the held call", child.calls[-1][0], kind)
            reads_go_on(shared, f"beside {child.calls[-1]}")
            child.release()
            expect("the write at last", shared.reply(3, "PUT"), "OK 3")
            shared.end()
        finally:
            child.kill()


def reads_go_on(shared, what):
    """While a write waits, two sessions get what they ask of their views."""
    shared.say(3, 'PUT {"id":"c"}')
    for session in (1, 2):
        expect(f"the page {what}", shared.ask(session, "FIND 2 9 +price . price:[1 TO *]"), "OK 2 2\n1 s1-1 7\n2 s1-2 7")
        expect(f"the text {what}", shared.ask(session, "GET 2 s1-2"), f"OK {text_of(1, 2)}")
    expect(f"whether the write waits for the lock {what}", waits(shared, 3), True)


class Halted(Faulty):
    """The program in memory, of whose merger a call is held that takes memory. The C library makes one for each piece of 128 KB or more."""

    merger = passes = None

    def prepare(self):
        Child.prepare(self)
        os.environ["GLIBC_TUNABLES"] = f"glibc.malloc.mmap_threshold={128 << 10}"
        socket.send_fds(self.theirs, [b"."], [stop_calls(has_memory=True)])

    def halt(self, passes):
        """Holds the merger's call behind so many others. The merger's thread is the first that the program started."""
        first = self.process.pid
        threads = [int(it) for it in os.listdir(f"/proc/{first}/task")]
        # The numbers of threads rise, and begin again at the greatest.
        self.passes, self.merger = passes, sorted(threads, key=lambda it: (it - first) % (1 << 22))[1]

    def allocation(self, process, number, words):
        if process == self.merger and not sets_room_aside(number, words):
            self.passes -= 1
            if self.passes == -1:
                return None
        return 0, 0, GO_ON


def sets_room_aside(number, words):
    """Whether the C library sets room aside for a thread, which can't be read or written yet. It does so for a thread's first piece,
    however small: one that the merger takes as it looks for the first time, maybe, when there is nothing to do."""
    return TAKES_MEMORY[number] == "mmap" and not words[2]


# How many rows each of two segments has, nearly all of 7,500 bytes; and how many large pieces the merger takes for them at least.
ROWS, LARGE = 20, 3
LONG = "word " * 1_500


def write_and_hold(shared, session):
    """A session makes a segment's writes, first the one of the id of both, and opens a view of them."""
    last = session * ROWS
    expect("a write", shared.number(session, 'PUT {"id":"both","name":"red","price":7}'), last - ROWS + 1)
    for number in range(last - ROWS + 2, last + 1):
        expect("a write", shared.number(session, f'PUT {{"id":"{number}","name":"{LONG}","price":3}}'), number)
    expect("the token and the view", (shared.number(session, "REFRESH"), shared.number(session, "OPEN")), (last, last))


def pages_in_memory_are_made_while_the_merger_has_the_lock(try_):
    """Two sessions hold views of their own, and both put an item of the same id, of which each view has one."""
    for passes in range(LARGE):
        child = Halted(try_.room.folder(), try_.program, "run", "--threads", "4")
        try:
            shared = Shared(child, SCHEMAS[1], (0, 1, 2, 3))
            for session in (1, 2):
                write_and_hold(shared, session)
            child.halt(passes)
            expect("a merge", shared.ask(0, "FORCE"), "OK begun 2")
            expect("whether a call of the merger is held", child.holds.wait(SECONDS), True)
            shared.say(3, 'PUT {"id":"c"}')
            for session, count in ((1, ROWS), (2, 2 * ROWS - 1)):
                what, view = f"of session {session} beside call {passes}", session * ROWS
                shown = f"OK 1 1\n{view - ROWS + 1} both 7"
                expect(f"the page {what}", shared.ask(session, f"FIND {view} 9 +price . name:red"), shown)
                expect(f"the count {what}", shared.ask(session, f"FIND {view} 0 +price . price:[1 TO *]"), f"OK 0 {count}")
            expect(f"whether the write waits for the lock beside call {passes}", waits(shared, 3), True)
            child.release()
            expect("the write at last", shared.reply(3, "PUT"), f"OK {2 * ROWS + 1}")
            shared.end()
        finally:
            child.kill()


def waits(shared, session):
    """Whether the session is told nothing for a while."""
    try:
        return shared.told[session].get(timeout=0.05) is None
    except queue.Empty:
        return True


TESTS = (
    two_sessions_write_side_by_side,
    all_are_at_work_at_once,
    two_sessions_of_an_input_write_side_by_side,
    pages_are_made_while_the_merger_has_the_lock,
    pages_in_memory_are_made_while_the_merger_has_the_lock,
)


if __name__ == "__main__":
    if not can_stop_calls():
        print("at_once: pages while the merger has the lock are left out: no call of a child can be stopped here", file=sys.stderr)
        TESTS = TESTS[:3]
    sys.exit(run("at_once", USAGE, Try, TESTS))
