"""What tests of failing calls share: the calls of the system that the program makes on files, and lines one of which makes a call that
fails."""

import errno
import os
import sys
from contextlib import contextmanager

from faulty import NEVER, Faults, Faulty, can_stop_calls
from limits import Broken, Child
from tries import expect, run

DELETE = "delete"
# How a call fails; a call that takes room on the disk may find none as well.
ALONE, ALL_BEHIND, NO_ROOM = ("alone", {}), ("with all behind", {"all_behind": True}), ("for want of room", {"error": errno.ENOSPC})
TAKES_ROOM = ("create", "write", "sync")


# Calls, as their kinds and names. The folder itself has no name.

# The folder is locked and listed.
LOCKED = [("open", ""), ("lock", ""), ("open", ""), ("list", ""), ("list", "")]


def made(name):
    """A file is made, and its bytes are written."""
    return [("create", name)] + appended(name)


def appended(name):
    return [("open", name), ("write", name)]


def synced(*names):
    return [(kind, name) for name in names for kind in ("open", "sync")]


def deleted(*names):
    return [(DELETE, name) for name in sorted(names)]


def read_again(name):
    """A range of a file that is open from before."""
    return [("seek", name), ("read", name)]


def read(name, ranges=1):
    """So many ranges of a file."""
    return [("open", name), ("size", name)] + read_again(name) * ranges


def whole(*names):
    """Files that are read as a whole, each once its size is known."""
    return [it for name in names for it in [("open", name), ("size", name)] + read(name)]


def left(calls, passes, written):
    """The files that the calls leave that come before so many: empty once they are made, and then with these bytes."""
    files = {}
    for kind, name in calls[:passes]:
        if kind == "create":
            files[name] = b""
        elif kind == "write":
            files[name] = written[name]
    return files


def failures(name, calls, ways=(ALONE, ALL_BEHIND, NO_ROOM)):
    """Each of the calls failing in each way: what that is, how many pass before, and the faults."""
    for passes, (kind, file) in enumerate(calls):
        for way, how in ways:
            if kind in TAKES_ROOM or (way, how) != NO_ROOM:
                yield f"{name}, where call {passes} fails {way}, {kind} of {file or 'the folder'}", passes, Faults(passes, **how)


# Lines.


def pass_by(child, rows, what):
    """Says each line, which has to be answered so."""
    for (line, reply), told in zip(rows, child.say([line for line, _ in rows])):
        expect(f"{what}: the reply to '{line}'", told, reply)


def expect_failure(child, rows, passes, faults, what, told="NO 30", asks_more=False):
    """Says lines, each with its reply and its calls, up to the one that makes the failing call, which is told so: just these calls are
    made, and none behind the failing one, or more where it `asks_more`. Nothing fails from then on."""
    child.meet(faults)
    calls = []
    for line, reply, made_by in rows:
        calls += made_by
        fails = passes < len(calls)
        expect(f"{what}: the reply to '{line}'", child.ask(line), told if fails else reply)
        if fails:
            break
    got = child.calls[: passes + 1] if asks_more else child.calls
    expect(f"{what}: the calls", got, calls[: passes + 1])
    child.meet()


class Quick:
    """A child that is told a few lines at once, and whose complaints, as of a schema line that is refused, aren't shown."""

    def prepare(self):
        os.dup2(os.open(os.devnull, os.O_WRONLY), 2)
        super().prepare()

    def say(self, lines):
        # A pipe holds so few, so neither side waits for the other, and no thread is wanted.
        if sum(map(len, lines)) > 4_000:
            return super().say(lines)
        self.write(lines)
        return [self.reply(line) for line in lines]


class QuickFaulty(Quick, Faulty):
    pass


class QuickChild(Quick, Child):
    pass


class Try:
    """The program, and a room for folders."""

    def __init__(self, room, program):
        self.program, self.folder = program, room.folder

    @contextmanager
    def opened(self, folder, wanted="OK 0", fields='{"price":"number"}', policy="100 1", faults=NEVER, bytes_at_once=None):
        """The program over the folder, whose schema line is answered so, where these calls fail. No merge is due but by FORCE."""
        child = QuickFaulty(folder, self.program, "run", str(folder), faults=faults, bytes_at_once=bytes_at_once)
        try:
            expect(f"the opening with {faults.passes} calls that pass", child.ask(f"SCHEMA {policy} {fields}"), wanted)
            yield child
        finally:
            child.kill()
            child.asked.join(10)
            if child.asked.is_alive():
                raise Broken("the thread that answers for the system goes on")

    def pass_again(self, folder, wanted, rows, what, fields='{"price":"number"}', policy="100 1"):
        """A next run, of which no call fails: its schema line is answered so, and then the rows, as far as it is opened."""
        child = QuickChild(self.program, "run", str(folder))
        try:
            expect(f"{what}: the schema line of the next run", child.ask(f"SCHEMA {policy} {fields}"), wanted)
            pass_by(child, rows, f"{what}: the next run")
            expect(f"{what}: the end of the next run", child.end(), "status 0" if wanted.startswith("OK") else "status 2")
        finally:
            child.kill()


def run_failing(name, usage, tests):
    """Runs the tests of the one program, where this system lets a process stop the calls of its child. Answers the status."""
    if not can_stop_calls():
        print(f"{name}: nothing is tried, since this system doesn't let a process stop the calls of its child", file=sys.stderr)
        return 2
    return run(name, usage, Try, tests)
