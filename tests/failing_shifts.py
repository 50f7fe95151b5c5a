#!/usr/bin/env python3
"""Fails each call of the system that a shift makes: an opening, two views, two commits, a merge, two texts and a sweep. Nothing is lost by
it, and the same line is answered then as if nothing had been.

usage: tests/failing_shifts.py PROGRAM

A call fails once; or it is interrupted; or all fail from there on, as a crash leaves it, and a next run finds the last commit that was
answered. The last line is `N passed, M failed`.
"""

import errno
import sys

import commits
from faulty import Faults
from ledger_faults import LOCKED, appended, deleted, left, made, pass_by, read, read_again, run_failing, synced
from tries import expect, state

OPEN = {"fields": '{"name":"text","price":"number"}', "policy": "2 10"}
RED = '{"id":"a","name":"red apple","price":3}'
BLUE = '{"id":"b","name":"blue bowl","price":5}'
GREEN = '{"id":"a","name":"green apple","price":6}'
# The answer is any number where one that a failing call has taken isn't given out again. MERGE is said until it finds nothing to do.
ANY = "OK .."
SHIFT = (
    (f"1 PUT {RED}", "OK 1"),
    (f"1 PUT {BLUE}", "OK 2"),
    ("1 REFRESH", "OK 2"),
    ("1 OPEN", "OK 2"),
    (f"1 PUT {GREEN}", "OK 3"),
    ("1 REFRESH", "OK 3"),
    ("1 COMMIT three", ANY),
    ("1 GET 2 a", f"OK {RED}"),
    ("0 MERGE", "OK idle"),
    ("1 DEL b", "OK 4"),
    ("1 COMMIT four", ANY),
    ("1 GET 2 b", f"OK {BLUE}"),
    ("1 CLOSE 2", "OK 2"),
    ("1 PRUNE 1", "OK 2"),
    ("0 SWEEP", ANY),
)
OPENING = LOCKED + synced("")
# Of the first segment a row died before the first commit, and of the merged one before the second. The texts of segment 1 are open since
# the first that was read. In the end the first commit goes.
CALLS = (
    OPENING
    + made("_1.seg") + made("_1.sto")
    + made("_2.seg") + made("_2.sto")
    + made("_1_1.liv") + synced("_1.seg", "_1.sto", "_1_1.liv", "_2.seg", "_2.sto", "") + made("segments_1") + synced("segments_1", "")
    + read("_1.sto")
    + [("create", "_3.sto")] + read_again("_1.sto") + read("_2.sto") + appended("_3.sto") + made("_3.seg")
    + made("_3_2.liv") + synced("_3.seg", "_3.sto", "_3_2.liv", "") + made("segments_2") + synced("segments_2", "")
    + read_again("_1.sto")
    + deleted("_1_1.liv", "segments_1")
)
COMMITTED = {"1 COMMIT three": 3, "1 COMMIT four": 4}
# What the view says that session 1 holds, of the writes up to 2.
HELD = "OK 2 2\n1 a 3\n2 b 5"
# What a next run finds at so many writes.
TABLES = {
    0: (("1 OPEN", "OK 0"), ("1 FIND 0 9 +price . *:*", "OK 0 0"), ("1 GET 0 a", "OK ."), ("1 GET 0 b", "OK .")),
    3: (("1 OPEN", "OK 3"), ("1 FIND 3 9 +price . *:*", "OK 2 2\n2 b 5\n3 a 6"), ("1 GET 3 a", f"OK {GREEN}"), ("1 GET 3 b", f"OK {BLUE}")),
    4: (("1 OPEN", "OK 4"), ("1 FIND 4 9 +price . *:*", "OK 1 1\n3 a 6"), ("1 GET 4 a", f"OK {GREEN}"), ("1 GET 4 b", "OK .")),
}


def told(child, line):
    """What the line is answered; MERGE, in steps until one finds nothing to do or is refused."""
    for _ in range(100):
        reply = child.ask(line)
        if line != "0 MERGE" or reply == "OK idle" or reply.startswith("NO "):
            return reply
    return "MERGE without an end"


def is_so(reply, wanted):
    return reply.startswith("OK ") if wanted == ANY else reply == wanted


def standing(child):
    """How many writes, items that wait, segments, views and cached sets there are, and each segment; not the files to be deleted. And what
    session 1 sees of its view, where it holds that."""
    stat, page = child.say(["0 STAT", "1 FIND 2 9 +price . *:*"])
    first, *segments = stat.split("\n")
    return first.split()[:-1], segments, page


def pass_retried(child, what, has_ended):
    """Says the lines of the shift, and once more where one is refused by 30, which has to leave what stood. Behind a sync that failed no
    commit comes. Answers how many writes the last commit has that came, and how many lines were refused."""
    kept = refused = 0
    for line, wanted in SHIFT:
        before = standing(child)
        expect(f"{what}: the page before '{line}'", before[2] in (HELD, "NO 20"), True)
        reply = told(child, line)
        if reply == "NO 30":
            refused += 1
            expect(f"{what}: what stands behind '{line}'", standing(child), before)
            reply = told(child, line)
        if line in COMMITTED and has_ended(child):
            expect(f"{what}: the reply to '{line}' behind a sync that failed", reply, "NO 30")
            continue
        expect(f"{what}: the reply to '{line}', {reply!r}, is {wanted!r}", is_so(reply, wanted), True)
        kept = COMMITTED.get(line, kept)
    return kept, refused


def expect_files(child, folder, what):
    """The files are those of the last commit, four, and of the two segments of the last view, and no other."""
    generation = child.ask("1 SNAP").partition(" ")[2]
    replies = child.say([f"1 FILES g {generation}", "1 OPEN", "1 FILES t 3", "1 PRUNE 1"])
    expect(f"{what}: the commit and the view", [replies[0][:4], replies[1], replies[2][:4], replies[3]], ["OK 4", "OK 3", "OK 4", "OK 0"])
    names = set(replies[0].split("\n")[1:]) | set(replies[2].split("\n")[1:])
    expect(f"{what}: the files", (len(names), set(state(folder))), (8, names))


def expect_table(try_, folder, count, what):
    try_.pass_again(folder, f"OK {count}", TABLES[count], what, **OPEN)


def named(passes):
    kind, file = CALLS[passes] if passes < len(CALLS) else ("none", "")
    return f"call {passes}, {kind} of {file or 'the folder'}"


def opened_at_last(try_, folder, passes, what):
    """The program, of whose calls this one fails, once the opening has come: where it is one of its calls it is refused, and made again."""
    if passes >= len(OPENING):
        return try_.opened(folder, faults=Faults(passes), **OPEN)
    with try_.opened(folder, "NO 30", faults=Faults(passes), **OPEN) as child:
        expect(f"{what}: the calls of the opening", child.calls, CALLS[: passes + 1])
        expect(f"{what}: the end of the opening", child.end(), "status 2")
    return try_.opened(folder, **OPEN)


def each_call_that_fails_once_succeeds_later(try_):
    """But behind a sync that failed no commit comes, and the next run finds the last that came: a sweep took what a refused one left."""
    second = CALLS.index(("create", "_3_2.liv"))
    for passes in range(len(CALLS) + 1):
        folder, what = try_.folder(), f"a shift where {named(passes)} fails once"
        is_in_shift = len(OPENING) <= passes < len(CALLS)
        is_sync = is_in_shift and CALLS[passes][0] == "sync"
        with opened_at_last(try_, folder, passes, what) as child:
            kept, refused = pass_retried(child, what, lambda child: is_sync and len(child.calls) > passes)
            # Where the first commit is refused for good, so is the second.
            expect(f"{what}: how many lines were refused", refused, is_in_shift + (is_sync and passes < second))
            expect(f"{what}: how many writes were committed", kept, 4 if not is_sync else 3 if passes > second else 0)
            until = passes + 1 if is_in_shift else None
            expect(f"{what}: the calls", child.calls[:until], CALLS[:until])
            if not is_sync:
                expect_files(child, folder, what)
            expect(f"{what}: the end", child.end(), "status 0")
        expect_table(try_, folder, kept, what)


def cut_off(try_, folder, faults, what):
    """Says the lines up to the first that is refused, and kills the program. Answers how many writes the last commit has that came, and the
    one that was refused, if one was."""
    kept = 0
    with try_.opened(folder, "NO 30" if faults.passes < len(OPENING) else "OK 0", faults=faults, **OPEN) as child:
        if faults.passes < len(OPENING):
            return 0, None
        for line, wanted in SHIFT:
            reply = told(child, line)
            if reply == "NO 30":
                return kept, COMMITTED.get(line)
            expect(f"{what}: the reply to '{line}', {reply!r}, is {wanted!r}", is_so(reply, wanted), True)
            kept = COMMITTED.get(line, kept)
    return kept, None


def no_commit_that_came_is_lost_by_a_crash(try_):
    """All calls fail from one on, and the program is killed. The next run finds the last commit that came, or the one that was cut off
    where its own file was whole. Where that file is empty it is refused, and finds the one before once the file is gone."""
    own_files = {3: "segments_1", 4: "segments_2"}
    for passes in range(len(CALLS) + 1):
        folder, what = try_.folder(), f"a shift where {named(passes)} fails with all behind"
        kept, cut = cut_off(try_, folder, Faults(passes, all_behind=True), what)
        own = left(CALLS, passes, {name: b"whole" for _, name in CALLS}).get(own_files.get(cut))
        expect(f"{what}: whether all was answered", (kept, cut) == (4, None), passes >= len(CALLS) - 4)
        if own == b"":
            try_.pass_again(folder, "NO 31", (), what, **OPEN)
            (folder / own_files[cut]).unlink()
        expect_table(try_, folder, cut if own == b"whole" else kept, what)


# Calls that are made again where a signal comes between. Only the folder's listing is refused then, as it begins.
MADE_AGAIN = ("create", "open", "write", "sync", "read", "lock")
LISTING = 2


class Interruptions(Faults):
    """Each call that is made again is interrupted so many times before it passes."""

    def __init__(self, times):
        super().__init__(error=errno.EINTR)
        self.times, self.count, self.listing = times, 0, (times + 1) * LISTING

    def fails(self, made, kind):
        if kind not in MADE_AGAIN or made == self.listing or self.count == self.times:
            self.count = 0
            return False
        self.count += 1
        return True


def an_interrupted_call_is_made_again(try_):
    """And no line tells of it."""
    for times in (1, 2, 5):
        folder, what = try_.folder(), f"a shift whose calls are interrupted {times} times each"
        wanted_calls = []
        for number, call in enumerate(CALLS):
            wanted_calls += [call] * (times + 1 if call[0] in MADE_AGAIN and number != LISTING else 1)
        with try_.opened(folder, faults=Interruptions(times), **OPEN) as child:
            for line, wanted in SHIFT:
                reply = told(child, line)
                expect(f"{what}: the reply to '{line}', {reply!r}, is {wanted!r}", is_so(reply, wanted), True)
            expect(f"{what}: the calls", child.calls, wanted_calls)
            expect_files(child, folder, what)
        expect_table(try_, folder, 4, what)


def an_interrupted_listing_is_refused(try_):
    folder, what = try_.folder(), "a listing that is interrupted as it begins"
    with try_.opened(folder, "NO 30", faults=Faults(LISTING, error=errno.EINTR), **OPEN) as child:
        expect(f"{what}: the end", child.end(), "status 2")
    expect_table(try_, folder, 0, what)


# What stands in the end: of the items `b` and `a`, which were merged, `b` was deleted then.
FIELDS = commits.fields_of((b"name", 1), (b"price", 3))
LAST_FILES = {
    "_3.sto": (BLUE + GREEN).encode(),
    "_3_2.liv": commits.live(3, 2, 2, 0b10),
    "segments_2": commits.commit(2, 4, 4, ((3, 2),), b"four", FIELDS),
}


def calls_may_do_a_part(try_):
    """Reads and writes do at most 7 bytes of what is asked for, and are carried on: so files and texts are whole."""
    folder, what = try_.folder(), "a shift in pieces"
    with try_.opened(folder, **OPEN) as child:
        child.bytes_at_once = 7
        for line, wanted in SHIFT:
            reply = told(child, line)
            expect(f"{what}: the reply to '{line}', {reply!r}, is {wanted!r}", is_so(reply, wanted), True)
        written = [name for kind, name in child.calls if kind == "write"]
        expect(f"{what}: the writes of the last texts", written.count("_3.sto"), -(-len(BLUE + GREEN) // 7))
        expect_files(child, folder, what)
    files = state(folder)
    expect(f"{what}: the last files", {name: files[name] for name in LAST_FILES}, LAST_FILES)
    for bytes_at_once in (1, 7):
        with try_.opened(folder, "OK 4", bytes_at_once=bytes_at_once, **OPEN) as child:
            pass_by(child, TABLES[4], f"a folder that is read by {bytes_at_once}")


TESTS = (
    each_call_that_fails_once_succeeds_later,
    no_commit_that_came_is_lost_by_a_crash,
    an_interrupted_call_is_made_again,
    an_interrupted_listing_is_refused,
    calls_may_do_a_part,
)


if __name__ == "__main__":
    sys.exit(run_failing("failing_shifts", "usage: tests/failing_shifts.py PROGRAM", TESTS))
