#!/usr/bin/env python3
"""Fails each call of the system that the program makes on a folder: where it makes a segment, merges, keeps a commit, sweeps, reads a
text, or opens the folder. What it answers, what stands then, what a next run finds, and which calls it makes are what a person
worked out.

usage: tests/failing_ledgers.py PROGRAM

A call fails alone, or with all behind it. What becomes of a whole shift is tried by tests/failing_shifts.py. The last line is
`N passed, M failed`.
"""

import errno
import sys

from commits import PRICE as PRICE_FIELD
from faulty import Faults
from ledger_faults import ALL_BEHIND, ALONE, LOCKED, expect_failure, failures, left, pass_by, run_failing
from ledger_faults import appended, deleted, made, read, read_again, synced, whole
from limits import counted, number_column, u32, u64
from tries import expect, state

PRICE = '{"price":"number"}'


def text(id, price):
    return f'{{"id":"{id}","price":{price}}}'


def put(id, price, number):
    """The line that puts it, and its reply."""
    return f"1 PUT {text(id, price)}", f"OK {number}"


def priced(number, *rows):
    """A segment's file. Each row is the number of its write, its id, how many bytes its item's text has, and its price, if any."""
    said = b"CSEG\1" + u64(number) + u32(len(rows)) + PRICE_FIELD
    return said + b"".join(u64(write) + counted(id) + u32(size) for write, id, size, _ in rows) + number_column([it[3] for it in rows])


# Flushes: a file of rows is made and written, and then one of their texts.

TWO = (put("a", 1, 1), put("b", 2, 2))
TWO_TEXTS = text("a", 1) + text("b", 2)
# What waited waits, and two names are pending. The number is taken: the same line makes segment 2, and the other names go.
STILL_WAITING = (
    ("0 STAT", "OK 2 2 0 1 0 2"),
    ("1 OPEN", "OK 0"),
    ("1 FIND 0 10 . . *:*", "OK 0 0"),
    ("1 REFRESH", "OK 2"),
    ("0 STAT", "OK 2 0 1 2 0 2\n2 2 2"),
    ("1 FIND 0 10 . . *:*", "OK 0 0"),
    ("1 OPEN", "OK 2"),
    ("1 FILES t 2", "OK 2\n_2.seg\n_2.sto"),
    ("1 FIND 2 10 +price . *:*", "OK 2 2\n1 a 1\n2 b 2"),
    ("1 GET 2 b", f"OK {text('b', 2)}"),
    ("0 SWEEP", "OK 2"),
    ("0 STAT", "OK 2 0 1 2 0 0\n2 2 2"),
)


def what_waited_waits_where_a_flush_fails(try_):
    calls = made("_1.seg") + made("_1.sto")
    rows = (1, b"a", 20, 1), (2, b"b", 20, 2)
    for what, passes, faults in failures("a flush", calls):
        folder = try_.folder()
        with try_.opened(folder) as child:
            pass_by(child, TWO, what)
            expect_failure(child, [("1 REFRESH", "OK 2", calls)], passes, faults, what)
            expect(f"{what}: the files", state(folder), left(calls, passes, {"_1.seg": priced(1, *rows)}))
            pass_by(child, STILL_WAITING, what)
            wanted = {"_2.seg": priced(2, *rows), "_2.sto": TWO_TEXTS.encode()}
            expect(f"{what}: the files in the end", state(folder), wanted)


# Three segments, and session 2 holds a view of them. The item `f` waits once more.
THREE = (
    put("a", 10, 1), put("b", 20, 2), put("c", 30, 3), ("1 REFRESH", "OK 3"), put("d", 10, 4), ('1 PUT {"id":"e"}', "OK 5"),
    ("1 REFRESH", "OK 5"), put("f", 20, 6), put("g", 40, 7), ("1 REFRESH", "OK 7"), ("2 OPEN", "OK 7"), put("f", 1, 8),
)
HELD = (
    ("2 FIND 7 10 +price . *:*", "OK 7 7\n1 a 10\n4 d 10\n2 b 20\n6 f 20\n3 c 30\n7 g 40\n5 e ."),
    ("2 GET 7 f", f"OK {text('f', 20)}"),
    ("2 FILES t 7", "OK 6\n_1.seg\n_1.sto\n_2.seg\n_2.sto\n_3.seg\n_3.sto"),
)
# What stood stands, without the row of `f`. The next try makes segment 5.
STOOD = ("0 STAT", "OK 8 1 3 4 0 2\n1 3 3\n2 2 2\n3 2 1")
BEHIND = (
    ("1 REFRESH", "OK 8"),
    ("0 STAT", "OK 8 0 4 5 0 2\n1 3 3\n2 2 2\n3 2 1\n5 1 1"),
    ("1 OPEN", "OK 8"),
    ("1 FIND 8 10 +price . *:*", "OK 7 7\n8 f 1\n1 a 10\n4 d 10\n2 b 20\n3 c 30\n7 g 40\n5 e ."),
    ("1 GET 8 f", f"OK {text('f', 1)}"),
    ("1 FILES t 8", "OK 8\n_1.seg\n_1.sto\n_2.seg\n_2.sto\n_3.seg\n_3.sto\n_5.seg\n_5.sto"),
)


def what_stood_stands_where_a_flush_fails(try_):
    calls = made("_4.seg") + made("_4.sto")
    for what, passes, faults in failures("a flush behind three", calls):
        folder = try_.folder()
        with try_.opened(folder) as child:
            pass_by(child, THREE, what)
            before = state(folder)
            expect_failure(child, [("1 REFRESH", "OK 8", calls)], passes, faults, what)
            rows = priced(4, (8, b"f", 20, 1))
            expect(f"{what}: the files", state(folder), {**before, **left(calls, passes, {"_4.seg": rows})})
            pass_by(child, (STOOD, *HELD, *BEHIND, *HELD), what)


# Lines that make no call of the system, behind a commit of two items in a segment: nothing waits, and a view and the commit are held.
NO_CALLS = (
    ("1 REFRESH", "OK 2"), ("1 REFRESH", "OK 2"), ("1 OPEN", "OK 2"), ("1 SNAP", "OK 1"), ("1 NOTE 1", "OK =one"),
    ("1 FIND 2 10 +price . *:*", "OK 2 2\n1 a 1\n2 b 2"), ("1 FILES t 2", "OK 2\n_1.seg\n_1.sto"), ("1 GET 2 none", "OK ."),
    ("1 FILES g 1", "OK 3\n_1.seg\n_1.sto\nsegments_1"), ("0 MERGE", "OK idle"), ("0 FORCE", "OK idle"), ("0 SWEEP", "OK 0"),
    ("1 DEL a", "OK 3"), ("1 REFRESH", "OK 3"), ("1 DELW price:2", "OK 4"), ("1 REFRESH", "OK 4"), put("c", 3, 5), ("1 DEL c", "OK 6"),
    ("1 REFRESH", "OK 6"), ("0 STAT", "OK 6 0 1 5 0 0\n1 2 0"), ("1 CLOSE 2", "OK 2"), ("1 PRUNE 1", "OK 4"), ("1 UNSNAP 1", "OK 0"),
)


def nothing_is_flushed_without_a_call(try_):
    with try_.opened(try_.folder()) as child:
        child.meet(Faults(0, all_behind=True))
        pass_by(child, [("1 REFRESH", "OK 0"), ("1 OPEN", "OK 0"), ("0 STAT", "OK 0 0 0 1 0 0"), ("1 CLOSE 0", "OK 0")], "of nothing")
        expect("the calls of nothing", child.calls, [])
        child.meet()
        pass_by(child, (*TWO, ("1 COMMIT one", "OK 1")), "before")
        child.meet(Faults(0, all_behind=True))
        pass_by(child, NO_CALLS, "without a call")
        expect("the calls", child.calls, [])


def a_put_flushes_as_many_as_may_wait(try_):
    """A PUT that finds 1,024 items waiting is refused where the flush fails, and takes no number. Other writes go on."""
    with try_.opened(try_.folder()) as child:
        expect("the items", child.say([f"1 PUT {text(f'i{number}', 1)}" for number in range(1_024)])[-1], "OK 1024")
        for passes in range(6):
            calls = made(f"_{passes + 1}.seg") + made(f"_{passes + 1}.sto")
            what = f"a put whose flush fails at call {passes}, {calls[passes]}"
            expect_failure(child, [(put("last", 1, 1_025)[0], "OK 1025", calls)], passes, Faults(passes, error=errno.ENOSPC), what)
            pass_by(child, [("0 STAT", f"OK 1024 1024 0 1 0 {2 * passes + 2}")], what)
        child.meet(Faults(0, all_behind=True))
        last, refused = put("last", 1, 1_028), (put("last", 1, 0)[0], "NO 30")
        rows = refused, ("1 DEL i0", "OK 1025"), put("i1", 2, 1_026), put("more", 1, 1_027), refused
        pass_by(child, rows, "where all calls fail")
        child.meet()
        pass_by(child, [last, ("0 STAT", "OK 1028 1 1 1 0 16\n9 1024 1024"), ("0 SWEEP", "OK 16")], "behind the failures")


# Merges: of three segments one call begins the file of texts, one range of each is read, they are appended, and the segment is made.

TWO_DEAD = (
    *TWO, ("1 REFRESH", "OK 2"), put("c", 3, 3), put("d", 4, 4), ("1 REFRESH", "OK 4"), put("e", 5, 5), put("f", 6, 6),
    ("1 REFRESH", "OK 6"), ("2 OPEN", "OK 6"), ("1 DEL b", "OK 7"), ("1 DEL e", "OK 8"),
)
# What the held view says, before and behind.
SIX = (
    ("2 FIND 6 10 -price . *:*", "OK 6 6\n6 f 6\n5 e 5\n4 d 4\n3 c 3\n2 b 2\n1 a 1"),
    ("2 GET 6 b", f"OK {text('b', 2)}"),
    ("2 GET 6 e", f"OK {text('e', 5)}"),
    ("2 FILES t 6", "OK 6\n_1.seg\n_1.sto\n_2.seg\n_2.sto\n_3.seg\n_3.sto"),
)
SOURCES = {
    "_1.sto": b'{"id":"a","price":1}{"id":"b","price":2}',
    "_2.sto": b'{"id":"c","price":3}{"id":"d","price":4}',
    "_3.sto": b'{"id":"e","price":5}{"id":"f","price":6}',
    "_1.seg": priced(1, (1, b"a", 20, 1), (2, b"b", 20, 2)),
    "_2.seg": priced(2, (3, b"c", 20, 3), (4, b"d", 20, 4)),
    "_3.seg": priced(3, (5, b"e", 20, 5), (6, b"f", 20, 6)),
}
# Segment 5, of the rows that live.
MERGED = (
    b"CSEG\x01\0\0\0\0\0\0\0\x05\0\0\0\x04\0\0\0\x01\0\0\0\x05price\x03"
    b"\0\0\0\0\0\0\0\x01\0\0\0\x01a\0\0\0\x14\0\0\0\0\0\0\0\x03\0\0\0\x01c\0\0\0\x14"
    b"\0\0\0\0\0\0\0\x04\0\0\0\x01d\0\0\0\x14\0\0\0\0\0\0\0\x06\0\0\0\x01f\0\0\0\x14"
    b"\x01\0\0\0\0\0\0\0\x01\x01\0\0\0\0\0\0\0\x03\x01\0\0\0\0\0\0\0\x04\x01\0\0\0\0\0\0\0\x06"
)
MERGED_TEXTS = b'{"id":"a","price":1}{"id":"c","price":3}{"id":"d","price":4}{"id":"f","price":6}'
MERGE = (
    ("0 FORCE", "OK begun 3", [("create", "_4.sto")]),
    ("0 MERGE", "OK copied 6", read("_1.sto") + read("_2.sto") + read("_3.sto") + appended("_4.sto")),
    ("0 MERGE", "OK done", made("_4.seg")),
)
NEXT_MERGE = (("0 FORCE", "OK begun 3"), ("0 MERGE", "OK copied 6"), ("0 MERGE", "OK done"))


def over(pending):
    """The merge is over, with so many names pending: what it took stands."""
    return ("0 MERGE", "OK idle"), ("0 STAT", f"OK 8 0 3 4 0 {pending}\n1 2 1\n2 2 2\n3 2 1")


def merged(pending):
    """The next merge makes the segment of the number behind. A sweep takes what the one before began."""
    stat = f"OK 8 0 1 4 0 {pending}\n5 4 4"
    swept = ("0 SWEEP", f"OK {pending}"), ("1 REFRESH", "OK 8"), ("1 OPEN", "OK 8")
    return (*NEXT_MERGE, ("0 STAT", stat), *swept, ("1 FIND 8 10 +price . *:*", "OK 4 4\n1 a 1\n3 c 3\n4 d 4\n6 f 6"))


def a_merge_is_over_where_a_call_fails(try_):
    calls = [it for _, _, calls in MERGE for it in calls]
    for what, passes, faults in failures("a merge", calls):
        folder = try_.folder()
        # The file of the segment is pending too once its texts are copied.
        pending = 1 if passes < len(calls) - 3 else 2
        with try_.opened(folder) as child:
            pass_by(child, TWO_DEAD, what)
            expect(f"{what}: the files before", state(folder), SOURCES)
            expect_failure(child, MERGE, passes, faults, what)
            pass_by(child, over(pending), what)
            expect(f"{what}: the files", state(folder), {**SOURCES, **left(calls, passes, {"_4.sto": MERGED_TEXTS})})
            pass_by(child, (*SIX, *merged(pending), *SIX), what)
            expect(f"{what}: the files in the end", state(folder), {**SOURCES, "_5.seg": MERGED, "_5.sto": MERGED_TEXTS})


# Of segments that end at these items some are dead: how many ranges of each one's texts lie between them.
RANGES = (
    ("two dead rows of six, none of two, and one of one", (6, 8, 9), (2, 5, 9), (3, 1, 0)),
    ("no dead row", (3, 5), (), (1, 1)),
    ("each second row", (6,), (1, 3, 5), (3,)),
    ("the rows at both ends", (5, 7), (1, 5, 6), (1, 1)),
    ("dead rows side by side", (7, 8), (2, 3, 4, 6), (3, 1)),
)


def few_ranges_of_texts_are_read(try_):
    """A merge reads just the ranges that live, each once, and the file of its segment comes last."""
    for name, ends, dead, ranges in RANGES:
        count, new, token = ends[-1], len(ends) + 1, ends[-1] + len(dead)
        living = [number for number in range(1, count + 1) if number not in dead]
        with try_.opened(try_.folder()) as child:
            for number in range(1, count + 1):
                pass_by(child, [put(f"i{number}", number, number)] + [("1 REFRESH", f"OK {number}")] * (number in ends), name)
            child.say([f"1 DEL i{number}" for number in dead])
            child.meet()
            pass_by(child, [("0 FORCE", f"OK begun {len(ends)}"), ("0 MERGE", f"OK copied {count}"), ("0 MERGE", "OK done")], name)
            reads = [it for at, number in enumerate(ranges, 1) if number for it in read(f"_{at}.sto", number)]
            wanted = [("create", f"_{new}.sto")] + reads + appended(f"_{new}.sto") + made(f"_{new}.seg")
            expect(f"the calls of {name}", child.calls, wanted)
            page = "\n".join([f"OK {len(living)} {len(living)}", *(f"{number} i{number} ." for number in living)])
            rows = ("1 REFRESH", f"OK {token}"), ("1 OPEN", f"OK {token}"), (f"1 FIND {token} 99 . . *:*", page)
            pass_by(child, [("0 STAT", f"OK {token} 0 1 {new} 0 0\n{new} {len(living)} {len(living)}"), *rows], name)
            pass_by(child, [(f"1 GET {token} i{number}", f"OK {text(f'i{number}', number)}") for number in living], name)


# Commits: of two items in a segment, which commit 1 has, one is deleted. Commit 2 writes a file of live rows, which lasts before its own
# file is begun.

ONE_DELETED = (*TWO, ("1 COMMIT one", "OK 1"), ("1 DEL a", "OK 3"))
FIRST = (
    b"CSGM\x02\0\0\0\0\0\0\0\x01\0\0\0\0\0\0\0\x02\0\0\0\0\0\0\0\x02\0\0\0\x03one"
    b"\0\0\0\x01\0\0\0\x05price\x03\0\0\0\x01\0\0\0\0\0\0\0\x01\0\0\0\0\0\0\0\0"
)
LIVE = b"CLIV\x01\0\0\0\0\0\0\0\x01\0\0\0\0\0\0\0\x02\0\0\0\x02\x02"
SECOND = (
    b"CSGM\x02\0\0\0\0\0\0\0\x02\0\0\0\0\0\0\0\x03\0\0\0\0\0\0\0\x02\0\0\0\x03two"
    b"\0\0\0\x01\0\0\0\x05price\x03\0\0\0\x01\0\0\0\0\0\0\0\x01\0\0\0\0\0\0\0\x02"
)
BEFORE_SECOND = {"_1.seg": SOURCES["_1.seg"], "_1.sto": SOURCES["_1.sto"], "segments_1": FIRST}
WRITTEN = {"_1_2.liv": LIVE, "segments_2": SECOND}
SECOND_CALLS = made("_1_2.liv") + synced("_1_2.liv", "") + made("segments_2") + synced("segments_2", "")
# The commit before is the newest, its files are used as before, and the two names of the refused one are pending.
FIRST_STAYS = (
    ("0 STAT", "OK 3 0 1 1 0 2\n1 2 1"),
    ("1 NOTE 1", "OK =one"),
    ("1 NOTE 2", "NO 26"),
    ("1 FILES g 2", "NO 26"),
    ("1 FILES g 1", "OK 3\n_1.seg\n_1.sto\nsegments_1"),
    ("1 SNAP", "OK 1"),
    ("1 UNSNAP 1", "OK 0"),
    ("0 SWEEP", "OK 2"),
    ("0 STAT", "OK 3 0 1 1 0 0\n1 2 1"),
)
# The number 2 is taken. The first commit goes once the third stands.
THIRD_STANDS = (
    ("1 COMMIT three", "OK 3"),
    ("0 STAT", "OK 3 0 1 1 0 1\n1 2 1"),
    ("1 NOTE 1", "NO 26"),
    ("1 FILES g 3", "OK 4\n_1.seg\n_1.sto\n_1_3.liv\nsegments_3"),
    ("0 SWEEP", "OK 1"),
)
# What a next run finds of each commit.
FOUND_FIRST = (
    ("1 SNAP", "OK 1"), ("1 NOTE 1", "OK =one"), ("0 STAT", "OK 2 0 1 1 0 0\n1 2 2"), ("1 OPEN", "OK 2"),
    ("1 FIND 2 10 +price . *:*", "OK 2 2\n1 a 1\n2 b 2"), ("1 GET 2 a", f"OK {text('a', 1)}"), ("1 GET 2 b", f"OK {text('b', 2)}"),
)


def found_later(generation, name):
    return (
        ("1 SNAP", f"OK {generation}"), (f"1 NOTE {generation}", f"OK ={name}"), ("0 STAT", "OK 3 0 1 1 0 0\n1 2 1"), ("1 OPEN", "OK 3"),
        ("1 FIND 3 10 +price . *:*", "OK 1 1\n2 b 2"), ("1 GET 3 a", "OK ."), ("1 GET 3 b", f"OK {text('b', 2)}"),
    )


def expect_found(try_, own, written, earlier, later, what):
    """What a next run finds beside the own file that a refused commit left, which is absent, torn, or as it is written: the schema line's
    reply and rows. Beside a torn one it finds nothing, and the commit before once that file is gone."""
    if own.exists() and own.read_bytes() != written:
        try_.pass_again(own.parent, "NO 31", (), what)
        own.unlink()
    try_.pass_again(own.parent, *(later if own.exists() else earlier), what)


def a_refused_commit_is_none(try_):
    """The newest commit before stays, and the next one takes the number behind; but behind a sync that failed there is none any more."""
    for what, passes, faults in failures("a commit", SECOND_CALLS):
        folder = try_.folder()
        with try_.opened(folder) as child:
            pass_by(child, ONE_DELETED, what)
            expect_failure(child, [("1 COMMIT two", "OK 2", SECOND_CALLS)], passes, faults, what)
            expect(f"{what}: the files", state(folder), {**BEFORE_SECOND, **left(SECOND_CALLS, passes, WRITTEN)})
            pass_by(child, FIRST_STAYS, what)
            expect(f"{what}: the files behind a sweep", state(folder), BEFORE_SECOND)
            has_ended = SECOND_CALLS[passes][0] == "sync"
            if has_ended:
                refused = ("1 COMMIT three", "NO 30"), ("1 COMMIT four", "NO 30"), ("1 NOTE 1", "OK =one"), ("0 SWEEP", "OK 4")
                pass_by(child, refused, what)
                expect(f"{what}: the syncs behind", [it for it in child.calls if it[0] == "sync"], [])
            else:
                pass_by(child, THIRD_STANDS, what)
            expect(f"{what}: the end", child.end(), "status 0")
        found = ("OK 2", FOUND_FIRST) if has_ended else ("OK 3", found_later(3, "three"))
        try_.pass_again(folder, *found, what)


def a_crash_in_a_commit_leaves_one(try_):
    """Where the program is killed behind the failure, the next run finds the answered commit, or the refused one where it was whole."""
    for what, passes, faults in failures("a commit cut off", SECOND_CALLS, [ALL_BEHIND]):
        folder = try_.folder()
        with try_.opened(folder) as child:
            pass_by(child, ONE_DELETED, what)
            expect_failure(child, [("1 COMMIT two", "OK 2", SECOND_CALLS)], passes, faults, what)
        expect_found(try_, folder / "segments_2", SECOND, ("OK 2", FOUND_FIRST), ("OK 3", found_later(2, "two")), what)


FIRST_CALLS = made("_1.seg") + made("_1.sto") + synced("_1.seg", "_1.sto", "") + made("segments_1") + synced("segments_1", "")
NOTHING = (("1 SNAP", "NO 26"), ("0 STAT", "OK 0 0 0 1 0 0"), ("1 OPEN", "OK 0"), ("1 FIND 0 10 . . *:*", "OK 0 0"))


def a_first_commit_that_fails_is_none(try_):
    """Where its flush fails the items wait still; else they are a segment. A next run finds nothing, or the commit where it was whole."""
    for what, passes, faults in failures("a first commit", FIRST_CALLS, [ALL_BEHIND]):
        folder = try_.folder()
        with try_.opened(folder) as child:
            pass_by(child, TWO, what)
            expect_failure(child, [("1 COMMIT one", "OK 1", FIRST_CALLS)], passes, faults, what)
            wanted = {**SOURCES, "segments_1": FIRST}
            expect(f"{what}: the files", state(folder), left(FIRST_CALLS, passes, wanted))
            stat = "OK 2 2 0 1 0 2" if passes < 6 else "OK 2 0 1 1 0 1\n1 2 2"
            pass_by(child, [("0 STAT", stat), ("1 SNAP", "NO 26"), ("1 NOTE 1", "NO 26")], what)
        expect_found(try_, folder / "segments_1", FIRST, ("OK 0", NOTHING), ("OK 2", FOUND_FIRST), what)


def a_commit_of_pieces_is_torn_at_any(try_):
    """Each write does 16 bytes at most, and then one fails: the own file has a beginning of its bytes, which is no commit."""
    live, own = -(-len(LIVE) // 16), -(-len(SECOND) // 16)
    for passes in range(live + own + 1):
        folder, what = try_.folder(), f"a commit of pieces of 16 bytes, of whose writes the one behind {passes} fails"
        with try_.opened(folder) as child:
            pass_by(child, ONE_DELETED, what)
            child.bytes_at_once = 16
            child.meet(Faults(passes, error=errno.ENOSPC, kinds=("write",)))
            expect(f"{what}: the reply", child.ask("1 COMMIT two"), "OK 2" if passes == live + own else "NO 30")
            wanted = {"_1_2.liv": LIVE[: 16 * passes], **({"segments_2": SECOND[: 16 * (passes - live)]} if passes >= live else {})}
            expect(f"{what}: the files", state(folder), {**BEFORE_SECOND, **wanted})
        expect_found(try_, folder / "segments_2", SECOND, ("OK 2", FOUND_FIRST), ("OK 3", found_later(2, "two")), what)


# Sweeps, and texts that are read.

# Two segments are merged into segment 3, and no view needs them any more.
MERGED_AWAY = (
    *TWO, ("1 REFRESH", "OK 2"), put("c", 3, 3), ("1 REFRESH", "OK 3"), ("0 FORCE", "OK begun 2"), ("0 MERGE", "OK copied 3"),
    ("0 MERGE", "OK done"), put("d", 4, 4), ("1 REFRESH", "OK 4"), ("1 PRUNE 1", "OK 3"), ("1 OPEN", "OK 4"),
)
GONE = ("_1.seg", "_1.sto", "_2.seg", "_2.sto")
STAYING = {"_3.seg", "_3.sto", "_4.seg", "_4.sto"}


def a_sweep_ends_where_a_delete_fails(try_):
    """Those before are deleted, those from there on stay and are told, and the next sweep takes them."""
    calls = deleted(*GONE)
    for what, passes, faults in failures("a sweep", calls):
        folder = try_.folder()
        with try_.opened(folder) as child:
            pass_by(child, (*MERGED_AWAY, ("0 STAT", "OK 4 0 2 1 0 4\n3 3 3\n4 1 1")), what)
            expect_failure(child, [("0 SWEEP", "OK 4", calls)], passes, faults, what)
            expect(f"{what}: the files", set(state(folder)), STAYING | set(GONE[passes:]))
            rows = (
                ("0 STAT", f"OK 4 0 2 1 0 {4 - passes}\n3 3 3\n4 1 1"), ("1 FIND 4 10 . . *:*", "OK 4 4\n1 a .\n2 b .\n3 c .\n4 d ."),
                ("1 GET 4 b", f"OK {text('b', 2)}"), ("0 SWEEP", f"OK {4 - passes}"), ("0 STAT", "OK 4 0 2 1 0 0\n3 3 3\n4 1 1"),
            )
            pass_by(child, rows, what)
            expect(f"{what}: the files in the end", set(state(folder)), STAYING)


# What is told of each error of a read: by the system the file is absent, memory is wanting, or the device failed.
TOLD = ((errno.EIO, "NO 30"), (errno.EACCES, "NO 30"), (errno.EMFILE, "NO 30"), (errno.ENOENT, "NO 31"), (errno.ENOMEM, "NO 40"))
FIND_TWO = ("1 FIND 2 10 . . *:*", "OK 2 2\n1 a .\n2 b .")


def a_text_is_read_again_where_a_call_fails(try_):
    """The view stays, and the same line is answered then: where the file is opened for it, and where it is open from before."""
    first, second = read("_1.sto"), read_again("_1.sto")
    for error, told in TOLD:
        for passes in range(len(first)):
            what = f"a text, where call {passes} fails by {errno.errorcode[error]}, {first[passes]}"
            with try_.opened(try_.folder()) as child:
                pass_by(child, (*TWO, ("1 REFRESH", "OK 2"), ("1 OPEN", "OK 2")), what)
                # What memory is wanting for is asked once more: whether the file is there.
                expect_failure(child, [("1 GET 2 b", "OK", first)], passes, Faults(passes, error=error), what, told, told == "NO 40")
                pass_by(child, (FIND_TWO, ("1 GET 2 b", f"OK {text('b', 2)}")), what)
        for passes in range(len(second)):
            what = f"a text of an open file, where call {passes} fails by {errno.errorcode[error]}, {second[passes]}"
            with try_.opened(try_.folder()) as child:
                pass_by(child, (*TWO, ("1 REFRESH", "OK 2"), ("1 OPEN", "OK 2"), ("1 GET 2 a", f"OK {text('a', 1)}")), what)
                expect_failure(child, [("1 GET 2 b", "OK", second)], passes, Faults(passes, error=error), what, told, told == "NO 40")
                pass_by(child, (FIND_TWO, ("1 GET 2 b", f"OK {text('b', 2)}"), ("1 GET 2 a", f"OK {text('a', 1)}")), what)


def a_merge_tells_why_a_text_is_not_read(try_):
    calls = MERGE[1][2]
    for error, told in TOLD:
        for passes in range(4):
            what = f"a merge, where call {passes} fails by {errno.errorcode[error]}, {calls[passes]}"
            with try_.opened(try_.folder()) as child:
                pass_by(child, (*TWO_DEAD, MERGE[0][:2]), what)
                expect_failure(child, MERGE[1:], passes, Faults(passes, error=error), what, told, told == "NO 40")
                pass_by(child, (*over(1), *merged(1)), what)


# Openings: of a folder with commit 2, and what a run before left behind it.

LEFT_BEHIND = {"_2.seg": priced(2, (4, b"c", 20, 3)), "_2.sto": text("c", 3).encode(), "segments_1": FIRST}
OPENED = {**BEFORE_SECOND, **WRITTEN, **LEFT_BEHIND}
OPENING = LOCKED + whole("segments_2", "_1.seg", "_1_2.liv") + [("open", "_1.sto"), ("size", "_1.sto")]
OPENING += synced("segments_2", "_1.seg", "_1.sto", "_1_2.liv", "") + deleted(*LEFT_BEHIND)


def behind_an_opening(pending):
    """Whatever the opening left to be deleted, the next sweep deletes. No name that was listed is taken again."""
    stat = "\n1 2 1\n3 1 1"
    return (
        ("0 STAT", f"OK 3 0 1 1 0 {pending}\n1 2 1"), *found_later(2, "two")[:2], ("1 UNSNAP 2", "OK 0"),
        put("d", 4, 4), ("1 REFRESH", "OK 4"),
        ("0 STAT", f"OK 4 0 2 2 0 {pending}{stat}"), ("1 OPEN", "OK 4"), ("1 FILES t 4", "OK 4\n_1.seg\n_1.sto\n_3.seg\n_3.sto"),
        ("0 SWEEP", f"OK {pending}"), ("0 STAT", f"OK 4 0 2 2 0 0{stat}"), ("1 FIND 4 10 . . *:*", "OK 2 2\n2 b .\n4 d ."),
    )


# What stays once the opening has deleted what it has to, with the segment that is made then.
OPENED_KEPT = {"_1.seg", "_1.sto", "_1_2.liv", "segments_2", "_3.seg", "_3.sto"}


def an_opening_that_fails_deletes_nothing(try_):
    """It is refused, and changes no file: so the next one finds the commit."""
    before = len(OPENING) - len(LEFT_BEHIND)
    for what, passes, faults in failures("an opening", OPENING[:before], [ALONE]):
        folder = try_.folder(OPENED)
        with try_.opened(folder, "NO 30", faults=faults) as child:
            expect(f"{what}: the calls", child.calls, OPENING[: passes + 1])
            expect(f"{what}: the end", child.end(), "status 2")
        expect(f"{what}: the files", state(folder), OPENED)
    try_.pass_again(folder, "OK 3", behind_an_opening(0), what)
    expect("the files of the next run", set(state(folder)), OPENED_KEPT)


def an_opening_that_cannot_delete_tells_it(try_):
    """The commit lasts then, so it is opened. The file that can't be deleted is to be, and all behind it."""
    deletes = len(OPENING) - len(LEFT_BEHIND)
    for what, passes, faults in failures("an opening", OPENING, [ALONE, ALL_BEHIND]):
        if passes < deletes:
            continue
        folder = try_.folder(OPENED)
        with try_.opened(folder, "OK 3", faults=faults) as child:
            expect(f"{what}: the calls", child.calls, OPENING[: passes + 1])
            child.meet()
            gone = sorted(LEFT_BEHIND)[: passes - deletes]
            expect(f"{what}: the files", state(folder), {name: said for name, said in OPENED.items() if name not in gone})
            pass_by(child, behind_an_opening(len(OPENING) - passes), what)
            expect(f"{what}: the files in the end", set(state(folder)), OPENED_KEPT)


def an_opening_tells_why_a_file_is_not_read(try_):
    begin = len(LOCKED)
    for error, told in TOLD[3:]:
        for passes in range(begin, begin + 20):
            what = f"an opening, where call {passes} fails by {errno.errorcode[error]}, {OPENING[passes]}"
            # The first two calls of each file ask for its size, which takes no memory: what the system lacks is the device's failure.
            reply = "NO 30" if told == "NO 40" and (passes - begin) % 6 < 2 else told
            folder = try_.folder(OPENED)
            with try_.opened(folder, reply, faults=Faults(passes, error=error)) as child:
                expect(f"{what}: the end", child.end(), "status 2")
            expect(f"{what}: the files", state(folder), OPENED)


# No other calls.

# What comes before, the lines with their calls, and the files then, where they aren't looked at elsewhere.
NO_OTHER = (
    ("a flush", TWO, [("1 REFRESH", "OK 2", made("_1.seg") + made("_1.sto"))], {"_1.seg": SOURCES["_1.seg"], "_1.sto": SOURCES["_1.sto"]}),
    ("a merge", TWO_DEAD, MERGE, None),
    ("a first commit", TWO, [("1 COMMIT one", "OK 1", FIRST_CALLS)], BEFORE_SECOND),
    ("a commit", ONE_DELETED, [("1 COMMIT two", "OK 2", SECOND_CALLS)], {**BEFORE_SECOND, **WRITTEN}),
    ("a sweep", MERGED_AWAY, [("0 SWEEP", "OK 4", deleted(*GONE))], None),
)


def no_other_call_is_made(try_):
    """Where all calls behind these fail, all is answered."""
    for what, before, rows, files in NO_OTHER:
        folder, count = try_.folder(), sum(len(calls) for _, _, calls in rows)
        with try_.opened(folder) as child:
            pass_by(child, before, what)
            expect_failure(child, rows, count, Faults(count, all_behind=True), what)
            if files is not None:
                expect(f"the files of {what}", state(folder), files)
    with try_.opened(try_.folder(OPENED), "OK 3", faults=Faults(len(OPENING), all_behind=True)) as child:
        expect("the calls of an opening", child.calls, OPENING)
        pass_by(child, found_later(2, "two")[:5], "an opening")


TESTS = (
    what_waited_waits_where_a_flush_fails,
    what_stood_stands_where_a_flush_fails,
    nothing_is_flushed_without_a_call,
    a_put_flushes_as_many_as_may_wait,
    a_merge_is_over_where_a_call_fails,
    few_ranges_of_texts_are_read,
    a_refused_commit_is_none,
    a_crash_in_a_commit_leaves_one,
    a_first_commit_that_fails_is_none,
    a_commit_of_pieces_is_torn_at_any,
    a_sweep_ends_where_a_delete_fails,
    a_text_is_read_again_where_a_call_fails,
    a_merge_tells_why_a_text_is_not_read,
    an_opening_that_fails_deletes_nothing,
    an_opening_that_cannot_delete_tells_it,
    an_opening_tells_why_a_file_is_not_read,
    no_other_call_is_made,
)


if __name__ == "__main__":
    sys.exit(run_failing("failing_ledgers", "usage: tests/failing_ledgers.py PROGRAM", TESTS))
