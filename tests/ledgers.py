#!/usr/bin/env python3
"""Runs days of a ledger by the program's lines, in memory and over a folder: each reply has to be what a person wrote down.

usage: tests/ledgers.py PROGRAM

The last line is `N passed, M failed`.
"""

import subprocess
import sys

from commits import LAST, PRICE as PRICE_FIELD, commit
from limits import Child
from tries import expect, run, state

FIELDS = '{"name":"text","price":"number"}'


class Try:
    """The program, and a room for folders."""

    def __init__(self, room, program):
        self.program, self.folder = program, room.folder

    def pass_over(self, folder, wanted, *tables, fields=FIELDS):
        """Opens the folder, or a catalogue in memory where there is none, and says the lines of the tables in turn, each of which has
        to be answered so."""
        child = Child(self.program, *(["run", str(folder)] if folder else []))
        try:
            expect("the opening", child.ask(f"SCHEMA 2 10 {fields}"), wanted)
            for table in tables:
                for line, reply in table:
                    expect(f"the reply to '{line}'", child.ask(line), reply)
            expect("the end", child.end(), "status 0")
        finally:
            child.kill()

    def refuse(self, folder, fields, wanted):
        """The folder isn't opened under the fields."""
        line = f"SCHEMA 2 10 {fields}\n".encode()
        done = subprocess.run([self.program, "run", str(folder)], input=line, capture_output=True, timeout=60)
        expect(f"the opening under {fields}", (done.stdout.decode(), done.returncode), (wanted + "\n", 2))


# Days, in memory and in a folder.

# Three items are put, one is put again, and each of two sessions holds a view.
MORNING = (
    ("0 STAT", "OK 0 0 0 1 0 0"),
    ('1 PUT {"id":"a","name":"red apple","price":3}', "OK 1"),
    ('1 PUT {"id":"b","name":"blue bowl","price":5}', "OK 2"),
    ('1 PUT {"id":"c","name":"red cup","price":7}', "OK 3"),
    ("0 STAT", "OK 3 3 0 1 0 0"),
    ("1 REFRESH", "OK 3"),
    ("1 REFRESH", "OK 3"),
    ("1 OPEN", "OK 3"),
    ("1 OPEN 3", "OK 3"),
    ('1 PUT {"id":"a","name":"green apple","price":6}', "OK 4"),
    ("1 REFRESH", "OK 4"),
    ("2 OPEN", "OK 4"),
    ("0 STAT", "OK 4 0 2 3 0 0\n1 3 2\n2 1 1"),
)
# Each session sees its own table, whatever is written.
VIEWS = (
    ("1 GET 3 a", 'OK {"id":"a","name":"red apple","price":3}'),
    ("2 GET 4 a", 'OK {"id":"a","name":"green apple","price":6}'),
    ("2 GET 4 d", "OK ."),
    ("1 FILES t 3", "OK 2\n_1.seg\n_1.sto"),
    ("2 FILES t 4", "OK 4\n_1.seg\n_1.sto\n_2.seg\n_2.sto"),
    ("2 FILES t 3", "NO 20"),
    ("1 FILES t 4", "NO 20"),
    ("2 GET 3 a", "NO 20"),
    ("1 FIND 3 10 +price . name:red", "OK 2 2\n1 a 3\n3 c 7"),
    ("2 FIND 4 10 +price . name:red", "OK 1 1\n3 c 7"),
    ("1 FIND 3 10 +price . *:*", "OK 3 3\n1 a 3\n2 b 5\n3 c 7"),
    ("2 FIND 4 10 +price . *:*", "OK 3 3\n2 b 5\n4 a 6\n3 c 7"),
)
# An item goes by its id, and one by a query; the views stay.
NOON = (
    ("1 DEL b", "OK 5"),
    ("1 DELW name:red", "OK 6"),
    ("0 STAT", "OK 6 0 2 3 0 0\n1 3 0\n2 1 1"),
    ("1 COMMIT noon", "OK 1"),
    ("1 NOTE 1", "OK =noon"),
    ("1 FILES g 1", "OK 6\n_1.seg\n_1.sto\n_1_1.liv\n_2.seg\n_2.sto\nsegments_1"),
    ("1 SNAP", "OK 1"),
    ('1 PUT {"id":"d","name":"red dish","price":1}', "OK 7"),
    ("1 COMMIT two", "OK 2"),
    ("1 FILES g 2", "OK 8\n_1.seg\n_1.sto\n_1_1.liv\n_2.seg\n_2.sto\n_3.seg\n_3.sto\nsegments_2"),
    ("1 NOTE 1", "OK =noon"),
    ("0 STAT", "OK 7 0 3 3 0 0\n1 3 0\n2 1 1\n3 1 1"),
)
# A snapshot that is given back lets its commit go. A merge of all segments ends; one of its rows dies while it is in the making.
AFTERNOON = (
    ("1 UNSNAP 1", "OK 0"),
    ("1 UNSNAP 1", "NO 27"),
    ("1 NOTE 1", "NO 26"),
    ("0 FORCE", "OK begun 3"),
    ("0 FORCE", "OK busy"),
    ("0 MERGE", "OK copied 5"),
    ("1 DEL d", "OK 8"),
    ("0 MERGE", "OK done"),
    ("0 STAT", "OK 8 0 1 3 0 1\n4 2 1"),
    ("1 COMMIT evening", "OK 3"),
    ("1 FILES g 3", "OK 4\n_4.seg\n_4.sto\n_4_3.liv\nsegments_3"),
    ("0 SWEEP", "OK 5"),
    ("0 STAT", "OK 8 0 1 3 0 0\n4 2 1"),
    ("1 GET 3 a", 'OK {"id":"a","name":"red apple","price":3}'),
    ("2 FIND 4 10 +price . *:*", "OK 3 3\n2 b 5\n4 a 6\n3 c 7"),
)
# Views are given back by those who hold them, and then they go with their files.
EVENING = (
    ("2 CLOSE 3", "NO 20"),
    ("1 CLOSE 3", "OK 3"),
    ("1 CLOSE 3", "NO 20"),
    ("1 FILES t 3", "NO 20"),
    ("2 FILES t 4", "OK 4\n_1.seg\n_1.sto\n_2.seg\n_2.sto"),
    ("1 PRUNE 1", "OK 2"),
    ("1 OPEN 3", "NO 21"),
    ("0 SWEEP", "OK 0"),
    ("2 GET 4 b", 'OK {"id":"b","name":"blue bowl","price":5}'),
    ("2 CLOSE 4", "OK 4"),
    ("1 REFRESH", "OK 8"),
    ("1 PRUNE 1", "OK 1"),
    ("0 SWEEP", "OK 4"),
    ("2 OPEN", "OK 8"),
    ("2 FIND 8 10 +price . *:*", "OK 1 1\n4 a 6"),
    ("0 MERGE", "OK idle"),
)
# No commit has what comes behind the last one.
NIGHT = (
    ('1 PUT {"id":"e","name":"ewer","price":8}', "OK 9"),
    ("1 DEL a", "OK 10"),
    ("1 REFRESH", "OK 10"),
    ("0 MERGE", "OK begun 2"),
    ("0 MERGE", "OK copied 3"),
    ("0 MERGE", "OK done"),
    ("0 MERGE", "OK idle"),
    ("0 STAT", "OK 10 0 1 2 0 0\n6 1 1"),
    ("1 OPEN 10", "OK 10"),
    ("1 FIND 10 10 +price . *:*", "OK 1 1\n9 e 8"),
    ('1 PUT {"id":"f","name":"fork","price":9}', "OK 11"),
)
# The newest commit stands under its token, with no hold of the day before. New files and commits have new numbers.
NEXT_DAY = (
    ("0 STAT", "OK 8 0 1 1 0 0\n4 2 1"),
    ("1 SNAP", "OK 3"),
    ("1 NOTE 3", "OK =evening"),
    ("1 OPEN 10", "NO 21"),
    ("1 OPEN", "OK 8"),
    ("1 FIND 8 10 +price . *:*", "OK 1 1\n4 a 6"),
    ("1 GET 8 a", 'OK {"id":"a","name":"green apple","price":6}'),
    ("1 GET 8 e", "OK ."),
    ('1 PUT {"id":"g","name":"glass","price":2}', "OK 9"),
    ("1 COMMIT", "OK 4"),
    ("1 FILES g 4", "OK 6\n_4.seg\n_4.sto\n_4_3.liv\n_7.seg\n_7.sto\nsegments_4"),
    ("1 NOTE 4", "OK ="),
    ("1 NOTE 3", "OK =evening"),
)
# The newest commit alone is kept, since snapshots don't outlast the ledger.
THIRD_DAY = (
    ("0 STAT", "OK 9 0 2 1 0 0\n4 2 1\n7 1 1"),
    ("1 NOTE 3", "NO 26"),
    ("1 NOTE 4", "OK ="),
    ("1 UNSNAP 3", "NO 27"),
)


DAY = (MORNING, VIEWS, NOON, VIEWS, AFTERNOON, EVENING, NIGHT)


def a_day_in_memory(try_):
    try_.pass_over(None, "OK 0", *DAY)


def days_in_a_folder(try_):
    folder = try_.folder()
    try_.pass_over(folder, "OK 0", *DAY)
    try_.pass_over(folder, "OK 8", NEXT_DAY)
    try_.pass_over(folder, "OK 9", THIRD_DAY)


# Refusals, each at its limit, none of which changes anything.


def a_refusal_changes_nothing(try_):
    lines = (
        ("1 OPEN", "OK 0"),
        ('1 PUT {"id":"a","name":"apple","price":1}', "OK 1"),
        ("1 SNAP", "NO 26"),
        ("1 NOTE 1", "NO 26"),
        ("1 FILES g 1", "NO 26"),
        ("1 UNSNAP 1", "NO 27"),
        ("2 OPEN 1", "NO 21"),
        ("2 CLOSE 0", "NO 20"),
        ('1 PUT {"id":"a","weight":1}', "NO 12"),
        ("1 COMMIT two\ttabs", "NO 13"),
        ("0 STAT", "OK 1 1 0 1 0 0"),
        ("1 CLOSE 0", "OK 0"),
        ("1 COMMIT one line", "OK 1"),
        ("1 SNAP", "OK 1"),
        ("0 STAT", "OK 1 0 1 1 0 0\n1 1 1"),
    )
    try_.pass_over(None, "OK 0", lines)


def sixty_four_views_are_held(try_):
    lines = [("1 OPEN", "OK 0")]
    for number in range(1, 64):
        lines.append((f'1 PUT {{"id":"item{number - 1}","name":"cup","price":1}}', f"OK {number}"))
        lines += [("1 REFRESH", f"OK {number}"), ("1 OPEN", f"OK {number}")]
    # There is one of now, but none of the next write, until one goes.
    lines += [
        ("1 REFRESH", "OK 63"),
        ('1 PUT {"id":"last","name":"cup","price":1}', "OK 64"),
        ("1 REFRESH", "NO 22"),
        ("1 PRUNE 1", "OK 0"),
        ("1 CLOSE 5", "OK 5"),
        ("1 REFRESH", "OK 64"),
        ("1 OPEN 5", "NO 21"),
        ("1 GET 1 item0", 'OK {"id":"item0","name":"cup","price":1}'),
    ]
    try_.pass_over(None, "OK 0", lines)


def an_opening_that_is_refused_deletes_nothing(try_):
    folder = try_.folder()
    lines = (
        ('1 PUT {"id":"a","name":"apple","price":1}', "OK 1"),
        ("1 COMMIT one", "OK 1"),
        ('1 PUT {"id":"b","name":"bowl","price":2}', "OK 2"),
        ("1 REFRESH", "OK 2"),
    )
    try_.pass_over(folder, "OK 0", lines)
    files = state(folder)
    expect("the files", len(files), 5)
    try_.refuse(folder, '{"name":"text","price":"keyword"}', "NO 13")
    expect("the files under other fields", state(folder), files)
    (folder / "_1.sto").unlink()
    del files["_1.sto"]
    try_.refuse(folder, FIELDS, "NO 31")
    expect("the files without one", state(folder), files)


# Files and commits, under a number alone.

PRICE = '{"price":"number"}'
# Rows b, of write 2, and a, of write 3, which waited in the place of a first text of it.
UPDATED = (
    b"CSEG\1" b"\0\0\0\0\0\0\0\1" b"\0\0\0\2" b"\0\0\0\1" b"\0\0\0\5price\3"
    b"\0\0\0\0\0\0\0\2" b"\0\0\0\1b" b"\0\0\0\x0a" b"\0\0\0\0\0\0\0\3" b"\0\0\0\1a" b"\0\0\0\x15" b"\0" b"\1\0\0\0\0\0\0\0\x1e"
)
# Rows a, of write 1, and d, of write 4.
CHEAP = (
    b"CSEG\1" b"\0\0\0\0\0\0\0\1" b"\0\0\0\2" b"\0\0\0\1" b"\0\0\0\5price\3"
    b"\0\0\0\0\0\0\0\1" b"\0\0\0\1a" b"\0\0\0\x14" b"\0\0\0\0\0\0\0\4" b"\0\0\0\1d" b"\0\0\0\x14"
    b"\1\0\0\0\0\0\0\0\1" b"\1\0\0\0\0\0\0\0\2"
)


def what_waits_becomes_a_segment(try_):
    """A second text of an item goes last; and of four items two have a price of 5 or more, and go before a segment is made."""
    folder = try_.folder()
    lines = (
        ('1 PUT {"id":"a","price":1}', "OK 1"),
        ('1 PUT {"id":"b"}', "OK 2"),
        ('1 PUT {"id":"a","price":30}', "OK 3"),
        ("0 STAT", "OK 3 2 0 1 0 0"),
        ("1 REFRESH", "OK 3"),
        ("0 STAT", "OK 3 0 1 2 0 0\n1 2 2"),
    )
    try_.pass_over(folder, "OK 0", lines, fields=PRICE)
    expect("the files of an update", state(folder), {"_1.seg": UPDATED, "_1.sto": b'{"id":"b"}{"id":"a","price":30}'})
    folder = try_.folder()
    lines = (
        ('1 PUT {"id":"a","price":1}', "OK 1"),
        ('1 PUT {"id":"b","price":7}', "OK 2"),
        ('1 PUT {"id":"c","price":5}', "OK 3"),
        ('1 PUT {"id":"d","price":2}', "OK 4"),
        ("1 DELW price:[5 TO *]", "OK 5"),
        ("0 STAT", "OK 5 2 0 1 0 0"),
        ("1 REFRESH", "OK 5"),
    )
    try_.pass_over(folder, "OK 0", lines, fields=PRICE)
    expect("the files of cheap items", state(folder), {"_1.seg": CHEAP, "_1.sto": b'{"id":"a","price":1}{"id":"d","price":2}'})


# Two items in a segment, and a commit of it.
ONE_COMMIT = (
    ('1 PUT {"id":"a","price":1}', "OK 1"),
    ('1 PUT {"id":"b","price":2}', "OK 2"),
    ("1 COMMIT one", "OK 1"),
    ("1 FILES g 1", "OK 3\n_1.seg\n_1.sto\nsegments_1"),
)


def a_live_file_stays_while_a_commit_needs_it(try_):
    """The first commit has no live file; the second has one, and the first goes; the third keeps it."""
    folder = try_.folder()
    lines = (
        ("1 DEL a", "OK 3"),
        ("1 COMMIT two", "OK 2"),
        ("1 NOTE 1", "NO 26"),
        ("0 STAT", "OK 3 0 1 1 0 1\n1 2 1"),
        ("1 COMMIT", "OK 3"),
        ("1 NOTE 3", "OK ="),
        ("1 FILES g 3", "OK 4\n_1.seg\n_1.sto\n_1_2.liv\nsegments_3"),
        ("1 NOTE 2", "NO 26"),
        ("0 SWEEP", "OK 2"),
    )
    try_.pass_over(folder, "OK 0", ONE_COMMIT, lines, fields=PRICE)
    expect("the files", sorted(state(folder)), ["_1.seg", "_1.sto", "_1_2.liv", "segments_3"])


def a_snapshot_keeps_its_commit(try_):
    """A commit with two snapshots outlives the next one and a sweep, until both are given back. The newest stays without."""
    folder = try_.folder()
    lines = (
        ("1 SNAP", "OK 1"),
        ("1 UNSNAP 1", "OK 0"),
        ("1 NOTE 1", "OK =one"),
        ("0 SWEEP", "OK 0"),
        ("1 SNAP", "OK 1"),
        ("1 SNAP", "OK 1"),
        ("1 DEL a", "OK 3"),
        ("1 COMMIT two", "OK 2"),
        ("0 SWEEP", "OK 0"),
        ("1 UNSNAP 2", "NO 27"),
        ("1 UNSNAP 1", "OK 1"),
        ("1 FILES g 1", "OK 3\n_1.seg\n_1.sto\nsegments_1"),
        ("1 UNSNAP 1", "OK 0"),
        ("1 UNSNAP 1", "NO 27"),
        ("1 NOTE 1", "NO 26"),
        ("0 STAT", "OK 3 0 1 1 0 1\n1 2 1"),
        ("0 SWEEP", "OK 1"),
    )
    try_.pass_over(folder, "OK 0", ONE_COMMIT, lines, fields=PRICE)
    expect("the files", sorted(state(folder)), ["_1.seg", "_1.sto", "_1_2.liv", "segments_2"])


def a_folder_is_opened_at_its_second_commit(try_):
    """What was put behind is gone, and so is the first one's file. The next commit has the next numbers, and keeps the live file of a
    segment that stayed as it was."""
    folder = try_.folder()
    lines = (
        ("1 DEL a", "OK 3"),
        ('1 PUT {"id":"c","price":3}', "OK 4"),
        ("1 COMMIT two", "OK 2"),
        ('1 PUT {"id":"d","price":4}', "OK 5"),
    )
    try_.pass_over(folder, "OK 0", ONE_COMMIT, lines, fields=PRICE)
    second = "OK 6\n_1.seg\n_1.sto\n_1_2.liv\n_2.seg\n_2.sto\nsegments_2"
    opened = (
        ("0 STAT", "OK 4 0 2 1 0 0\n1 2 1\n2 1 1"),
        ("1 OPEN 0", "NO 21"),
        ("1 OPEN 3", "NO 21"),
        ("1 UNSNAP 2", "NO 27"),
        ("1 NOTE 2", "OK =two"),
        ("1 FILES g 2", second),
        ("1 OPEN 4", "OK 4"),
        ("1 FIND 4 9 . . *:*", "OK 2 2\n2 b .\n4 c ."),
    )
    try_.pass_over(folder, "OK 4", opened, (("0 SWEEP", "OK 0"),), fields=PRICE)
    expect("the files", sorted(state(folder)), ["_1.seg", "_1.sto", "_1_2.liv", "_2.seg", "_2.sto", "segments_2"])
    lines = (
        ('1 PUT {"id":"a","price":5}', "OK 5"),
        ("1 COMMIT three", "OK 3"),
        ("0 STAT", "OK 5 0 3 1 0 1\n1 2 1\n2 1 1\n3 1 1"),
        ("1 NOTE 3", "OK =three"),
        ("1 FILES g 3", "OK 8\n_1.seg\n_1.sto\n_1_2.liv\n_2.seg\n_2.sto\n_3.seg\n_3.sto\nsegments_3"),
    )
    try_.pass_over(folder, "OK 4", lines, fields=PRICE)


# Two sessions have the view at the last number of writes, and give it back.
LAST_TOKEN = (
    ("0 OPEN", f"OK {LAST}"),
    (f"1 FIND {LAST} 9 . . *:*", "NO 20"),
    (f"0 FIND {LAST} 9 . . *:*", "OK 0 0"),
    (f"1 OPEN {LAST}", f"OK {LAST}"),
    (f"0 CLOSE {LAST - 1}", "NO 20"),
    (f"0 CLOSE {LAST}", f"OK {LAST}"),
    (f"0 CLOSE {LAST}", "NO 20"),
    (f"0 FIND {LAST} 9 . . *:*", "NO 20"),
    (f"1 FIND {LAST} 9 . . *:*", "OK 0 0"),
    (f"1 CLOSE {LAST}", f"OK {LAST}"),
    (f"1 FIND {LAST} 9 . . *:*", "NO 20"),
)


def a_right_may_be_to_the_last_token(try_):
    """In turn and in threads. A token above it can't be told by a line."""
    folder = try_.folder({"segments_1": commit(1, LAST, 1, (), fields=PRICE_FIELD)})
    for words in ((), ("--threads", "3")):
        child = Child(try_.program, "run", *words, str(folder))
        try:
            expect("the opening", child.ask(f"SCHEMA 2 10 {PRICE}"), f"OK {LAST}")
            for line, reply in LAST_TOKEN:
                expect(f"the reply to '{line}' with {words}", child.ask(line), reply)
            expect("a token above", child.ask(f"1 OPEN {2**64 - 1}"), "NO 10")
            expect("the end", child.end(), "status 0")
        finally:
            child.kill()


TESTS = (
    a_day_in_memory,
    days_in_a_folder,
    a_refusal_changes_nothing,
    sixty_four_views_are_held,
    an_opening_that_is_refused_deletes_nothing,
    what_waits_becomes_a_segment,
    a_live_file_stays_while_a_commit_needs_it,
    a_snapshot_keeps_its_commit,
    a_folder_is_opened_at_its_second_commit,
    a_right_may_be_to_the_last_token,
)


if __name__ == "__main__":
    sys.exit(run("ledgers", "usage: tests/ledgers.py PROGRAM", Try, TESTS))
