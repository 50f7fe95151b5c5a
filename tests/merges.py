#!/usr/bin/env python3
"""Merges segments by the program, and holds their files against those of segments that the kept rows make without a merge, or that
are spelled here byte by byte.

usage: tests/merges.py PROGRAM

The last line is `N passed, M failed`.
"""

import json
import shutil
import struct
import sys

import commits
from limits import MAX_ROWS, SCHEMA_FIELDS, Child, Item, segment_bytes, u32, u64, write_commit, write_segment
from tries import expect, run, state

MAX_STEP_ROWS = 256
HALF = MAX_ROWS // 2
# A field of each kind.
FIELDS = '{"brand":"keyword","color":"facet","price":"number","title":"text"}'
# What an item may have in each.
VALUES = (
    ("", ',"brand":"ac"', ',"brand":"acme"', ',"brand":"zed"'),
    ("", ',"color":[]', ',"color":["red","blue"]', ',"color":["blue","blue"]', ',"color":["rose","black","red"]'),
    ("", ',"price":-3', ',"price":0', ',"price":9223372036854775807'),
    ("", ',"title":""', ',"title":"Garden shovel"', ',"title":"gar gar"', ',"title":"shoe, garden; shoe"'),
)


def text_of(number):
    """An item of values that look thrown, the same at each run: no two numbers below 7,919 give one id, and the ids don't rise. Each
    tenth has a brand, a label and a word of its own."""
    id = number * 3_571 % 7_919
    if number % 10 == 0:
        return f'{{"id":"i{id:04}","brand":"b{number}","color":["c{number}","red"],"title":"w{id} red"}}'
    thrown, values = number, ""
    for texts in VALUES:
        thrown = (thrown * 6_364_136_223_846_793_005 + 1_442_695_040_888_963_407) % 2**64
        values += texts[(thrown >> 33) % len(texts)]
    return f'{{"id":"i{id:04}"{values}}}'


def every(step):
    return lambda number: number % step == 0


def through(last):
    return lambda number: number <= last


def none(number):
    return False


class Try:
    """The program, and a room for folders."""

    def __init__(self, room, program):
        self.program, self.folder = program, room.folder

    def open(self, folder, wanted, fields=FIELDS):
        """The program over the folder, once it has answered the schema line."""
        child = Child(self.program, "run", str(folder))
        expect("the opening", child.ask(f"SCHEMA 2 10 {fields}"), wanted)
        return child


class Rows:
    """Texts of items, put by the writes from 1 on, in segments that end at these: which are dead when a merge begins, and which die
    meanwhile."""

    def __init__(self, texts, ends, dead, killed, fields=FIELDS):
        self.texts, self.ends, self.fields = texts, ends, fields
        self.ids = [json.loads(text)["id"] for text in texts]
        self.numbers = range(1, len(texts) + 1)
        # An item that is put again takes the place of the one before it.
        self.dead = {it for it in self.numbers if dead(it) or self.ids[it - 1] in self.ids[it:]}
        self.killed = {it for it in self.numbers if killed(it)} - self.dead

    def put(self, child, ends, left_out=frozenset()):
        """Puts them; in the place of those that are left out stands a write that changes nothing."""
        lines = []
        for number in self.numbers:
            lines.append("1 DEL none" if number in left_out else f"1 PUT {self.texts[number - 1]}")
            if number in ends:
                lines.append("1 REFRESH")
        child.say(lines)

    def delete(self, child, numbers):
        replies = child.say([f"1 DEL {self.ids[number - 1]}" for number in sorted(numbers) if self.ids[number - 1] not in self.ids[number:]])
        expect("deletes", [it for it in replies if not it.startswith("OK")], [])

    def merged(self, try_):
        """Merges them, and answers the files and the writes of the rows that live then."""
        folder, count, made = try_.folder(), len(self.texts), len(self.ends) + 1
        child = try_.open(folder, "OK 0", self.fields)
        try:
            self.put(child, self.ends)
            self.delete(child, self.dead)
            before = state(folder)
            expect("a merge", child.ask("0 FORCE"), f"OK begun {len(self.ends)}")
            # Each step passes 256 rows, dead or live.
            steps = [min(passed + MAX_STEP_ROWS, count) for passed in range(0, count, MAX_STEP_ROWS)]
            expect("its steps", [child.ask("0 MERGE") for _ in steps], [f"OK copied {passed}" for passed in steps])
            # Until it is done it has no file but that of its texts.
            expect("the files so far", {name: it for name, it in state(folder).items() if name != f"_{made}.sto"}, before)
            self.delete(child, self.killed)
            expect("its end", child.ask("0 MERGE"), "OK done")
            token = child.ask("1 REFRESH").partition(" ")[2]
            found = child.say(["1 OPEN", f"1 FIND {token} 1000 . . *:*"])[1].split("\n")[1:]
            living = [int(line.split(" ")[0]) for line in found]
            texts = child.say([f"1 GET {token} {self.ids[number - 1]}" for number in living])
            expect("the texts that are found by ids", texts, [f"OK {self.texts[number - 1]}" for number in living])
            files = state(folder)
            expect("the other files", {name: it for name, it in files.items() if name in before}, before)
            return files, living
        finally:
            child.kill()

    def alone(self, try_, made):
        """The files of the segment of this number that the rows make that aren't dead, without a merge."""
        folder = try_.folder({f"_{made - 1}.seg": b""})
        child = try_.open(folder, "OK 0", self.fields)
        try:
            self.put(child, {len(self.texts)}, self.dead)
            return state(folder)
        finally:
            child.kill()

    def expect_merged(self, try_):
        files, living = self.merged(try_)
        made = len(self.ends) + 1
        wanted = self.alone(try_, made)
        what = f"of {len(self.texts)} rows, {len(self.dead)} dead, up to {self.ends}"
        for end in ("seg", "sto"):
            name = f"_{made}.{end}"
            if len(self.dead) == len(self.texts):
                # No segment is written where no row is kept.
                expect(f"{name} {what}", files.get(name, b""), b"")
            else:
                expect(f"{name} {what}", files[name], wanted[name])
        expect(f"the rows that live {what}", living, [it for it in self.numbers if it not in self.dead and it not in self.killed])


# How many rows the segments have, where each ends, which rows are dead when the merge begins, and which die meanwhile.
PLANS = (
    (3, (1, 2, 3), none, none),
    (40, (10, 30, 40), every(3), none),
    (40, (10, 30, 40), none, every(3)),
    (40, (10, 30, 40), every(3), every(4)),
    (40, (10, 30, 40), every(2), none),
    (40, (1, 2, 39, 40), every(4), every(6)),
    (40, (7, 20, 40), every(2), every(2)),
    # All rows with brands, labels and words of their own are dead.
    (60, (30, 60), every(10), none),
    # One segment loses its dead rows.
    (20, (20,), every(3), every(5)),
    # No row is kept.
    (1, (1,), every(1), none),
    (30, (10, 20, 30), every(1), every(1)),
    # The first two segments are dead, and then all rows but the last.
    (30, (10, 20, 30), through(20), none),
    (30, (10, 20, 30), through(29), none),
    # Rows that all die meanwhile are kept dead.
    (30, (10, 20, 30), none, every(1)),
    (30, (10, 20, 30), every(4), every(1)),
    (30, (10, 20, 30), every(2), through(29)),
    # A step passes 256 rows, dead or live.
    (255, (200, 255), every(2), none),
    (256, (255, 256), none, every(256)),
    (257, (256, 257), every(256), none),
    (300, (100, 300), every(2), none),
    (600, (200, 511, 600), every(2), every(7)),
    (600, (256, 511, 600), through(300), every(7)),
    # A hundred segments.
    (900, tuple(range(9, 901, 9)), every(9), every(11)),
)


def several_segments_become_one(try_):
    for count, ends, dead, killed in PLANS:
        Rows([text_of(number) for number in range(1, count + 1)], ends, dead, killed).expect_merged(try_)


def an_id_that_was_put_again_is_kept_once(try_):
    texts = (
        '{"id":"a","price":2,"title":"old words"}',
        '{"id":"z","color":["red"]}',
        '{"id":"c","price":1,"brand":"gone"}',
        '{"id":"b","brand":"acme"}',
        '{"id":"a","color":["blue","red"],"title":"new words"}',
        '{"id":"c","price":-7}',
    )
    for ends in ((2, 3, 5, 6), (1, 3, 6)):
        Rows(texts, ends, none, every(2)).expect_merged(try_)


def fields_may_be_many_of_a_kind_or_none(try_):
    many = '{"a":"facet","b":"facet","c":"keyword","d":"keyword","e":"text","f":"text"}'
    bare = ('{"id":"b"}', '{"id":"a"}', '{"id":"c"}')
    filled = (
        '{"id":"b","a":["x"],"b":["y","x"],"c":"k","d":"l","e":"one two","f":"two three"}',
        '{"id":"a","b":["z"],"d":"k","f":"one"}',
        '{"id":"d","b":["dead"],"d":"dead","f":"dead"}',
        '{"id":"c","a":["y"],"c":"l","e":"three"}',
    )
    Rows(bare, (2, 3), every(2), none, "{}").expect_merged(try_)
    Rows(bare, (1, 3), every(2), none, many).expect_merged(try_)
    Rows(filled, (1, 2, 4), every(3), every(4), many).expect_merged(try_)


def numbers_of_writes_may_be_large(try_):
    last = 9_000_000_000
    files = {"segments_3": commits.commit(token=last), "_3.seg": commits.segment(3, ((7, b"e", 10), (last, b"d", 10)))}
    folder = try_.folder({**commits.WHOLE, **files})
    child = try_.open(folder, f"OK {last}", commits.SCHEMA)
    try:
        told = [child.ask(line) for line in ("0 FORCE", "0 MERGE", "0 MERGE")]
        expect("a merge", told, ["OK begun 3", "OK copied 6", "OK done"])
    finally:
        child.kill()
    rows = ((2, b"b", 21), (4, b"a", 10), (5, b"c", 11), (last, b"d", 10))
    expect("its segment", (folder / "_4.seg").read_bytes(), commits.segment(4, rows))


def damaged_sources_end_a_merge(try_):
    """A file of sources is cut off or absent, and then no segment is written; or the file is gone that a step appends to."""
    rows = Rows([text_of(number) for number in range(1, 41)], (10, 30, 40), every(3), none)
    for hurt, wanted in (("_1.sto", "NO 31"), ("_3.sto", "NO 31"), ("_4.sto", "NO 30")):
        folder = try_.folder()
        child = try_.open(folder, "OK 0")
        try:
            rows.put(child, rows.ends)
            rows.delete(child, rows.dead)
            expect("a merge", child.ask("0 FORCE"), "OK begun 3")
            if hurt == "_1.sto":
                (folder / hurt).write_bytes((folder / hurt).read_bytes()[:-1])
            else:
                (folder / hurt).unlink()
            expect(f"a step where {hurt} is hurt", child.ask("0 MERGE"), wanted)
            expect("a merged segment", (folder / "_4.seg").exists(), False)
        finally:
            child.kill()


def a_full_segment_is_merged_of_64(try_):
    """All rows that a segment may have, of which each third dies meanwhile."""
    folder, each = try_.folder(), MAX_ROWS // 64
    items = [Item(number) for number in range(1, MAX_ROWS + 1)]
    for number in range(1, 65):
        write_segment(folder, number, items[(number - 1) * each : number * each])
    write_commit(folder, MAX_ROWS, 64)
    child = try_.open(folder, f"OK {MAX_ROWS}", json.dumps(SCHEMA_FIELDS))
    try:
        expect("a merge", child.ask("0 FORCE"), "OK begun 64")
        steps = range(MAX_STEP_ROWS, MAX_ROWS + 1, MAX_STEP_ROWS)
        expect("its steps", child.say(["0 MERGE"] * len(steps)) == [f"OK copied {passed}" for passed in steps], True)
        deleted = [item for item in items if item.number % 3 == 0]
        token = child.say([f"1 DEL {item.id}" for item in deleted])[-1].partition(" ")[2]
        expect("its end", child.ask("0 MERGE"), "OK done")
        expect("what stands", child.ask("0 STAT").split("\n")[1:], [f"65 {MAX_ROWS} {MAX_ROWS - len(deleted)}"])
        expect("its segment", (folder / "_65.seg").read_bytes() == segment_bytes(65, items), True)
        expect("its texts", (folder / "_65.sto").read_bytes() == "".join(item.text for item in items).encode(), True)
        # Each row is found by its id.
        child.say(["1 REFRESH", "1 OPEN"])
        texts = child.say([f"1 GET {token} {item.id}" for item in items])
        expect("the items", texts == [f"OK {'.' if item.number % 3 == 0 else item.text}" for item in items], True)
    finally:
        child.kill()


# Levels and windows, as a person worked them out: the second and the third number are those of the schema line, then come how many rows
# each segment has, and how many segments stand before those that are merged; None where none are.
WINDOWS = (
    # Segments of two or more rows are of levels by powers of two: 1; 2; 3 and 4; 5 to 8.
    (2, 1, (1,), None),
    (2, 1, (1, 1), 0),
    (2, 1, (1, 2), None),
    (2, 1, (2, 3), None),
    (2, 1, (3, 4), 0),
    (2, 1, (4, 5), None),
    (2, 1, (5, 8), 0),
    (2, 1, (8, 9), None),
    (2, 1, (65_536, 65_537), None),
    (2, 1, (131_072, 65_536), None),
    (2, 1, (131_072, 65_537), 0),
    # By tens of a thousand, and by hundreds of a hundred thousand.
    (10, 1_000, (1_000, *(1,) * 9), 0),
    (10, 1_000, (1_001, *(1,) * 9), None),
    (10, 1_000, (1_001, *(1_000,) * 9), None),
    (10, 1_000, (10_000, *(1_001,) * 9), 0),
    (10, 1_000, (10_001, *(1_001,) * 9), None),
    (10, 1_000, (10_001,) * 10, 0),
    (100, 100_000, (100_000, *(1,) * 99), 0),
    (100, 100_000, (100_001, *(1,) * 99), None),
    # The lowest level goes first, and of one level what stands before the others. Neighbours alone are merged.
    (2, 1, (4, 2, 1, 1), 2),
    (2, 1, (2, 2, 1), 0),
    (2, 1, (1, 2, 1), None),
    (2, 1, (3, 4, 1, 1), 2),
    (2, 1, (), None),
    (2, 1, (4, 1, 1, 1), 1),
    (2, 1, (2, 2, 1, 1, 2, 1, 1), 2),
    (2, 1, (3, 4, 8, 7, 3, 3), 0),
    (2, 1, (8, 7, 3, 3, 8, 8), 2),
    (3, 10, (10, 10), None),
    (3, 10, (10, 9, 8), 0),
    (3, 10, (10, 9, 11, 8, 7), None),
    (3, 10, (10, 9, 11, 8, 7, 1), 3),
    (3, 10, (30, 11, 29, 30, 10, 10), 0),
    (3, 10, (31, 30, 11, 29, 30, 10, 10), 1),
    (3, 10, (30, 11, 29, 10, 10, 10, 10), 3),
    (100, 1, (1,) * 99, None),
    (100, 1, (1,) * 101, 0),
    # Together they have as many rows as one segment may have: 262,144, which is 64 times 4,096, and less than 100 times 2,622.
    (2, 100_000, (HALF, HALF), 0),
    (2, 100_000, (HALF, HALF + 1), None),
    (2, 100_000, (HALF + 1, HALF, HALF, HALF), 1),
    (64, 100_000, (4_096,) * 64, 0),
    (64, 100_000, (*(4_096,) * 63, 4_097), None),
    (100, 100_000, (2_621,) * 100, 0),
    (100, 100_000, (2_622,) * 100, None),
)
FEW = 20_000
ROW = struct.Struct(">QI6sI")


def rows_from(first, count):
    """A segment's file of so many rows without a field, and that of their texts, of one byte each."""
    rows = b"".join(ROW.pack(it, 6, b"%06d" % it, 1) for it in range(first, first + count))
    return u32(count) + u32(0) + rows, b"x" * count


def of_sizes(try_, sizes):
    """A folder of segments of so many rows."""
    folder, first = try_.folder(), 1
    for number, count in enumerate(sizes, 1):
        rows, texts = rows_from(first, count)
        (folder / f"_{number}.seg").write_bytes(b"CSEG\1" + u64(number) + rows)
        (folder / f"_{number}.sto").write_bytes(texts)
        first += count
    listed = tuple((number, 0) for number in range(1, len(sizes) + 1))
    (folder / "segments_1").write_bytes(commits.commit(1, first - 1, len(sizes) + 1, listed, fields=u32(0)))
    return folder


def standing(sizes):
    """What STAT tells of segments, each a number and its rows, which all live."""
    return [f"{number} {rows} {rows}" for number, rows in sizes]


def expect_window(try_, factor, least, sizes, index):
    """The texts of the window's segments alone are there, so that a merge of others fails; and the new segment stands in their place. Of
    many rows one step is tried, which needs the texts of the window's first segment alone."""
    what = f"{str(sizes)[:60]} under {factor} {least}"
    folder, before = of_sizes(try_, sizes), list(enumerate(sizes, 1))
    child = Child(try_.program, "run", str(folder))
    try:
        expect(f"the opening of {what}", child.ask(f"SCHEMA {factor} {least} {{}}"), f"OK {sum(sizes)}")
        expect(f"a merge of {what}", child.ask("0 MERGE"), "OK idle" if index is None else f"OK begun {factor}")
        if index is not None:
            rows = sum(sizes[index : index + factor])
            end = index + (1 if rows > FEW else factor)
            for number, _ in before[:index] + before[end:]:
                (folder / f"_{number}.sto").unlink()
            if rows > FEW:
                expect(f"a step of {what}", child.ask("0 MERGE"), f"OK copied {MAX_STEP_ROWS}")
            else:
                told = child.say(["0 MERGE"] * (-(-rows // MAX_STEP_ROWS) + 1))
                expect(f"the steps of {what}", told[-2:], [f"OK copied {rows}", "OK done"])
                before[index:end] = [(len(sizes) + 1, rows)]
        expect(f"what stands of {what}", child.ask("0 STAT").split("\n")[1:], standing(before))
    finally:
        child.kill()
        shutil.rmtree(folder)


def levels_and_windows_are_as_worked_out(try_):
    for factor, least, sizes, index in WINDOWS:
        expect_window(try_, factor, least, sizes, index)


TESTS = (
    several_segments_become_one,
    an_id_that_was_put_again_is_kept_once,
    fields_may_be_many_of_a_kind_or_none,
    numbers_of_writes_may_be_large,
    damaged_sources_end_a_merge,
    a_full_segment_is_merged_of_64,
    levels_and_windows_are_as_worked_out,
)


if __name__ == "__main__":
    sys.exit(run("merges", "usage: tests/merges.py PROGRAM", Try, TESTS))
