#!/usr/bin/env python3
"""Spells files of commits byte by byte, as docs/FORMATS.md says, and holds what the programs say of them, and the files that the
catalogue writes itself, against what a person wrote down.

usage: tests/commits.py PROGRAM CHECK        (the catalogue, and catalogue_check)

Each try has a folder of its own. The last line is `N passed, M failed`.
"""

import subprocess
import sys

from limits import Child, counted, u32, u64
from tries import expect, run, state

LAST = 9_223_372_036_854_775_807
SECONDS = 120
ABSENT = None


# What files say, right or wrong.


def fields_of(*fields):
    """Each field as its name and its kind: 3 is a number, 4 a facet."""
    return u32(len(fields)) + b"".join(counted(name) + bytes([kind]) for name, kind in fields)


COLOR = fields_of((b"color", 4))
PRICE = fields_of((b"price", 3))


def commit(generation=3, token=9, next=4, segments=((1, 2), (2, 0), (3, 3)), text=b"", fields=COLOR, version=2, rest=b""):
    """A commit's file. Each segment is its number and the commit that wrote its live file, or 0."""
    said = b"CSGM" + bytes([version]) + u64(generation) + u64(token) + u64(next) + (counted(text) if version != 1 else b"")
    return said + fields + u32(len(segments)) + b"".join(u64(number) + u64(file) for number, file in segments) + rest


def segment(number, rows, fields=COLOR):
    """A segment's file. Each row is the number of its write, its id, and how many bytes its item's text has; none has a label."""
    said = b"CSEG\1" + u64(number) + u32(len(rows)) + fields
    return said + b"".join(u64(write) + counted(id) + u32(size) for write, id, size in rows) + u32(0) + u32(0) * len(rows)


def live(number, generation, rows=2, bits=2):
    """A file of live rows, of eight at most: a bit for each that lives, from the lowest on."""
    return b"CLIV\1" + u64(number) + u64(generation) + u32(rows) + bytes([bits])


ONE = ((1, b"a", 10), (2, b"b", 21))
TWO = ((4, b"a", 10), (5, b"c", 11))
THREE = ((7, b"e", 10), (9, b"d", 10))
# Commit 3, up to write 9. Of segment 1 the first row is dead since commit 2, of segment 3 since commit 3.
WHOLE = {
    "segments_3": commit(),
    "_1.seg": segment(1, ONE),
    "_1_2.liv": live(1, 2),
    "_1.sto": b'{"id":"a"}{"id":"b","color":[]}',
    "_2.seg": segment(2, TWO),
    "_2.sto": b'{"id":"a"} {"id":"c"}',
    "_3.seg": segment(3, THREE),
    "_3_3.liv": live(3, 3),
    "_3.sto": b'{"id":"e"}{"id":"d"}',
}
SCHEMA = '{"color":"facet"}'
OLDER = commit(2, 5, 3, ((1, 2), (2, 0)))


class Try:
    """The programs, and a room for folders."""

    def __init__(self, room, program, check):
        self.program, self.checker, self.folder = program, check, room.folder

    def whole_but(self, others):
        """The files of the commit, but for those that say something else."""
        return self.folder({**WHOLE, **others})

    def replies(self, folder, lines, schema=SCHEMA, words=("run",)):
        """What the program says to the schema line and the others over the folder, which it opens, or else says so by status 2."""
        given = "".join(f"{line}\n" for line in [f"SCHEMA 2 10 {schema}", *lines]).encode()
        done = subprocess.run([self.program, *words, folder], input=given, capture_output=True, timeout=SECONDS)
        told = done.stdout.decode().splitlines()
        expect(f"the status beside {told[:1]}", done.returncode, 0 if told[0].startswith("OK") else 2)
        return told

    def judged(self, folder, *words):
        """What the check says, and ends with."""
        done = subprocess.run([self.checker, *words, folder], capture_output=True, timeout=SECONDS)
        expect("what the check complains of", done.stderr, b"")
        return done.stdout.decode(), done.returncode

    def found(self, folder):
        """What the check finds of the newest commit: `whole`, `none`, or each file with the rule that it breaks; which agrees with
        what an opening is told."""
        told, status = self.judged(folder)
        verdict = verdict_of(told)
        opened = self.replies(folder, [])[0]
        expect(f"whether an opening is refused beside {verdict!r}", opened == "NO 31", verdict not in ("whole", "none"))
        expect(f"the status beside {verdict!r}", status == 0, verdict == "whole")
        return verdict


def verdict_of(told):
    """What is told of the first commit."""
    first, *rest = told.splitlines()
    if first == "there is no commit":
        return "none"
    if ": whole; " in first:
        return "whole"
    faults = []
    for line in rest:
        if not line.startswith("  "):
            break
        faults.append(line.strip())
    return "; ".join(faults)


def told_lines(generation, token, ids):
    """Lines that ask for all that a commit says."""
    return ["1 OPEN", "1 SNAP", f"1 NOTE {generation}", f"1 FIND {token} 1000 . . *:*", "0 STAT", *(f"1 GET {token} {id}" for id in ids)]


def told_replies(generation, token, segments, texts):
    """What they are answered: each segment is its number and its rows, each a write, an id, and whether it lives."""
    living = [(write, id) for _, rows in segments for write, id, lives in rows if lives]
    shown = [f"1 {write} {id} ." for write, id in living]
    counts = [f"0 {number} {len(rows)} {sum(lives for _, _, lives in rows)}" for number, rows in segments]
    begun = [f"OK {token}", f"1 OK {token}", f"1 OK {generation}", "1 OK =", f"1 OK {len(living)} {len(living)}"]
    return [*begun, *shown, f"0 OK {token} 0 {len(segments)} 1 0 0", *counts, *(f"1 OK {it}" for it in texts)]


LEFT = (1, ((1, "a", False), (2, "b", True)))
MIDDLE = (2, ((4, "a", True), (5, "c", True)))
RIGHT = (3, ((7, "e", False), (9, "d", True)))
IDS = ("a", "b", "c", "d", "e")
TEXTS = ('{"id":"a"}', '{"id":"b","color":[]}', ' {"id":"c"}', '{"id":"d"}', ".")


# What is opened, and what isn't.


def a_whole_commit_is_read(try_):
    folder = try_.whole_but({})
    wanted = told_replies(3, 9, (LEFT, MIDDLE, RIGHT), TEXTS)
    expect("what is read", try_.replies(folder, told_lines(3, 9, IDS)), wanted)
    expect("the files", state(folder), WHOLE)
    # Threads read texts by shelves of their own.
    told = try_.replies(folder, ["1 OPEN", *(f"1 GET 9 {id}" for id in IDS)], words=("run", "--threads", "2"))
    expect("what is read of a shelf", told, ["OK 9", "1 OK 9", *(f"1 OK {it}" for it in TEXTS)])


def what_fits_is_read(try_):
    for others, wanted in (
        # What stored texts say isn't looked at.
        ({"_2.sto": b"no text of an item at"}, told_replies(3, 9, (LEFT, MIDDLE, RIGHT), ("no text of", TEXTS[1], " an item at", *TEXTS[3:]))),
        # Files that the commit doesn't name.
        ({"_4.seg": b"", "_2_3.liv": b"", "_1_3.liv": b""}, told_replies(3, 9, (LEFT, MIDDLE, RIGHT), TEXTS)),
        ({"segments_3": commit(token=0, next=1, segments=())}, told_replies(3, 0, (), (".",) * 5)),
        (
            {"segments_3": commit(segments=((1, 2), (3, 0)))},
            told_replies(3, 9, (LEFT, (3, ((7, "e", True), (9, "d", True)))), (".", TEXTS[1], ".", TEXTS[3], '{"id":"e"}')),
        ),
        # All rows of a segment may be dead.
        ({"_1_2.liv": live(1, 2, bits=0)}, told_replies(3, 9, ((1, ((1, "a", False), (2, "b", False))), MIDDLE, RIGHT), (TEXTS[0], ".", *TEXTS[2:]))),
        # A dead row may have the id of a live one.
        ({"_3.seg": segment(3, ((7, b"a", 10), (9, b"d", 10)))}, told_replies(3, 9, (LEFT, MIDDLE, (3, ((7, "a", False), (9, "d", True)))), TEXTS)),
    ):
        folder = try_.whole_but(others)
        token = wanted[0].partition(" ")[2]
        expect(f"what is read with {others}", try_.replies(folder, told_lines(3, token, IDS)), wanted)
        expect(f"what is found with {others}", try_.found(folder), "whole")


def another_schema_is_told_before_a_segment_is_read(try_):
    folder, without = try_.whole_but({}), try_.whole_but({"_1.seg": ABSENT})
    for schema in ('{"color":"keyword"}', '{"colour":"facet"}', '{"color":"facet","price":"number"}', "{}"):
        expect(f"under {schema}", try_.replies(folder, [], schema), ["NO 13"])
    expect("without a segment", try_.replies(without, []), ["NO 31"])
    expect("without a segment, under other fields", try_.replies(without, [], '{"color":"text"}'), ["NO 13"])


def names_tell_the_newest_commit_and_the_next_numbers(try_):
    none = lambda generation: commit(generation, 0, 1, ())
    for files, newest, segment_number, generation in (
        ({}, None, 1, 1),
        ({"segments_1": none(1)}, 1, 1, 2),
        # The greatest number, wherever the name stands: names are in the order of their texts.
        ({"segments_9": none(9), "segments_10": none(10), "segments_2": none(2)}, 10, 1, 11),
        ({"segments_7": none(7), "_12.seg": b"", "_12.sto": b""}, 7, 13, 8),
        # No commit is there, and other names have numbers.
        ({"_4.seg": b""}, None, 5, 1),
        ({"_6.sto": b""}, None, 7, 1),
        ({"_3_8.liv": b""}, None, 4, 9),
        # Each of the numbers comes from another name.
        ({"segments_3": none(3), "_2_5.liv": b"", "_9.seg": b"", "_20.sto": b""}, 3, 21, 6),
    ):
        told = try_.replies(try_.folder(files), ["1 SNAP", '1 PUT {"id":"a"}', "1 REFRESH", "1 OPEN", "1 FILES t 1", "1 COMMIT"])
        newest_told = "1 NO 26" if newest is None else f"1 OK {newest}"
        names = [f"1 _{segment_number}.seg", f"1 _{segment_number}.sto"]
        expect(f"the numbers behind {list(files)}", told, ["OK 0", newest_told, "1 OK 1", "1 OK 1", "1 OK 1", "1 OK 2", *names, f"1 OK {generation}"])
    told = try_.replies(try_.folder({f"_{LAST}.seg": b"", f"segments_{LAST}": none(LAST)}), ["1 SNAP", "1 COMMIT", '1 PUT {"id":"a"}', "1 REFRESH"])
    expect("behind the last numbers", told, ["OK 0", f"1 OK {LAST}", "1 NO 16", "1 OK 1", "1 NO 16"])


def the_last_numbers_are_given_out(try_):
    """The two last numbers are those of segments, and the last one is a commit's. Behind them there is none."""
    before = LAST - 1
    folder = try_.folder({f"segments_{before}": commit(before, 0, before, (), fields=PRICE)})
    lines = ["1 SNAP", put("a", 1), "1 REFRESH", "0 MERGE", "0 FORCE", put("b", 1), "1 REFRESH", "0 MERGE", "0 FORCE", "0 STAT"]
    told = [f"1 OK {before}", "1 OK 1", "1 OK 1", "0 OK idle", "0 OK idle", "1 OK 2", "1 OK 2", "0 NO 16", "0 NO 16"]
    told += ["0 OK 2 0 2 3 0 0", f"0 {before} 1 1", f"0 {LAST} 1 1"]
    lines += ["1 REFRESH", "1 COMMIT last", "1 COMMIT none", f"1 NOTE {LAST}", f"1 FILES g {LAST}"]
    names = [f"1 _{before}.seg", f"1 _{before}.sto", f"1 _{LAST}.seg", f"1 _{LAST}.sto", f"1 segments_{LAST}"]
    told += ["1 OK 2", f"1 OK {LAST}", "1 NO 16", "1 OK =last", "1 OK 5", *names]
    lines += [put("c", 1), "1 REFRESH", "0 STAT"]
    told += ["1 OK 3", "1 NO 16", "0 OK 3 1 2 3 0 0", f"0 {before} 1 1", f"0 {LAST} 1 1"]
    expect("the last numbers", try_.replies(folder, lines, '{"price":"number"}'), ["OK 0", *told])


# Damage.

# Each file of the commit, with what is found where it has no bytes.
EMPTY = {
    "segments_3": "its bytes are no commit's",
    "_1.seg": "its bytes are no segment's",
    "_1_2.liv": "its bytes are no live rows'",
    "_1.sto": "it has 0 bytes in place of 31",
    "_2.seg": "its bytes are no segment's",
    "_2.sto": "it has 0 bytes in place of 21",
    "_3.seg": "its bytes are no segment's",
    "_3_3.liv": "its bytes are no live rows'",
    "_3.sto": "it has 0 bytes in place of 20",
}


def each_file_is_missed(try_):
    for name, rule in EMPTY.items():
        expect(f"{name} without bytes", try_.found(try_.whole_but({name: b""})), f"{name}: {rule}")
        expect(f"no {name}", try_.found(try_.whole_but({name: ABSENT})), "none" if name == "segments_3" else f"{name}: it is absent")


OTHER_ID = "_3.seg: it has a live row with the id of one before it"
NOT_BEHIND = "isn't behind those before it"
DAMAGED = (
    # Each segment has its faults.
    (
        {"_1.seg": ABSENT, "_2.sto": ABSENT, "_3_3.liv": ABSENT, "_3.sto": b""},
        "_1.seg: it is absent; _2.sto: it is absent; _3.sto: it has 0 bytes in place of 20; _3_3.liv: it is absent",
    ),
    ({"_1.seg": segment(2, TWO), "_2.seg": segment(1, ONE)}, "_1.seg: it says that it is segment 2; _2.seg: it says that it is segment 1"),
    ({"_2.seg": segment(1, TWO)}, "_2.seg: it says that it is segment 1"),
    ({"_2.seg": segment(4, TWO)}, "_2.seg: it says that it is segment 4"),
    ({"_2.seg": segment(2, TWO, fields_of((b"colour", 4)))}, "_2.seg: it has other fields than the commit"),
    # Stored texts are as long as the rows say; the last two have the text of the last row alone, and that of the first.
    ({"_2.sto": b"twenty-one bytes her"}, "_2.sto: it has 20 bytes in place of 21"),
    ({"_2.sto": b"twenty-one bytes here."}, "_2.sto: it has 22 bytes in place of 21"),
    ({"_2.sto": b' {"id":"c"}'}, "_2.sto: it has 11 bytes in place of 21"),
    ({"_2.sto": b'{"id":"a"}'}, "_2.sto: it has 10 bytes in place of 21"),
    # A commit has the number of its file.
    ({"segments_3": commit(generation=4)}, "segments_3: it says that it is commit 4"),
    ({"segments_3": commit(generation=2, segments=((1, 2), (2, 0)))}, "segments_3: it says that it is commit 2"),
    # Live rows are those of the segment and the commit.
    ({"_1_2.liv": live(2, 2)}, "_1_2.liv: it says that it is of segment 2 and commit 2"),
    ({"_1_2.liv": live(1, 1)}, "_1_2.liv: it says that it is of segment 1 and commit 1"),
    ({"_1_2.liv": live(1, 3)}, "_1_2.liv: it says that it is of segment 1 and commit 3"),
    ({"_1_2.liv": live(1, 2, rows=3)}, "_1_2.liv: it has 3 rows in place of 2"),
    ({"_1_2.liv": live(1, 2, rows=1, bits=0)}, "_1_2.liv: it has 1 rows in place of 2"),
    # An id is live once: of two neighbours, of two others, and of rows of a segment that has no dead one.
    ({"_3.seg": segment(3, ((7, b"e", 10), (9, b"c", 10)))}, OTHER_ID),
    ({"_3.seg": segment(3, ((7, b"e", 10), (9, b"b", 10)))}, OTHER_ID),
    ({"segments_3": commit(segments=((1, 0), (2, 0), (3, 3)))}, "_2.seg: it has a live row with the id of one before it"),
    # Numbers of writes rise up to the token; the third is that of a dead row.
    ({"_2.seg": segment(2, ((2, b"a", 10), (5, b"c", 11)))}, f"_2.seg: its first write {NOT_BEHIND}"),
    ({"_2.seg": segment(2, ((1, b"a", 10), (5, b"c", 11)))}, f"_2.seg: its first write {NOT_BEHIND}"),
    ({"_3.seg": segment(3, ((5, b"e", 10), (9, b"d", 10)))}, f"_3.seg: its first write {NOT_BEHIND}"),
    ({"_3.seg": segment(3, ((7, b"e", 10), (10, b"d", 10)))}, "_3.seg: it has a write past the commit's token"),
    ({"segments_3": commit(token=8)}, "_3.seg: it has a write past the commit's token"),
    ({"segments_3": commit(segments=((2, 0), (1, 2), (3, 3)))}, f"_1.seg: its first write {NOT_BEHIND}"),
    # Both rules are broken.
    ({"_3.seg": segment(3, ((5, b"e", 10), (9, b"b", 10)))}, f"_3.seg: its first write {NOT_BEHIND}; {OTHER_ID}"),
)


def each_rule_has_its_words(try_):
    for others, wanted in DAMAGED:
        folder = try_.whole_but(others)
        before = state(folder)
        expect(f"what is found with {others}", try_.found(folder), wanted)
        expect(f"the files with {others}", state(folder), before)


def turned(said, place):
    """The bytes, with this one turned to its complement."""
    return said[:place] + bytes([said[place] ^ 255]) + said[place + 1 :]


def a_spoilt_byte_is_found(try_):
    for name, said in WHOLE.items():
        for place in range(len(said)):
            # Nothing contradicts one of the token and of the next number, but for the high byte of each, nor one of a stored text.
            may_differ = name.endswith(".sto") or name == "segments_3" and (14 <= place <= 20 or 22 <= place <= 28)
            found = try_.found(try_.whole_but({name: turned(said, place)}))
            expect(f"byte {place} of {name}, turned: {found}", found == "whole", may_differ)


# A commit's own file: of the first version, with the fields color and price, and segment 1, all of it live; the same in the
# second version, with the text `spring`; and the commit that follows once the only row is deleted.
FIRST = (
    b"CSGM\1" b"\0\0\0\0\0\0\0\1" b"\0\0\0\0\0\0\0\1" b"\0\0\0\0\0\0\0\2"
    b"\0\0\0\2" b"\0\0\0\5color\4" b"\0\0\0\5price\3" b"\0\0\0\1" b"\0\0\0\0\0\0\0\1" b"\0\0\0\0\0\0\0\0"
)
SECOND = (
    b"CSGM\2" b"\0\0\0\0\0\0\0\1" b"\0\0\0\0\0\0\0\1" b"\0\0\0\0\0\0\0\2" b"\0\0\0\6spring"
    b"\0\0\0\2" b"\0\0\0\5color\4" b"\0\0\0\5price\3" b"\0\0\0\1" b"\0\0\0\0\0\0\0\1" b"\0\0\0\0\0\0\0\0"
)
THIRD = (
    b"CSGM\2" b"\0\0\0\0\0\0\0\2" b"\0\0\0\0\0\0\0\2" b"\0\0\0\0\0\0\0\2" b"\0\0\0\0"
    b"\0\0\0\2" b"\0\0\0\5color\4" b"\0\0\0\5price\3" b"\0\0\0\1" b"\0\0\0\0\0\0\0\1" b"\0\0\0\0\0\0\0\2"
)
BOTH_FIELDS = '{"color":"facet","price":"number"}'


def both_versions_are_read_and_the_second_is_written(try_):
    expect("the sizes", (len(FIRST), len(SECOND), len(THIRD)), (73, 83, 77))
    folder = try_.folder()
    told = try_.replies(folder, ['1 PUT {"id":"a","price":5,"color":["red"]}', "1 COMMIT spring", "1 FILES g 1", "1 SNAP"], BOTH_FIELDS)
    expect("a commit", told[2:], ["1 OK 1", "1 OK 3", "1 _1.seg", "1 _1.sto", "1 segments_1", "1 OK 1"])
    expect("its file", state(folder)["segments_1"], SECOND)
    (folder / "segments_1").write_bytes(FIRST)
    told = try_.replies(folder, ["1 SNAP", "1 NOTE 1", "1 DEL a", "1 COMMIT", "1 FILES g 2", "1 FILES g 1"], BOTH_FIELDS)
    names = ["1 OK 4", "1 _1.seg", "1 _1.sto", "1 _1_2.liv", "1 segments_2", "1 OK 3", "1 _1.seg", "1 _1.sto", "1 segments_1"]
    expect("the first version", told, ["OK 1", "1 OK 1", "1 OK =", "1 OK 2", "1 OK 2", *names])
    expect("the commit behind it", state(folder)["segments_2"], THIRD)
    for said, text in ((FIRST, ""), (SECOND, "spring")):
        told, _ = try_.judged(try_.folder({"segments_1": said}))
        expect("what is told", told.splitlines()[0], f'commit 1: damaged; token 1, segments 1; bytes {len(said)}; text "{text}"')


def is_commit(try_, said, name="segments_3"):
    """Whether the bytes are a commit's, by what the check finds where no other file is there."""
    told, _ = try_.judged(try_.folder({name: said}))
    return verdict_of(told) != f"{name}: its bytes are no commit's"


def every_byte_of_a_commit_counts(try_):
    for said in (FIRST, SECOND):
        for end in range(len(said)):
            expect(f"the first {end} bytes", is_commit(try_, said[:end], "segments_1"), False)
        for place in range(len(said)):
            # The generation, the token and the next number may be others, but for the high byte of each.
            may_differ = 6 <= place <= 12 or 14 <= place <= 20 or 22 <= place <= 28
            expect(f"byte {place}, turned", is_commit(try_, turned(said, place), "segments_1"), may_differ)


# A file of two segments and no field, with nothing wrong; and what is changed in it, at limits and past them.
GOOD = {"generation": 3, "token": 9, "next": 8, "text": b"ok", "segments": ((7, 3), (2, 0)), "fields": u32(0)}
FIT = (
    {},
    {"generation": LAST},
    {"token": LAST},
    {"token": 0},
    {"next": LAST + 1},
    {"next": 1, "segments": ()},
    {"text": b""},
    {"text": "spring é ~".encode()},
    {"text": b"x" * 256},
    {"next": 100_000, "segments": tuple((number, 0) for number in range(1, 65_537))},
)
# Numbers past limits, numbers that disagree, what no version knows, and a byte that stands behind a commit.
MISFIT = (
    {"version": 0},
    {"version": 1, "rest": b"\0"},
    {"version": 3},
    {"generation": 0, "segments": ()},
    {"generation": LAST + 1},
    {"generation": 2},
    {"token": LAST + 1},
    {"next": 0, "segments": ()},
    {"next": LAST + 2},
    {"next": 7},
    {"text": b"a\nb"},
    {"text": b"a\x7f"},
    {"text": b"\xff"},
    {"text": b"x" * 257},
    {"segments": ((0, 0),)},
    {"segments": ((7, 3), (2, 0), (7, 0))},
    {"rest": b"\0"},
    {"next": 100_000, "segments": tuple((number, 0) for number in range(1, 65_538))},
)


def numbers_and_texts_fit(try_):
    for changes, fits in [(it, True) for it in FIT] + [(it, False) for it in MISFIT]:
        expect(f"a commit with {str(changes)[:80]}", is_commit(try_, commit(**{**GOOD, **changes})), fits)
    # The first version with a text in it.
    told = commit(**GOOD)
    expect("the first version with a text", is_commit(try_, told[:4] + b"\1" + told[5:]), False)


def texts_of_commits_are_judged(try_):
    texts = ("spring", "spring é ~", "a\tb", "a\x7f", "x" * 256, "x" * 257)
    told = try_.replies(try_.folder(), ["1 COMMIT", *(f"1 COMMIT {text}" for text in texts), "1 NOTE 4"])
    expect("texts", told[1:], ["1 OK 1", "1 OK 2", "1 OK 3", "1 NO 13", "1 NO 13", "1 OK 4", "1 NO 15", "1 OK =" + "x" * 256])


# What is told of a folder, and a torn commit.


def all_is_told(try_):
    whole = 'commit 3: whole; token 9, segments 3, rows 6, live rows 4; bytes 454; text ""\n'
    for others, wanted, status in (
        ({}, whole, 0),
        # An older commit, which a snapshot keeps; and files of none.
        (
            {"segments_2": OLDER, "_4.seg": b"1234", "_2_3.liv": b""},
            whole + 'commit 2: whole; token 5, segments 2, rows 4, live rows 3; bytes 315; text ""\n'
            "_2_3.liv: no commit names it\n_4.seg: no commit names it\n",
            0,
        ),
        # A torn commit, and one whose segment is gone.
        (
            {"segments_10": b"CSGM", "_2.seg": ABSENT},
            "commit 10: damaged; bytes 4\n  segments_10: its bytes are no commit's\n"
            'commit 3: damaged; token 9, segments 3; bytes 377; text ""\n  _2.seg: it is absent\n',
            1,
        ),
    ):
        expect(f"what is told with {others}", try_.judged(try_.whole_but(others)), (wanted, status))
    told, _ = try_.judged(try_.folder({"_7.sto": b""}))
    expect("what is told without a commit", told, "there is no commit\n_7.sto: no commit names it\n")
    # The older one is opened as well where it is the newest.
    folder = try_.whole_but({"segments_2": OLDER, "segments_3": ABSENT})
    expect("the older commit", try_.replies(folder, told_lines(2, 5, IDS)), told_replies(2, 5, (LEFT, MIDDLE), (*TEXTS[:3], ".", ".")))


TORN = b"CSGM\2"
# What stands beside the whole commit 3 or in place of its files, what a drop tells, which file it deletes, and what is found then.
DROPS = (
    ({"segments_4": TORN}, "dropped commit 4, which was torn: commit 3 is the newest now", "segments_4", "whole"),
    ({}, "dropped nothing: commit 3 isn't torn", None, "whole"),
    # It isn't torn, but damaged.
    ({"_2.seg": ABSENT}, "dropped nothing: commit 3 isn't torn", None, "_2.seg: it is absent"),
    # Whole bytes of a commit under another name are not torn.
    ({"segments_4": commit()}, "dropped nothing: commit 4 isn't torn", None, "segments_4: it says that it is commit 3"),
    ({"segments_4": TORN, "_2.seg": ABSENT}, "dropped nothing: commit 4 is torn, and commit 3 isn't whole", None, "segments_4: its bytes are no commit's"),
    # The one before it is torn too, and one before that is whole.
    ({"segments_4": TORN, "segments_5": b""}, "dropped nothing: commit 5 is torn, and commit 4 isn't whole", None, "segments_5: its bytes are no commit's"),
    ({"segments_4": TORN, "segments_3": ABSENT}, "dropped nothing: commit 4 is torn, and there is no older one", None, "segments_4: its bytes are no commit's"),
    ({"segments_3": ABSENT}, "dropped nothing: there is no commit", None, "none"),
)


def a_torn_commit_over_a_whole_one_is_dropped_and_nothing_else(try_):
    for others, told, dropped, then in DROPS:
        folder = try_.whole_but(others)
        wanted = {name: said for name, said in state(folder).items() if name != dropped}
        first, _, rest = try_.judged(folder, "--drop-torn")[0].partition("\n")
        expect(f"a drop with {others}", (first, verdict_of(rest), state(folder)), (told, then, wanted))
        expect(f"what is found behind it with {others}", try_.found(folder), then)


# Commits that the program makes.


def listed(generation, token, next, segments, text=b""):
    return commit(generation, token, next, segments, text, PRICE)


def put(id, price):
    return f'1 PUT {{"id":"{id}","price":{price}}}'


def live_files_are_new_or_kept(try_):
    folder = try_.folder()
    schema = '{"price":"number"}'
    lines = [put("a", 1), put("b", 2), put("c", 3), "1 REFRESH", put("d", 4), put("e", 5), "1 COMMIT one", "1 FILES g 1", "1 SNAP"]
    lines += ["1 DEL b", "1 COMMIT", "1 SNAP", "1 DEL d", "1 COMMIT", "1 SNAP"]
    told = try_.replies(folder, lines, schema)
    expect("the first commit", told[7:14], ["1 OK 1", "1 OK 5", "1 _1.seg", "1 _1.sto", "1 _2.seg", "1 _2.sto", "1 segments_1"])
    files = state(folder)
    # The first has no live file; in the second a row of segment 1 is deleted; in the third one of segment 2, and the live file of
    # segment 1 is kept.
    expect("commit 1", files["segments_1"], listed(1, 5, 3, ((1, 0), (2, 0)), b"one"))
    expect("commit 2", files["segments_2"], listed(2, 6, 3, ((1, 2), (2, 0))))
    expect("commit 3", files["segments_3"], listed(3, 7, 3, ((1, 2), (2, 3))))
    lives = {name: said for name, said in files.items() if name.endswith(".liv")}
    expect("live files", lives, {"_1_2.liv": live(1, 2, 3, 0b101), "_2_3.liv": live(2, 3, 2, 0b10)})
    # Segments 1 and 2 are merged into segment 4, which stands before segment 3, and has the higher number: a segment is found by
    # its number. Segment 3 keeps its live file, and a row of segment 4 died meanwhile.
    lines = [put("f", 6), put("g", 7), "1 REFRESH", "1 DEL f", "1 COMMIT", "1 SNAP", "0 MERGE", "0 MERGE", "1 DEL c", "0 MERGE", "1 COMMIT", "1 FILES g 5"]
    told = try_.replies(folder, lines, '{"price":"number"}')
    merged = ["1 OK 8", "1 OK 9", "1 OK 9", "1 OK 10", "1 OK 4", "1 OK 4", "0 OK begun 2", "0 OK copied 5", "1 OK 11", "0 OK done", "1 OK 5"]
    names = ["_3.seg", "_3.sto", "_3_4.liv", "_4.seg", "_4.sto", "_4_5.liv", "segments_5"]
    expect("a merge", told[1:], [*merged, "1 OK 7", *(f"1 {name}" for name in names)])
    files = state(folder)
    expect("commit 4", files["segments_4"], listed(4, 10, 4, ((1, 2), (2, 3), (3, 4))))
    expect("commit 5", files["segments_5"], listed(5, 11, 5, ((4, 5), (3, 4))))
    lives = {name: said for name, said in files.items() if name in ("_3_4.liv", "_4_5.liv")}
    expect("the last live files", lives, {"_3_4.liv": live(3, 4, 2, 0b10), "_4_5.liv": live(4, 5, 3, 0b101)})
    # The next opening kept the newest commit alone.
    others = {f"_{number}.{end}" for number in (1, 2, 3, 4) for end in ("seg", "sto")}
    expect("the names", set(files), others | set(lives) | {"_1_2.liv", "_2_3.liv"} | {f"segments_{number}" for number in (3, 4, 5)})


def a_commit_without_a_segments_file_is_none(try_):
    folder = try_.folder()
    child = Child(try_.program, "run", str(folder))
    try:
        told = child.say(['SCHEMA 2 1 {"price":"number"}', put("a", 1), "1 REFRESH"])
        (folder / "_1.seg").unlink()
        told += child.say(["1 COMMIT one"])
        expect("a commit", (told, child.end()), (["OK 0", "OK 1", "OK 1", "NO 30"], "status 0"))
    finally:
        child.kill()
    expect("the files", set(state(folder)), {"_1.sto"})


def a_thousand_segments_keep_their_files(try_):
    folder = try_.folder()
    child = Child(try_.program, "run", str(folder))
    try:
        lines = [line for at in range(1_000) for line in (put(f"a{at}", 1), put(f"b{at}", 2), "1 REFRESH")]
        expect("a thousand segments", child.say(['SCHEMA 2 1 {"price":"number"}', *lines])[-1], "OK 2000")
        # The first row dies of each segment at a place with the last digit 0, and later with the digit 5.
        for generation, digit, wanted in ((1, 0, 2_101), (2, 5, 2_201)):
            told = child.say([f"1 DEL a{at}" for at in range(digit, 1_000, 10)] + ["1 COMMIT", f"1 FILES g {generation}"])
            expect(f"commit {generation}", (told[-2], told[-1].split("\n")[0]), (f"OK {generation}", f"OK {wanted}"))
        expect("the end", child.end(), "status 0")
    finally:
        child.kill()
    written = {0: 1, 5: 2}
    for generation in (1, 2):
        segments = [(at + 1, written.get(at % 10, 0)) for at in range(1_000)]
        segments = [(number, file if file <= generation else 0) for number, file in segments]
        expect(f"the file of commit {generation}", (folder / f"segments_{generation}").read_bytes(), listed(generation, 2_000 + 100 * generation, 1_001, segments))


def snapshots_are_counted_and_their_commits_kept(try_):
    lines = ["1 SNAP", "1 UNSNAP 1", "1 COMMIT", "1 COMMIT", "1 NOTE 1", "1 NOTE 2", "1 SNAP", "1 SNAP", "1 COMMIT", "1 SNAP", "1 COMMIT", "1 COMMIT"]
    # Commits 2 and 3 have snapshots, and commit 5 is the newest.
    lines += ["1 NOTE 2", "1 NOTE 3", "1 NOTE 4", "1 NOTE 5", "1 UNSNAP 2", "1 NOTE 2", "1 UNSNAP 2", "1 NOTE 2", "1 UNSNAP 2", "1 NOTE 3", "0 SWEEP"]
    folder = try_.folder()
    told = try_.replies(folder, lines)[1:]
    wanted = ["1 NO 26", "1 NO 27", "1 OK 1", "1 OK 2", "1 NO 26", "1 OK =", "1 OK 2", "1 OK 2", "1 OK 3", "1 OK 3", "1 OK 4", "1 OK 5"]
    wanted += ["1 OK =", "1 OK =", "1 NO 26", "1 OK =", "1 OK 1", "1 OK =", "1 OK 0", "1 NO 26", "1 NO 27", "1 OK =", "0 OK 3"]
    expect("snapshots", told, wanted)
    expect("the commits that are kept", set(state(folder)), {"segments_3", "segments_5"})


def a_commit_has_65535_snapshots_at_most(try_):
    most = 65_535
    lines = ["1 COMMIT", *["1 SNAP"] * most, "1 SNAP", "1 COMMIT", "1 SNAP", "1 UNSNAP 1"]
    told = try_.replies(try_.folder(), lines)[1:]
    expect("snapshots", told, ["1 OK 1", *["1 OK 1"] * most, "1 NO 16", "1 OK 2", "1 OK 2", f"1 OK {most - 1}"])


# Items under the writes 1 to 6, in segments of one, two and three, of which the last two are deleted.
PRICED = ('{"id":"a","price":7}', '{"id":"b"}', '{"id":"c","price":7}', '{"id":"d","price":2}', '{"id":"e","price":3}', '{"id":"f","price":7}')
PRICED_SCHEMA = '{"brand":"keyword","color":"facet","price":"number","title":"text"}'


def priced(try_):
    """A folder that has them in a commit of three segments."""
    folder = try_.folder()
    a, b, c, *rest = (f"1 PUT {it}" for it in PRICED)
    told = try_.replies(folder, [a, "1 REFRESH", b, c, "1 REFRESH", *rest, "1 REFRESH", "1 DEL e", "1 DEL f", "1 COMMIT"], PRICED_SCHEMA)
    expect("the commit", told[-1], "1 OK 1")
    expect("the texts", [(folder / f"_{it}.sto").read_text() for it in (1, 2, 3)], [PRICED[0], "".join(PRICED[1:3]), "".join(PRICED[3:])])
    return folder


def texts_of_live_ids_are_given_and_cut_ones_are_damaged(try_):
    folder = priced(try_)
    child = Child(try_.program, "run", str(folder))
    try:
        told = child.say([f"SCHEMA 2 1 {PRICED_SCHEMA}", "1 OPEN", "1 FILES t 8"])
        names = [f"_{number}.{end}" for number in (1, 2, 3) for end in ("seg", "sto")]
        expect("what a view needs", told, ["OK 8", "OK 8", "\n".join(["OK 6", *names])])
        # The file of `a` is gone; the row of `e` is dead, and no row has `g`.
        (folder / "_1.sto").unlink()
        told = child.say([f"1 GET 8 {id}" for id in ("c", "d", "e", "g", "a")])
        expect("the texts", told, [f"OK {PRICED[2]}", f"OK {PRICED[3]}", "OK .", "OK .", "NO 31"])
        (folder / "_2.sto").write_text(PRICED[1] + PRICED[2][:-1])
        expect("a text that is cut short", child.say(["1 GET 8 c"]), ["NO 31"])
        expect("the end", child.end(), "status 0")
    finally:
        child.kill()


# Texts as long as that of `c`, with a line feed first, last, and between: no reader of replies may take their lines for replies.
BROKEN = ('\n"id":"c","price":7}', '{"id":"c","price":7\n', '{"id":"c"}\n1 OK 9999')


def a_text_with_a_line_feed_is_damaged(try_):
    folder = priced(try_)
    for text in BROKEN:
        expect(f"how long {text!r} is", len(text), len(PRICED[2]))
        (folder / "_2.sto").write_text(PRICED[1] + text)
        told = try_.replies(folder, ["1 OPEN", "1 GET 8 c", "1 GET 8 b"], PRICED_SCHEMA)
        expect(f"with {text!r}", told[2:], ["1 NO 31", f"1 OK {PRICED[1]}"])
    # A line feed in another text is nobody's trouble but of who reads that one.
    (folder / "_2.sto").write_text('{"id":"b"\n' + PRICED[2])
    told = try_.replies(folder, ["1 OPEN", "1 GET 8 c", "1 GET 8 b"], PRICED_SCHEMA)
    expect("behind a text with a line feed", told[2:], [f"1 OK {PRICED[2]}", "1 NO 31"])


TESTS = (
    a_whole_commit_is_read,
    what_fits_is_read,
    another_schema_is_told_before_a_segment_is_read,
    names_tell_the_newest_commit_and_the_next_numbers,
    the_last_numbers_are_given_out,
    each_file_is_missed,
    each_rule_has_its_words,
    a_spoilt_byte_is_found,
    both_versions_are_read_and_the_second_is_written,
    every_byte_of_a_commit_counts,
    numbers_and_texts_fit,
    texts_of_commits_are_judged,
    all_is_told,
    a_torn_commit_over_a_whole_one_is_dropped_and_nothing_else,
    live_files_are_new_or_kept,
    a_commit_without_a_segments_file_is_none,
    a_thousand_segments_keep_their_files,
    snapshots_are_counted_and_their_commits_kept,
    a_commit_has_65535_snapshots_at_most,
    texts_of_live_ids_are_given_and_cut_ones_are_damaged,
    a_text_with_a_line_feed_is_damaged,
)


if __name__ == "__main__":
    sys.exit(run("commits", "usage: tests/commits.py PROGRAM CHECK", Try, TESTS))
