#!/usr/bin/env python3
"""Spells files of segments and of their live rows byte by byte, as docs/FORMATS.md says, and holds what the programs say of them,
and the files that the catalogue writes itself, against what a person wrote down.

usage: tests/segments.py PROGRAM CHECK        (the catalogue, and catalogue_check)

A file keeps all rules of the format, or breaks one by itself: then the check says that its bytes are no segment's, or no live rows',
and an opening is refused by 31. Each try has a folder of its own. The last line is `N passed, M failed`.
"""

import json
import sys

from commits import Try, commit, fields_of, segment, turned
from limits import counted, u32, u64
from tries import expect, run, state

# The file of segment 1, of the item that the first write put: `{"id":"a","price":5,"color":["red"]}`.
ONE_ROW = (
    # The magic word, the version, the number, the number of rows.
    b"CSEG\x01\0\0\0\0\0\0\0\x01\0\0\0\x01"
    # Two fields: the facet `color` and the number `price`.
    b"\0\0\0\x02\0\0\0\x05color\x04\0\0\0\x05price\x03"
    # The row: its number, its id, the length of its text.
    b"\0\0\0\0\0\0\0\x01\0\0\0\x01a\0\0\0\x24"
    # The colors: one label, and the row's one ordinal.
    b"\0\0\0\x01\0\0\0\x03red\0\0\0\x01\0\0\0\0"
    # The price.
    b"\x01\0\0\0\0\0\0\0\x05"
)
# The bytes that may be others: those of the segment's number but for the first, which is 0; those of the number of the row's write;
# the last one of the length of the text; and those of the price.
FREE = {*range(6, 13), *range(41, 49), 57, *range(78, 86)}
# Segment 1, of two items: `a` has a brand, two colors, a price and a word; `b` has a brand, a color and two words.
FILE = (
    b"CSEG",
    b"\x01",
    b"\0\0\0\0\0\0\0\x01",
    b"\0\0\0\x02",
    b"\0\0\0\x04\0\0\0\x05brand\x02\0\0\0\x05color\x04\0\0\0\x05price\x03\0\0\0\x05title\x01",
    b"\0\0\0\0\0\0\0\x01\0\0\0\x01a\0\0\0\x24\0\0\0\0\0\0\0\x02\0\0\0\x01b\0\0\0\x28",
    b"\0\0\0\x02\0\0\0\x04acme\0\0\0\x03zed\0\0\0\x02\0\0\0\x01",
    b"\0\0\0\x02\0\0\0\x04blue\0\0\0\x03red\0\0\0\x02\0\0\0\0\0\0\0\x01\0\0\0\x01\0\0\0\x01",
    b"\x01\0\0\0\0\0\0\0\x05\0",
    b"\0\0\0\x02\0\0\0\x04boot\0\0\0\x01\0\0\0\x01\0\0\0\x04shoe\0\0\0\x02\0\0\0\0\0\0\0\x01",
)
MAGIC, VERSION, NUMBER, COUNT, FIELDS, ROWS, BRANDS, COLORS, PRICES, TITLES = range(10)
# What a case shows, which part of the file is another, others in place of which nothing is spelled, and others in place of which
# another segment is.
CASES = (
    (
        "other magic words are damaged",
        MAGIC,
        (b"CSEH", b"cseg", b"CSGM", b"CLIV"),
        (),
    ),
    (
        "other versions are damaged",
        VERSION,
        (b"\0", b"\x02", b"\xff"),
        (),
    ),
    (
        "numbers of segments are those of names",
        NUMBER,
        (b"\0\0\0\0\0\0\0\0", b"\x80\0\0\0\0\0\0\0"),
        (b"\x7f\xff\xff\xff\xff\xff\xff\xff",),
    ),
    (
        "as many rows stand there as are told",
        COUNT,
        # None, one less, one more, and one more than a segment may have.
        (b"\0\0\0\0", b"\0\0\0\x01", b"\0\0\0\x03", b"\0\x04\0\x01"),
        (),
    ),
    (
        "fields rise and have names and kinds",
        FIELDS,
        (
            # Names that fall, and one that stands twice.
            b"\0\0\0\x04\0\0\0\x05color\x02\0\0\0\x05brand\x04\0\0\0\x05price\x03\0\0\0\x05title\x01",
            b"\0\0\0\x04\0\0\0\x05brand\x02\0\0\0\x05brand\x04\0\0\0\x05price\x03\0\0\0\x05title\x01",
            # No names of fields.
            b"\0\0\0\x04\0\0\0\0\x02\0\0\0\x05color\x04\0\0\0\x05price\x03\0\0\0\x05title\x01",
            b"\0\0\0\x04\0\0\0\x05Brand\x02\0\0\0\x05color\x04\0\0\0\x05price\x03\0\0\0\x05title\x01",
            b"\0\0\0\x04\0\0\0\x05brand\x02\0\0\0\x05color\x04\0\0\0\x02id\x03\0\0\0\x05title\x01",
            b"\0\0\0\x04\0\0\0\x05br\xffnd\x02\0\0\0\x05color\x04\0\0\0\x05price\x03\0\0\0\x05title\x01",
            # No kinds.
            b"\0\0\0\x04\0\0\0\x05brand\x02\0\0\0\x05color\x04\0\0\0\x05price\x03\0\0\0\x05title\0",
            b"\0\0\0\x04\0\0\0\x05brand\x02\0\0\0\x05color\x04\0\0\0\x05price\x03\0\0\0\x05title\x05",
            # A field less, and one more.
            b"\0\0\0\x03\0\0\0\x05brand\x02\0\0\0\x05color\x04\0\0\0\x05price\x03",
            b"\0\0\0\x05\0\0\0\x05brand\x02\0\0\0\x05color\x04\0\0\0\x05price\x03\0\0\0\x05title\x01\0\0\0\x01w\x01",
        ),
        (),
    ),
    (
        "numbers of rows rise from one",
        ROWS,
        (
            b"\0\0\0\0\0\0\0\0\0\0\0\x01a\0\0\0\x24\0\0\0\0\0\0\0\x02\0\0\0\x01b\0\0\0\x28",
            b"\0\0\0\0\0\0\0\x02\0\0\0\x01a\0\0\0\x24\0\0\0\0\0\0\0\x02\0\0\0\x01b\0\0\0\x28",
            b"\0\0\0\0\0\0\0\x03\0\0\0\x01a\0\0\0\x24\0\0\0\0\0\0\0\x02\0\0\0\x01b\0\0\0\x28",
        ),
        (
            b"\0\0\0\0\0\0\0\x07\0\0\0\x01a\0\0\0\x24\0\0\0\0\0\0\0\x09\0\0\0\x01b\0\0\0\x28",
            b"\0\0\0\0\0\0\0\x01\0\0\0\x01a\0\0\0\x24\x7f\xff\xff\xff\xff\xff\xff\xff\0\0\0\x01b\0\0\0\x28",
        ),
    ),
    (
        "ids of rows differ and are ids",
        ROWS,
        (
            # One id twice, none, and texts that are no ids.
            b"\0\0\0\0\0\0\0\x01\0\0\0\x01b\0\0\0\x24\0\0\0\0\0\0\0\x02\0\0\0\x01b\0\0\0\x28",
            b"\0\0\0\0\0\0\0\x01\0\0\0\0\0\0\0\x24\0\0\0\0\0\0\0\x02\0\0\0\x01b\0\0\0\x28",
            b"\0\0\0\0\0\0\0\x01\0\0\0\x01 \0\0\0\x24\0\0\0\0\0\0\0\x02\0\0\0\x01b\0\0\0\x28",
            b"\0\0\0\0\0\0\0\x01\0\0\0\x01\x7f\0\0\0\x24\0\0\0\0\0\0\0\x02\0\0\0\x01b\0\0\0\x28",
            b"\0\0\0\0\0\0\0\x01\0\0\0\x02\xc3\xa9\0\0\0\x24\0\0\0\0\0\0\0\x02\0\0\0\x01b\0\0\0\x28",
            b"\0\0\0\0\0\0\0\x01\0\0\0\x01\xff\0\0\0\x24\0\0\0\0\0\0\0\x02\0\0\0\x01b\0\0\0\x28",
        ),
        # The ids needn't rise.
        (b"\0\0\0\0\0\0\0\x01\0\0\0\x01~\0\0\0\x24\0\0\0\0\0\0\0\x02\0\0\0\x01!\0\0\0\x28",),
    ),
    (
        "texts of rows have one to 8192 bytes",
        ROWS,
        (
            b"\0\0\0\0\0\0\0\x01\0\0\0\x01a\0\0\0\0\0\0\0\0\0\0\0\x02\0\0\0\x01b\0\0\0\x28",
            b"\0\0\0\0\0\0\0\x01\0\0\0\x01a\0\0\x20\x01\0\0\0\0\0\0\0\x02\0\0\0\x01b\0\0\0\x28",
        ),
        (b"\0\0\0\0\0\0\0\x01\0\0\0\x01a\0\0\0\x01\0\0\0\0\0\0\0\x02\0\0\0\x01b\0\0\x20\0",),
    ),
    (
        "keywords rise and are used",
        BRANDS,
        (
            # Keywords that fall, and one that stands twice.
            b"\0\0\0\x02\0\0\0\x03zed\0\0\0\x04acme\0\0\0\x02\0\0\0\x01",
            b"\0\0\0\x02\0\0\0\x03zed\0\0\0\x03zed\0\0\0\x02\0\0\0\x01",
            # No row has the second, or the first.
            b"\0\0\0\x02\0\0\0\x04acme\0\0\0\x03zed\0\0\0\x01\0\0\0\x01",
            b"\0\0\0\x02\0\0\0\x04acme\0\0\0\x03zed\0\0\0\0\0\0\0\x02",
            # There is no third.
            b"\0\0\0\x02\0\0\0\x04acme\0\0\0\x03zed\0\0\0\x03\0\0\0\x01",
            # A row less, and one more.
            b"\0\0\0\x01\0\0\0\x04acme\0\0\0\x01",
            b"\0\0\0\x01\0\0\0\x04acme\0\0\0\x01\0\0\0\x01\0\0\0\x01",
            # Control characters, and no UTF-8.
            b"\0\0\0\x02\0\0\0\x04ac\x1fe\0\0\0\x03zed\0\0\0\x02\0\0\0\x01",
            b"\0\0\0\x02\0\0\0\x04acme\0\0\0\x03ze\x7f\0\0\0\x02\0\0\0\x01",
            b"\0\0\0\x02\0\0\0\x04acme\0\0\0\x03ze\xff\0\0\0\x02\0\0\0\x01",
        ),
        (),
    ),
    (
        "keywords may be empty or missing",
        BRANDS,
        (),
        (
            b"\0\0\0\x02\0\0\0\0\0\0\0\x03zed\0\0\0\x02\0\0\0\x01",
            b"\0\0\0\x01\0\0\0\x03zed\0\0\0\0\0\0\0\x01",
            b"\0\0\0\0\0\0\0\0\0\0\0\0",
        ),
    ),
    (
        "labels rise and are used",
        COLORS,
        (
            # Labels that fall, and one that stands twice.
            b"\0\0\0\x02\0\0\0\x03red\0\0\0\x04blue\0\0\0\x02\0\0\0\0\0\0\0\x01\0\0\0\x01\0\0\0\x01",
            b"\0\0\0\x02\0\0\0\x03red\0\0\0\x03red\0\0\0\x02\0\0\0\0\0\0\0\x01\0\0\0\x01\0\0\0\x01",
            # No row is blue.
            b"\0\0\0\x02\0\0\0\x04blue\0\0\0\x03red\0\0\0\x01\0\0\0\x01\0\0\0\x01\0\0\0\x01",
            # There is no third label.
            b"\0\0\0\x02\0\0\0\x04blue\0\0\0\x03red\0\0\0\x02\0\0\0\0\0\0\0\x01\0\0\0\x01\0\0\0\x02",
            # The ordinals of a row fall, or are equal.
            b"\0\0\0\x02\0\0\0\x04blue\0\0\0\x03red\0\0\0\x02\0\0\0\x01\0\0\0\0\0\0\0\x01\0\0\0\x01",
            b"\0\0\0\x02\0\0\0\x04blue\0\0\0\x03red\0\0\0\x02\0\0\0\0\0\0\0\0\0\0\0\x01\0\0\0\x01",
            # A row less, and one more.
            b"\0\0\0\x02\0\0\0\x04blue\0\0\0\x03red\0\0\0\x02\0\0\0\0\0\0\0\x01",
            b"\0\0\0\x02\0\0\0\x04blue\0\0\0\x03red\0\0\0\x02\0\0\0\0\0\0\0\x01\0\0\0\0\0\0\0\0",
            # The empty label, a control character, and no UTF-8.
            b"\0\0\0\x02\0\0\0\0\0\0\0\x03red\0\0\0\x02\0\0\0\0\0\0\0\x01\0\0\0\x01\0\0\0\x01",
            b"\0\0\0\x02\0\0\0\x04bl\0e\0\0\0\x03red\0\0\0\x02\0\0\0\0\0\0\0\x01\0\0\0\x01\0\0\0\x01",
            b"\0\0\0\x02\0\0\0\x04blue\0\0\0\x03r\xffd\0\0\0\x02\0\0\0\0\0\0\0\x01\0\0\0\x01\0\0\0\x01",
        ),
        (
            b"\0\0\0\x01\0\0\0\x03red\0\0\0\0\0\0\0\x01\0\0\0\0",
            b"\0\0\0\0\0\0\0\0\0\0\0\0",
        ),
    ),
    (
        "numbers are there or not",
        PRICES,
        # Neither there nor missing; a row less, and one more; a byte less.
        (
            b"\x02\0\0\0\0\0\0\0\x05\0",
            b"\x01\0\0\0\0\0\0\0\x05",
            b"\x01\0\0\0\0\0\0\0\x05\0\0",
            b"\x01\0\0\0\0\0\0\x05\0",
        ),
        (
            b"\0\0",
            b"\x01\x80\0\0\0\0\0\0\0\x01\x7f\xff\xff\xff\xff\xff\xff\xff",
        ),
    ),
    (
        "words rise and are words",
        TITLES,
        (
            # Words that fall, and one that stands twice.
            b"\0\0\0\x02\0\0\0\x04shoe\0\0\0\x02\0\0\0\0\0\0\0\x01\0\0\0\x04boot\0\0\0\x01\0\0\0\x01",
            b"\0\0\0\x02\0\0\0\x04boot\0\0\0\x01\0\0\0\x01\0\0\0\x04boot\0\0\0\x02\0\0\0\0\0\0\0\x01",
            # No words: empty, with a capital, with a space, no UTF-8.
            b"\0\0\0\x02\0\0\0\0\0\0\0\x01\0\0\0\x01\0\0\0\x04shoe\0\0\0\x02\0\0\0\0\0\0\0\x01",
            b"\0\0\0\x02\0\0\0\x04Boot\0\0\0\x01\0\0\0\x01\0\0\0\x04shoe\0\0\0\x02\0\0\0\0\0\0\0\x01",
            b"\0\0\0\x02\0\0\0\x04bo t\0\0\0\x01\0\0\0\x01\0\0\0\x04shoe\0\0\0\x02\0\0\0\0\0\0\0\x01",
            b"\0\0\0\x02\0\0\0\x04bo\xfft\0\0\0\x01\0\0\0\x01\0\0\0\x04shoe\0\0\0\x02\0\0\0\0\0\0\0\x01",
            # A word less than are told, and one more.
            b"\0\0\0\x03\0\0\0\x04boot\0\0\0\x01\0\0\0\x01\0\0\0\x04shoe\0\0\0\x02\0\0\0\0\0\0\0\x01",
            b"\0\0\0\x01\0\0\0\x04boot\0\0\0\x01\0\0\0\x01\0\0\0\x04shoe\0\0\0\x02\0\0\0\0\0\0\0\x01",
        ),
        (
            b"\0\0\0\0",
            b"\0\0\0\x01\0\0\0\x03\xc3\x891\0\0\0\x01\0\0\0\0",
        ),
    ),
    (
        "rows of words rise and are there",
        TITLES,
        (
            # A word of no row.
            b"\0\0\0\x02\0\0\0\x04boot\0\0\0\0\0\0\0\x04shoe\0\0\0\x02\0\0\0\0\0\0\0\x01",
            # Rows that fall, and one that stands twice.
            b"\0\0\0\x02\0\0\0\x04boot\0\0\0\x01\0\0\0\x01\0\0\0\x04shoe\0\0\0\x02\0\0\0\x01\0\0\0\0",
            b"\0\0\0\x02\0\0\0\x04boot\0\0\0\x01\0\0\0\x01\0\0\0\x04shoe\0\0\0\x02\0\0\0\x01\0\0\0\x01",
            # There is no third row.
            b"\0\0\0\x02\0\0\0\x04boot\0\0\0\x01\0\0\0\x02\0\0\0\x04shoe\0\0\0\x02\0\0\0\0\0\0\0\x01",
        ),
        (),
    ),
)

# The live rows of segment 1 in commit 2: of nine rows the first and the last.
LIVE = (b"CLIV", b"\x01", b"\0\0\0\0\0\0\0\x01", b"\0\0\0\0\0\0\0\x02", b"\0\0\0\x09", b"\x01\x01")
GENERATION, LIVE_COUNT, BITS = 3, 4, 5
NINE = tuple((at + 1, bytes([97 + at]), 1) for at in range(9))
LIVE_CASES = (
    ("other magic words are no live rows", MAGIC, (b"CLIW", b"cliv", b"CSEG"), ()),
    ("other versions are no live rows", VERSION, (b"\0", b"\x02"), ()),
    ("live rows are of a segment", NUMBER, (b"\0\0\0\0\0\0\0\0", b"\x80\0\0\0\0\0\0\0"), (b"\x7f\xff\xff\xff\xff\xff\xff\xff",)),
    ("live rows are of a commit", GENERATION, (b"\0\0\0\0\0\0\0\0", b"\x80\0\0\0\0\0\0\0"), (b"\x7f\xff\xff\xff\xff\xff\xff\xff",)),
    # A byte too many, and one too few.
    ("live rows have a bit for each row", LIVE_COUNT, (b"\0\0\0\x08", b"\0\0\0\x11"), (b"\0\0\0\x0a", b"\0\0\0\x10")),
    # All live, and a row that isn't there; all dead, all but the first, and all but the last live.
    ("some row is dead and none lies past the last", BITS, (b"\xff\x01", b"\x01\x03", b"\x01\x81"), (b"\0\0", b"\xfe\x01", b"\xff\0")),
)


def with_part(file, index, part):
    """The file of the parts, with this one in place of that of the index."""
    return b"".join(part if at == index else other for at, other in enumerate(file))


def is_segment(try_, said):
    """Whether the bytes are a segment's, by what the check finds of a commit that names it, and what an opening is told."""
    found = try_.found(try_.folder({"segments_3": commit(next=2, segments=((1, 0),)), "_1.seg": said}))
    return "_1.seg: its bytes are no segment's" not in found


def are_live(try_, said):
    """The same of live rows of nine, where nothing else is wrong with their segment."""
    found = try_.found(try_.folder({"segments_3": commit(next=2, segments=((1, 2),)), "_1.seg": segment(1, NINE), "_1.sto": bytes(9), "_1_2.liv": said}))
    expect("what is found", found == "whole" or found.startswith("_1_2.liv: ") and "; " not in found, True)
    return found != "_1_2.liv: its bytes are no live rows'"


def a_segment_has_these_bytes(try_):
    folder = try_.folder()
    schema = '{"price":"number","color":"facet"}'
    told = try_.replies(folder, ['1 PUT {"id":"a","price":5,"color":["red"]}', "1 COMMIT"], schema)
    expect("a commit", told, ["OK 0", "1 OK 1", "1 OK 1"])
    expect("the file", state(folder)["_1.seg"], ONE_ROW)
    # They are read so: the item is found by each of its values, and by its id.
    lines = ["1 OPEN", *(f"1 FIND 1 9 +price . {query}" for query in ("color:red", "price:5", "price:6")), "1 GET 1 a", "1 GET 1 b"]
    found = ["1 OK 1 1", "1 1 a 5"]
    expect("what is read", try_.replies(folder, lines, schema), ["OK 1", "1 OK 1", *found, *found, "1 OK 0 0", '1 OK {"id":"a","price":5,"color":["red"]}', "1 OK ."])


def every_byte_of_a_segment_counts(try_):
    for end in range(len(ONE_ROW)):
        expect(f"the first {end} bytes", is_segment(try_, ONE_ROW[:end]), False)
    expect("a byte more", is_segment(try_, ONE_ROW + b"\0"), False)
    for place in range(len(ONE_ROW)):
        expect(f"byte {place}, turned", is_segment(try_, turned(ONE_ROW, place)), place in FREE)


def a_segment_keeps_all_rules_or_is_damaged(try_):
    expect("the file", is_segment(try_, b"".join(FILE)), True)
    for title, index, wrong, right in CASES:
        for parts, wanted in ((wrong, False), (right, True)):
            for part in parts:
                expect(f"{title}: {part!r}", is_segment(try_, with_part(FILE, index, part)), wanted)


# What is limited, and a file with a text: what stands before its length, a byte that it is made of, how many bytes it may have at
# most, and what stands behind it.
HEAD, ROW = b"CSEG\x01\0\0\0\0\0\0\0\x01\0\0\0\x01", b"\0\0\0\0\0\0\0\x01\0\0\0\x01a\0\0\0\x24"
LIMITS = (
    ("ids have at most 64 bytes", HEAD + b"\0\0\0\0\0\0\0\0\0\0\0\x01", b"i", 64, b"\0\0\0\x24"),
    ("names of fields have at most 32 bytes", HEAD + b"\0\0\0\x01", b"n", 32, b"\x03" + ROW + b"\0"),
    ("keywords have at most 128 bytes", HEAD + fields_of((b"k", 2)) + ROW + b"\0\0\0\x01", b"k", 128, b"\0\0\0\x01"),
    ("labels have at most 128 bytes", HEAD + fields_of((b"l", 4)) + ROW + b"\0\0\0\x01", b"l", 128, b"\0\0\0\x01\0\0\0\0"),
)


def letters(number):
    """A text of two letters: those of greater numbers come later in byte order."""
    return bytes([97 + number // 26, 97 + number % 26])


def with_labels(count):
    """A segment of one row, which has so many labels."""
    dictionary = u32(count) + b"".join(counted(letters(number)) for number in range(count))
    return HEAD + fields_of((b"l", 4)) + ROW + dictionary + u32(count) + b"".join(map(u32, range(count)))


def with_fields(count):
    """A segment of one row and so many number fields, of which the row has none."""
    return HEAD + fields_of(*((letters(number), 3) for number in range(count))) + ROW + bytes(count)


def segments_reach_their_limits(try_):
    for title, before, byte, most, after in LIMITS:
        expect(title, [is_segment(try_, before + counted(byte * size) + after) for size in (most, most + 1)], [True, False])
    expect("a row has at most 64 labels", [is_segment(try_, with_labels(count)) for count in (64, 65)], [True, False])
    expect("a segment has at most 32 fields", [is_segment(try_, with_fields(count)) for count in (0, 32, 33)], [True, True, False])


def live_rows_have_these_bytes(try_):
    folder = try_.folder()
    told = try_.replies(folder, [*(f'1 PUT {{"id":"{at}"}}' for at in range(9)), "1 REFRESH", *(f"1 DEL {at}" for at in range(1, 8)), "1 COMMIT", "1 COMMIT"])
    expect("a commit", told[-2:], ["1 OK 1", "1 OK 2"])
    # They are those of the first commit, and the second names their file.
    expect("the file", state(folder)["_1_1.liv"], with_part(LIVE, GENERATION, u64(1)))
    expect("what is read", try_.replies(folder, ["1 OPEN", "1 FIND 16 9 . . *:*"]), ["OK 16", "1 OK 16", "1 OK 2 2", "1 1 0 .", "1 9 8 ."])


def live_rows_keep_all_rules_or_are_damaged(try_):
    said = b"".join(LIVE)
    expect("the file", are_live(try_, said), True)
    for end in range(len(said)):
        expect(f"the first {end} bytes", are_live(try_, said[:end]), False)
    expect("a byte more", are_live(try_, said + b"\0"), False)
    for title, index, wrong, right in LIVE_CASES:
        for parts, wanted in ((wrong, False), (right, True)):
            for part in parts:
                expect(f"{title}: {part!r}", are_live(try_, with_part(LIVE, index, part)), wanted)


def live_rows_are_as_many_as_those_of_a_segment(try_):
    head = b"".join(LIVE[:LIVE_COUNT])
    for count, wanted in ((0, False), (1, True), (262_144, True), (262_145, False)):
        expect(f"{count} rows", are_live(try_, head + u32(count) + bytes(-(-count // 8))), wanted)
    # All rows of a full segment live but one.
    expect("all but one", are_live(try_, head + u32(262_144) + b"\xff" * 32_767 + b"\x7f"), True)


# Texts, each with its words in byte order.
WORDS = (
    ("", ()),
    (" -\t.", ()),
    ("Red-Shoe 42é red", ("42é", "red", "shoe")),
    ("  a-A b ", ("a", "b")),
    ("b2 B10 b1", ("b1", "b10", "b2")),
    ("éa ÀÉ", ("ÀÉ", "éa")),
    ("snake_case", ("case", "snake")),
    ("naïve naive", ("naive", "naïve")),
    ("日本 日本語", ("日本", "日本語")),
    # Bytes at either side of digits and letters, and the first and the last characters past ASCII.
    ("/0:9;", ("0", "9")),
    ("@A[Z`a{z~\x7f", ("a", "z")),
    ("a\x80b c\U0010ffff", ("a\x80b", "c\U0010ffff")),
    # No letters past ASCII are lowered, and no spaces past ASCII part words.
    ("ÉÀ\xa0É", ("ÉÀ\xa0É",)),
    ("x" * 8_171, ("x" * 8_171,)),
)


def a_text_has_these_words(try_):
    """They stand in the column of a segment's file, each once, with the one row."""
    for text, words in WORDS:
        folder = try_.folder()
        # Control characters stand in an item as escapes.
        item = json.dumps({"id": "a", "t": text}, ensure_ascii=False, separators=(",", ":"))
        told = try_.replies(folder, [f"1 PUT {item}", "1 COMMIT"], '{"t":"text"}')
        expect(f"a commit of {text[:40]!r}", told, ["OK 0", "1 OK 1", "1 OK 1"])
        head = segment(1, ((1, b"a", len(item.encode())),), fields_of((b"t", 1)))[:-8]
        column = u32(len(words)) + b"".join(counted(word.encode()) + u32(1) + u32(0) for word in words)
        expect(f"the file of {text[:40]!r}", state(folder)["_1.seg"], head + column)


TESTS = (
    a_segment_has_these_bytes,
    a_text_has_these_words,
    every_byte_of_a_segment_counts,
    a_segment_keeps_all_rules_or_is_damaged,
    segments_reach_their_limits,
    live_rows_have_these_bytes,
    live_rows_keep_all_rules_or_are_damaged,
    live_rows_are_as_many_as_those_of_a_segment,
)


if __name__ == "__main__":
    sys.exit(run("segments", "usage: tests/segments.py PROGRAM CHECK", Try, TESTS))
