#!/usr/bin/env python3
"""Runs the program at its limits, on a small stack, and holds its replies against what they must be.

limits.py [PROGRAM] [--long] [--segments 65536] [--room FOLDER]

The program has half a megabyte of stack (`ulimit -s 512`), a sixteenth of what a system gives: what calls itself once for each
segment, item or label ends it here. Folders of as many segments as may stand are written by this test itself, byte by byte as
docs/FORMATS.md says; what the program answers over them is worked out here, from the items alone. The last line is
`N passed, M failed`.

--long adds what takes minutes: a REFRESH for each of 36,000 writes without a MERGE, and all merges two by two.
"""

import argparse
import json
import os
import resource
import shutil
import struct
import subprocess
import sys
import tempfile
import threading
import time
from pathlib import Path

STACK = 512 * 1024
# The longest that one run of the program may take, in seconds.
PATIENCE = 600
MAX_SEGMENTS = 65_536
MAX_ROWS = 262_144
PAGE = 1_000


class Broken(Exception):
    """The program ended, or said what isn't a reply."""


# The program as a child, on a small stack.


class Child:
    """The program. What it is told goes out by a thread of its own, so that neither side waits for the other."""

    def __init__(self, program, *arguments):
        self.process = subprocess.Popen(
            [program, *arguments],
            stdin=subprocess.PIPE,
            stdout=subprocess.PIPE,
            preexec_fn=self.prepare,
        )
        # A program that doesn't answer ends, so that what waits for it fails.
        self.watch = threading.Timer(PATIENCE, self.process.kill)
        self.watch.daemon = True
        self.watch.start()

    def prepare(self):
        """What is done in the child before it becomes the program."""
        resource.setrlimit(resource.RLIMIT_STACK, (STACK, STACK))

    def stack(self):
        """The bytes of stack that the running program may have."""
        limits = Path(f"/proc/{self.process.pid}/limits").read_text()
        return next(line.split()[3] for line in limits.splitlines() if line.startswith("Max stack size"))

    def say(self, lines):
        """The reply to each of the lines, without the session's number: one text, its lines joined by line feeds."""
        writer = threading.Thread(target=self.write, args=(lines,), daemon=True)
        writer.start()
        replies = [self.reply(line) for line in lines]
        writer.join()
        return replies

    def ask(self, line):
        return self.say([line])[0]

    def write(self, lines):
        try:
            for begin in range(0, len(lines), 1_000):
                self.process.stdin.write(b"".join(as_bytes(line) + b"\n" for line in lines[begin : begin + 1_000]))
                self.process.stdin.flush()
        except BrokenPipeError:
            pass

    def line(self):
        line = self.process.stdout.readline()
        if not line.endswith(b"\n"):
            raise Broken(f"the program ended, with status {self.process.wait()}")
        return line[:-1].decode()

    def reply(self, line):
        session, _, said = as_bytes(line).decode(errors="replace").partition(" ")
        first = self.line()
        if first.startswith("? "):
            return first
        front = "" if session == "SCHEMA" else session + " "
        if not first.startswith(front):
            raise Broken(f"to '{line[:80]}' came '{first[:80]}'")
        first = first[len(front) :]
        return "\n".join([first] + [self.line()[len(front) :] for _ in range(lines_behind(said, first))])

    def end(self):
        """Ends the input, and says the status."""
        self.process.stdin.close()
        rest = self.process.stdout.read()
        self.process.stdout.close()
        status = self.process.wait()
        self.watch.cancel()
        return f"status {status}" + (f" and {rest[:80]!r}" if rest else "")

    def kill(self):
        self.watch.cancel()
        self.process.kill()
        self.process.wait()


def as_bytes(line):
    return line if isinstance(line, bytes) else line.encode()


def lines_behind(said, first):
    """How many lines stand behind the first one of the reply."""
    words, told = said.split(" "), first.split(" ")
    if told[0] != "OK":
        return 0
    if words[0] in ("FIND", "FILES"):
        return int(told[1])
    if words[0] == "FACETS":
        return min(int(words[3]), int(told[2]))
    if words[0] == "STAT":
        return int(told[3])
    return 0


# Items, and what must be answered over them.


class Item:
    """An item under the schema of the folders: every field but `none`, which no item has, is missing in some."""

    __slots__ = ("number", "id", "price", "brand", "color", "title", "text")

    def __init__(self, number):
        self.number = number
        self.id = f"item-{number}"
        self.price = None if number % 10 == 0 else number * 7_919 % 5_000 - 100
        self.brand = None if number % 7 == 0 else f"brand {number * 31 % 300:03}"
        self.color = [] if number % 11 == 0 else sorted({f"color {number % 40:02}", f"color {number // 3 % 40:02}"})
        self.title = ["item", f"word{number % 500:03}"]
        item = {"id": self.id, "title": " ".join(self.title), "color": self.color}
        if self.price is not None:
            item["price"] = self.price
        if self.brand is not None:
            item["brand"] = self.brand
        self.text = json.dumps(item)


SCHEMA_FIELDS = {"brand": "keyword", "color": "facet", "none": "facet", "price": "number", "title": "text"}


def schema_line(factor, least):
    return f"SCHEMA {factor} {least} {json.dumps(SCHEMA_FIELDS)}"


SORTS = {
    ".": (lambda item: item.number, lambda item: ".", lambda item: False),
    "+price": (lambda item: item.price, lambda item: str(item.price), lambda item: item.price is None),
    "-price": (lambda item: -item.price, lambda item: str(item.price), lambda item: item.price is None),
    "+brand": (lambda item: item.brand, lambda item: "=" + item.brand, lambda item: item.brand is None),
    "-brand": (None, lambda item: "=" + item.brand, lambda item: item.brand is None),
}


def in_order(items, sort):
    """The items in the order of the sort: those without a value last, ties by number."""
    key, _, is_missing = SORTS[sort]
    some = [item for item in items if not is_missing(item)]
    none = [item for item in items if is_missing(item)]
    if sort == "-brand":
        some.sort(key=lambda item: item.brand, reverse=True)
    else:
        some.sort(key=key)
    return some + none


def page_of(ordered, sort, total, begin, count):
    _, shown, is_missing = SORTS[sort]
    page = ordered[begin : begin + count]
    entries = [f"{item.number} {item.id} {'.' if is_missing(item) else shown(item)}" for item in page]
    return "\n".join([f"OK {len(page)} {total}"] + entries)


QUERIES = {
    "*:*": lambda item: True,
    "title:word007": lambda item: "word007" in item.title,
    'brand:"brand 031"': lambda item: item.brand == "brand 031",
    'color:"color 12"': lambda item: "color 12" in item.color,
    "price:[10 TO 50]": lambda item: item.price is not None and 10 <= item.price <= 50,
    '+title:item -color:"color 12" -price:[* TO 4000]': lambda item: "color 12" not in item.color and not (item.price is not None and item.price <= 4_000),
    "none:*": lambda item: False,
}
# No label begins with nothing, so this asks for a prefix that no label has.
QUERIES["none:x*"] = QUERIES.pop("none:*")


def counts_of(items, count):
    labels = {}
    for item in items:
        for label in item.color:
            labels[label] = labels.get(label, 0) + 1
    ordered = sorted(labels.items(), key=lambda entry: (-entry[1], entry[0].encode()))[:count]
    with_label = sum(1 for item in items if item.color)
    return "\n".join([f"OK {with_label} {len(labels)}"] + [f"{number} {label}" for label, number in ordered])


# Files, byte by byte (docs/FORMATS.md).

KINDS = {"text": 1, "keyword": 2, "number": 3, "facet": 4}


def u32(number):
    return struct.pack(">I", number)


def u64(number):
    return struct.pack(">Q", number)


def counted(data):
    return u32(len(data)) + data


FIELDS = u32(len(SCHEMA_FIELDS)) + b"".join(
    counted(name.encode()) + bytes([KINDS[kind]]) for name, kind in sorted(SCHEMA_FIELDS.items())
)


def dictionary_of(texts):
    """The dictionary of the texts, and the ordinal of each."""
    ordered = sorted(set(texts), key=str.encode)
    return u32(len(ordered)) + b"".join(counted(text.encode()) for text in ordered), {text: at for at, text in enumerate(ordered)}


def keyword_column(values):
    dictionary, ordinals = dictionary_of(value for value in values if value is not None)
    return dictionary + b"".join(u32(0 if value is None else ordinals[value] + 1) for value in values)


def number_column(values):
    return b"".join(b"\0" if value is None else b"\1" + struct.pack(">q", value) for value in values)


def facet_column(sets):
    dictionary, ordinals = dictionary_of(label for labels in sets for label in labels)
    rows = (u32(len(labels)) + b"".join(u32(at) for at in sorted(ordinals[label] for label in labels)) for labels in sets)
    return dictionary + b"".join(rows)


def text_column(rows):
    having = {}
    for at, words in enumerate(rows):
        for word in sorted(set(words)):
            having.setdefault(word, []).append(at)
    ordered = sorted(having, key=str.encode)
    return u32(len(ordered)) + b"".join(counted(word.encode()) + u32(len(having[word])) + b"".join(u32(at) for at in having[word]) for word in ordered)


def segment_bytes(number, items):
    head = b"CSEG\1" + u64(number) + u32(len(items)) + FIELDS
    rows = b"".join(u64(item.number) + counted(item.id.encode()) + u32(len(item.text)) for item in items)
    return b"".join(
        (
            head,
            rows,
            keyword_column([item.brand for item in items]),
            facet_column([item.color for item in items]),
            facet_column([[] for _ in items]),
            number_column([item.price for item in items]),
            text_column([item.title for item in items]),
        )
    )


def write_segment(folder, number, items):
    (folder / f"_{number}.seg").write_bytes(segment_bytes(number, items))
    (folder / f"_{number}.sto").write_bytes("".join(item.text for item in items).encode())


def write_commit(folder, token, segments):
    listed = b"".join(u64(number) + u64(0) for number in range(1, segments + 1))
    commit = b"CSGM\2" + u64(1) + u64(token) + u64(segments + 1) + counted(b"written by hand") + FIELDS + u32(segments) + listed
    (folder / "segments_1").write_bytes(commit)


# The tests.


class Tests:
    def __init__(self, program, room, segments, is_long):
        self.program, self.room, self.segments, self.is_long = program, room, segments, is_long
        self.passed = self.failed = 0

    def expect(self, what, found, wanted):
        if found == wanted:
            self.passed += 1
            return
        self.failed += 1
        print(f"limits.py: {what} FAILED: {difference(found, wanted)}", file=sys.stderr)

    def fail(self, what, why):
        self.failed += 1
        print(f"limits.py: {what} FAILED: {why}", file=sys.stderr)

    def run(self, test):
        begun = time.monotonic()
        try:
            test()
        except (Broken, OSError, ValueError, IndexError) as error:
            self.fail(test.__name__, f"{type(error).__name__}: {error}")
        print(f"limits.py: {test.__name__.replace('_', ' ')}: {time.monotonic() - begun:.1f} s", file=sys.stderr)

    def start(self, *arguments):
        return Child(self.program, *arguments)

    def replies(self, what, schema, exchanges):
        """Says the lines to a program of its own, over memory, and holds each reply against the one beside it."""
        child = self.start()
        try:
            told = [child.ask(schema)] + child.say([line for line, _ in exchanges])
            ended = child.end()
        except Broken as broken:
            self.fail(what, broken)
            return
        finally:
            child.kill()
        if len(exchanges) > 100:
            self.expect(f"{what}: all replies", told[1:], [wanted for _, wanted in exchanges])
        else:
            for found, (line, wanted) in zip(told[1:], exchanges):
                self.expect(f"{what}: {as_bytes(line)[:60]!r}", found, wanted)
        self.expect(f"{what}: the end", (told[0], ended), ("OK 0", "status 0"))

    # Lines.

    def the_stack_is_small(self):
        child = self.start()
        child.ask("SCHEMA 10 1024 {}")
        self.expect("the stack", child.stack(), str(STACK))
        self.expect("the end", child.end(), "status 0")

    def items_ids_and_values(self):
        fields = '{"color":"facet","kind":"keyword","size":"number","title":"text"}'
        labels = [f"{number:02}" + "l" * 126 for number in range(64)]
        least, most = -(2**63), 2**63 - 1
        self.replies(
            "items",
            f"SCHEMA 10 1024 {fields}",
            [
                ("1 PUT " + padded({"id": "long"}, 8_192), "OK 1"),
                ("1 PUT " + padded({"id": "long"}, 8_193), "NO 15"),
                ("1 PUT " + padded({"id": "i" * 64}, 100), "OK 2"),
                ("1 PUT " + padded({"id": "i" * 65}, 100), "NO 14"),
                ("1 PUT " + json.dumps({"id": "k", "kind": "k" * 128}), "OK 3"),
                ("1 PUT " + json.dumps({"id": "k", "kind": "k" * 129}), "NO 15"),
                ("1 PUT " + json.dumps({"id": "l", "color": [label[:100] for label in labels]}), "OK 4"),
                ("1 PUT " + json.dumps({"id": "l", "color": [label[:100] for label in labels] + ["x"]}), "NO 15"),
                ("1 PUT " + json.dumps({"id": "m", "color": [labels[0]]}), "OK 5"),
                ("1 PUT " + json.dumps({"id": "m", "color": [labels[0] + "x"]}), "NO 15"),
                ("1 PUT " + json.dumps({"id": "n", "size": most}), "OK 6"),
                ("1 PUT " + json.dumps({"id": "o", "size": least}), "OK 7"),
                ("1 PUT " + json.dumps({"id": "n", "size": most + 1}), "NO 13"),
                ("1 PUT " + json.dumps({"id": "n", "size": least - 1}), "NO 13"),
                ("1 REFRESH", "OK 7"),
                ("1 OPEN", "OK 7"),
                ("1 GET 7 long", "OK " + padded({"id": "long"}, 8_192)),
                ("1 GET 7 " + "i" * 64, "OK " + padded({"id": "i" * 64}, 100)),
                ("1 GET 7 " + "i" * 65, "NO 14"),
                ("1 FIND 7 9 +kind . kind:" + "k" * 128, f"OK 1 1\n3 k ={'k' * 128}"),
                ("1 FIND 7 9 +size . size:[* TO *]", f"OK 2 2\n7 o {least}\n6 n {most}"),
                ("1 FIND 7 9 -size . size:[* TO *]", f"OK 2 2\n6 n {most}\n7 o {least}"),
                ("1 FACETS 7 color 1000 id:x", "NO 24 0"),
                ("1 FACETS 7 color 64 *:*", "\n".join(["OK 2 65"] + [f"1 {label}" for label in sorted([label[:100] for label in labels] + [labels[0]])[:64]])),
            ],
        )

    def levels_of_json(self):
        # The item itself is the first level, so 126 arrays within it are the 127th.
        nested = {levels: '{"id":"a","color":' + "[" * (levels - 1) + "]" * (levels - 1) + "}" for levels in (3, 127, 128)}
        objects = {levels: '{"id":"a","title":' + '{"a":' * (levels - 1) + "1" + "}" * (levels - 1) + "}" for levels in (127, 128)}
        self.replies(
            "levels",
            'SCHEMA 10 1024 {"color":"facet","title":"text"}',
            [
                ("1 PUT " + nested[3], "NO 13"),
                ("1 PUT " + nested[127], "NO 13"),
                ("1 PUT " + nested[128], "NO 11"),
                ("1 PUT " + objects[127], "NO 13"),
                ("1 PUT " + objects[128], "NO 11"),
                ("1 PUT " + "[" * 127 + "]" * 127, "NO 13"),
                ("1 PUT " + "[" * 128 + "]" * 128, "NO 11"),
                ("1 PUT " + "[" * 4_096 + "]" * 4_096, "NO 11"),
                ("1 PUT " + '{"a":' * 1_600, "NO 11"),
                ('1 PUT {"id":"a"}', "OK 1"),
            ],
        )
        for levels, wanted in ((127, "NO 13"), (128, "NO 11"), (4_900, "NO 11")):
            child = self.start()
            self.expect(f"a schema of {levels} levels", child.ask("SCHEMA 10 1024 " + "[" * levels + "]" * levels), wanted)
            self.expect(f"a schema of {levels} levels: the end", child.end(), "status 2")

    def schemas_of_32_fields(self):
        kinds = ("text", "keyword", "number", "facet")
        names = [f"f{number:02}" + "x" * 29 for number in range(33)]
        fields = {name: kinds[at % 4] for at, name in enumerate(names)}
        values = {"text": "Red shoe", "keyword": "k", "number": 5, "facet": ["a", "b"]}
        whole = dict(list(fields.items())[:32])
        item = {"id": "all", **{name: values[kind] for name, kind in whole.items()}}
        self.replies(
            "32 fields",
            "SCHEMA 10 1024 " + json.dumps(whole),
            [
                ("1 PUT " + json.dumps(item), "OK 1"),
                ("1 REFRESH", "OK 1"),
                ("1 OPEN", "OK 1"),
                (f"1 FIND 1 9 +{names[1]} . +{names[0]}:shoe +{names[28]}:red +{names[31]}:b +{names[30]}:5", "OK 1 1\n1 all =k"),
                (f"1 FACETS 1 {names[31]} 9 *:*", "OK 1 2\n1 a\n1 b"),
                (f"1 FIND 1 9 +{names[32]} . *:*", "NO 28"),
            ],
        )
        child = self.start()
        self.expect("33 fields", child.ask("SCHEMA 10 1024 " + json.dumps(fields)), "NO 13")
        self.expect("33 fields: the end", child.end(), "status 2")
        child = self.start()
        self.expect("a name of 33 bytes", child.ask("SCHEMA 10 1024 " + json.dumps({"f" * 33: "text"})), "NO 13")
        self.expect("a name of 33 bytes: the end", child.end(), "status 2")

    def queries_of_64_clauses_in_8_levels(self):
        whole = grouped(64, 8)
        noted = "1 FIND 2 9 . . "
        self.replies(
            "queries",
            'SCHEMA 10 1024 {"kind":"keyword"}',
            [
                ('1 PUT {"id":"a","kind":"k55"}', "OK 1"),
                ('1 PUT {"id":"b","kind":"k99"}', "OK 2"),
                ("1 REFRESH", "OK 2"),
                ("1 OPEN", "OK 2"),
                (noted + whole, "OK 1 1\n1 a ."),
                # Once more, by the set that was cached of the first.
                ("0 WARM", "OK begun"),
                ("0 WARM", "OK stored"),
                (noted + whole, "OK 1 1\n1 a ."),
                (noted + grouped(65, 8), f"NO 24 {grouped(65, 8).rindex('kind')}"),
                (noted + "(" * 8 + "kind:k55" + ")" * 8, "OK 1 1\n1 a ."),
                (noted + "(" * 9 + "kind:k55" + ")" * 9, "NO 24 8"),
                (noted + "(" * 9_000, "NO 24 8"),
                (noted + ")" * 9_000, "NO 24 0"),
                ("1 DELW " + whole, "OK 3"),
                ("1 REFRESH", "OK 3"),
                ("1 OPEN", "OK 3"),
                ("1 FIND 3 9 . . *:*", "OK 1 1\n2 b ."),
            ],
        )

    def lines_sessions_and_texts(self):
        long_line = "1 COMMIT " + "x" * (10_000 - len("1 COMMIT "))
        self.replies(
            "lines",
            "SCHEMA 10 1024 {}",
            [
                (long_line, "NO 15"),
                (long_line + "x", "? NO 10"),
                (b"x" * 1_000_000, "? NO 10"),
                ('9999 PUT {"id":"a"}', "OK 1"),
                ('10000 PUT {"id":"a"}', "? NO 10"),
                ("1 COMMIT " + "t" * 256, "OK 1"),
                ("1 COMMIT " + "t" * 257, "NO 15"),
                ("1 NOTE 1", "OK =" + "t" * 256),
                ("1 FIND 0 1000 . . *:*", "NO 20"),
                ("1 OPEN 0", "OK 0"),
                ("1 FIND 0 1000 . . *:*", "OK 0 0"),
                ("1 FIND 0 1001 . . *:*", "NO 25"),
            ],
        )

    def views_snapshots_and_waiting_items(self):
        exchanges = []
        for number in range(1, 64):
            exchanges += [(f'1 PUT {{"id":"v{number}"}}', f"OK {number}"), ("1 REFRESH", f"OK {number}"), ("1 OPEN", f"OK {number}")]
        exchanges += [
            ("1 OPEN 0", "OK 0"),
            ('1 PUT {"id":"w"}', "OK 64"),
            ("1 REFRESH", "NO 22"),
            ("1 CLOSE 0", "OK 0"),
            ("1 REFRESH", "OK 64"),
            ("1 COMMIT", "OK 1"),
        ]
        exchanges += [("1 SNAP", "OK 1")] * 65_535 + [("1 SNAP", "NO 16")]
        exchanges += [("1 UNSNAP 1", f"OK {left}") for left in range(65_534, -1, -1)] + [("1 UNSNAP 1", "NO 27")]
        self.replies("views and snapshots", "SCHEMA 100 100000 {}", exchanges)
        waiting = [(f'1 PUT {{"id":"{number}"}}', f"OK {number}") for number in range(1, 1_026)]
        self.replies(
            "waiting items",
            "SCHEMA 10 1024 {}",
            waiting[:1_024] + [("0 STAT", "OK 1024 1024 0 1 0 0")] + waiting[1_024:] + [("0 STAT", "OK 1025 1 1 1 0 0\n1 1024 1024")],
        )

    def pages_of_1000(self):
        labels = [f"label {number:04}" for number in range(1_001)]
        exchanges = [(f'1 PUT {{"id":"{number}","color":["{labels[number]}"],"price":{-number}}}', f"OK {number + 1}") for number in range(1_001)]
        exchanges += [
            ("1 REFRESH", "OK 1001"),
            ("1 OPEN", "OK 1001"),
            ("1 FIND 1001 1000 . . *:*", "\n".join(["OK 1000 1001"] + [f"{number + 1} {number} ." for number in range(1_000)])),
            ("1 FIND 1001 1000 . 1000 *:*", "OK 1 1001\n1001 1000 ."),
            ("1 FIND 1001 1000 +price . *:*", "\n".join(["OK 1000 1001"] + [f"{number + 1} {number} {-number}" for number in range(1_000, 0, -1)])),
            ("1 FIND 1001 1000 +price 2 *:*", "OK 1 1001\n1 0 0"),
            ("1 FIND 1001 1001 . . *:*", "NO 25"),
            ("1 FACETS 1001 color 1000 *:*", "\n".join(["OK 1001 1001"] + [f"1 {label}" for label in labels[:1_000]])),
            ("1 FACETS 1001 color 1001 *:*", "NO 25"),
        ]
        self.replies("pages", 'SCHEMA 10 1024 {"color":"facet","price":"number"}', exchanges)

    # Folders.

    def reads(self, what, child, token, items):
        """Holds every kind of read under the token against the items."""
        for sort in SORTS:
            ordered = in_order(items, sort)
            mark = ordered[len(ordered) // 2]
            told = child.say([f"1 FIND {token} {PAGE} {sort} . *:*", f"1 FIND {token} {PAGE} {sort} {mark.number} *:*"])
            self.expect(f"{what}: by {sort}", told[0], page_of(ordered, sort, len(items), 0, PAGE))
            self.expect(f"{what}: by {sort} behind a mark", told[1], page_of(ordered, sort, len(items), len(ordered) // 2 + 1, PAGE))
        for query, accepts in QUERIES.items():
            found = [item for item in items if accepts(item)]
            told = child.say([f"1 FIND {token} 20 -price . {query}", f"1 FACETS {token} color 1000 {query}", f"1 FACETS {token} none 1000 {query}"])
            self.expect(f"{what}: {query}", told[0], page_of(in_order(found, "-price"), "-price", len(found), 0, 20))
            self.expect(f"{what}: facets of {query}", told[1], counts_of(found, PAGE))
            self.expect(f"{what}: facets that no item has, of {query}", told[2], "OK 0 0")
        some = [items[0], items[len(items) // 2], items[-1]]
        told = child.say([f"1 GET {token} {item.id}" for item in some] + [f"1 GET {token} nobody"])
        self.expect(f"{what}: GET", told, [f"OK {item.text}" for item in some] + ["OK ."])

    def merges(self, child, patience):
        """Says MERGE until nothing is due, and what was answered at last."""
        for _ in range(patience):
            told = child.say(["0 MERGE"] * 100)
            if told[-1] == "OK idle" or told[-1].startswith("NO"):
                return told[-1]
        return told[-1]

    def shape(self, child):
        """The writes, how many segments stand, and the rows and the live rows of all of them."""
        first, *rest = child.ask("0 STAT").split("\n")
        rows = [[int(word) for word in line.split(" ")] for line in rest]
        return int(first.split(" ")[1]), len(rows), sum(row[1] for row in rows), sum(row[2] for row in rows)

    def renewed(self, what, child, token):
        """A token of the same items over the segments that stand now: a DEL of nobody is a write."""
        told = child.say(["1 DEL nobody", "1 REFRESH", f"1 OPEN {token + 1}", f"1 CLOSE {token}", "1 PRUNE 1"])
        self.expect(f"{what}: a new view", told[:4], [f"OK {token + 1}"] * 3 + [f"OK {token}"])
        return token + 1

    def write_folder(self):
        self.folder = self.room / "many"
        self.folder.mkdir()
        per = MAX_ROWS // MAX_SEGMENTS
        self.items = [Item(number) for number in range(1, self.segments * per + 2)]
        for number in range(1, self.segments):
            write_segment(self.folder, number, self.items[(number - 1) * per : number * per])
        # The last one has a row too many at first.
        write_segment(self.folder, self.segments, self.items[(self.segments - 1) * per :])
        write_commit(self.folder, len(self.items), self.segments)

    def open_folder(self, what, schema, token):
        child = self.start("run", str(self.folder))
        told = [child.ask(schema)] + child.say(["1 OPEN"])
        self.expect(f"{what}: opened", told, [f"OK {token}"] * 2)
        return child

    def as_many_segments_as_may_stand(self):
        what, items, token = f"{self.segments} segments", self.items, len(self.items)
        child = self.open_folder(what, schema_line(2 if self.is_long else 100, 1_024), token)
        try:
            self.expect(f"{what}: STAT", self.shape(child), (token, self.segments, token, token))
            self.reads(what, child, token, items)
            if self.segments == MAX_SEGMENTS:
                # One item waits, and no segment can be made of it; all rows together are one too many for one segment.
                told = child.say(['1 PUT {"id":"more"}', "1 REFRESH", "1 DEL more"])
                self.expect(f"{what}: one more", told, [f"OK {token + 1}", "NO 16", f"OK {token + 2}"])
                self.expect(f"{what}: FORCE", child.ask("0 FORCE"), "OK idle")
                token += 2
            self.expect(f"{what}: all merges", self.merges(child, 10_000), "OK idle")
            writes, standing, rows, live = self.shape(child)
            self.expect(f"{what}: merged", (writes, standing < self.segments // 2, rows, live), (token, True, len(items), len(items)))
            if token != len(items):
                child.say(["1 REFRESH", f"1 OPEN {token}"])
            token = self.renewed(f"{what}, merged", child, token)
            self.reads(f"{what}, merged", child, token, items)
            self.expect(f"{what}: the end", child.end(), "status 0")
        finally:
            child.kill()

    def all_of_them_in_one(self):
        """All segments in one, whose rows are as many as one may have."""
        per = MAX_ROWS // MAX_SEGMENTS
        items = self.items[:-1]
        write_segment(self.folder, self.segments, items[-per:])
        write_commit(self.folder, len(items), self.segments)
        what, token, rows = "all in one", len(items), len(items)
        # The next number lies above each that stands in a name.
        number = max(int(name[1:].partition(".")[0].partition("_")[0]) for name in os.listdir(self.folder) if name.startswith("_")) + 1
        child = self.open_folder(what, schema_line(100, 1_024), token)
        try:
            told = [child.ask("0 FORCE")] + child.say(["0 MERGE"] * (-(-rows // 256) + 1))
            steps = [f"OK copied {min(passed, rows)}" for passed in range(256, rows + 256, 256)]
            self.expect(f"{what}: every step", told, [f"OK begun {self.segments}"] + steps + ["OK done"])
            self.expect(f"{what}: STAT", self.shape(child), (token, 1, rows, rows))
            self.reads(f"{what}, held since before", child, token, items)
            token = self.renewed(what, child, token)
            self.reads(what, child, token, items)
            self.expect(f"{what}: COMMIT", child.ask("1 COMMIT in one"), "OK 2")
            self.expect(f"{what}: SWEEP", child.ask("0 SWEEP"), f"OK {2 * self.segments + 1}")
            self.expect(f"{what}: files", sorted(os.listdir(self.folder)), sorted([f"_{number}.seg", f"_{number}.sto", "segments_2"]))
            self.expect(f"{what}: the end", child.end(), "status 0")
        finally:
            child.kill()

    def the_full_segment_again(self):
        items = self.items[:-1]
        what, token = "the full segment", len(items) + 1
        child = self.open_folder(what, schema_line(100, 1_024), token)
        try:
            self.expect(f"{what}: STAT", self.shape(child), (token, 1, len(items), len(items)))
            self.reads(what, child, token, items)
            told = child.say(["0 FORCE", f"1 DEL {items[0].id}", "1 COMMIT a row less", "0 FORCE"])
            self.expect(f"{what}: FORCE", told, ["OK idle", f"OK {token + 1}", "OK 3", "OK begun 1"])
            self.expect(f"{what}: the end", child.end(), "status 0")
        finally:
            child.kill()

    def a_row_less(self):
        """Its live rows are all but the first, as the file says, and as it is read again."""
        items = self.items[1:-1]
        what, token, rows = "a row less", len(items) + 3, len(items) + 1
        names = sorted(os.listdir(self.folder))
        number = int(names[0][1:].partition(".")[0])
        # The merge that was begun left its texts, and no sweep took the commit before.
        wanted = [f"_{number}.seg", f"_{number}.sto", f"_{number}_3.liv", f"_{number + 1}.sto", "segments_2", "segments_3"]
        self.expect(f"{what}: files", names, wanted)
        live = b"CLIV\1" + u64(number) + u64(3) + u32(rows) + b"\xfe" + b"\xff" * (rows // 8 - 1)
        self.expect(f"{what}: live rows", (self.folder / names[2]).read_bytes() == live, True)
        child = self.open_folder(what, schema_line(100, 1_024), token)
        try:
            self.expect(f"{what}: STAT", self.shape(child), (token, 1, rows, rows - 1))
            self.reads(what, child, token, items)
            self.expect(f"{what}: the end", child.end(), "status 0")
        finally:
            child.kill()

    # What takes minutes.

    def a_segment_for_each_write(self):
        child = self.start()
        child.ask('SCHEMA 100 100000 {"color":"facet","none":"facet"}')
        for begin in range(1, 36_001, 1_000):
            lines = []
            for number in range(begin, begin + 1_000):
                lines += [f'1 PUT {{"id":"{number}","color":["{number % 7}"]}}', "1 REFRESH", "1 PRUNE 1"]
            child.say(lines)
        wanted = "\n".join(["OK 36000 7"] + [f"{count} {label}" for label, count in sorted(((str(label), 36_000 // 7 + (1 <= label <= 36_000 % 7)) for label in range(7)), key=lambda entry: (-entry[1], entry[0]))])
        told = child.say(["1 OPEN", "1 FACETS 36000 none 9 *:*", "1 FACETS 36000 color 9 *:*"])
        self.expect("36,000 segments", told, ["OK 36000", "OK 0 0", wanted])
        self.expect("36,000 segments: the end", child.end(), "status 0")


def padded(item, size):
    """The item's JSON, with spaces behind it until it has so many bytes."""
    text = json.dumps(item)
    return text[:-1] + " " * (size - len(text)) + text[-1]


def grouped(clauses, levels):
    """So many clauses, groups counted, in so many groups inside one another; kind:k55 is one of them."""
    terms = [f"kind:k{number}" for number in range(clauses - levels)]
    return "(" * levels + " ".join(terms) + ")" * levels


def difference(found, wanted):
    if isinstance(found, str) and isinstance(wanted, str):
        found, wanted = found.split("\n"), wanted.split("\n")
    if isinstance(found, list) and isinstance(wanted, list):
        for place, (one, other) in enumerate(zip(found, wanted)):
            if one != other:
                return f"{str(one)[:200]!r} at {place}, wanted {str(other)[:200]!r}"
        return f"{len(found)} lines, wanted {len(wanted)}"
    return f"{str(found)[:200]!r}, wanted {str(wanted)[:200]!r}"


def read_arguments():
    built = Path(__file__).resolve().parent.parent / "crates/catalogue/out/catalogue"
    parser = argparse.ArgumentParser(description=__doc__.split("\n\n")[0])
    parser.add_argument("program", nargs="?", default=str(built))
    parser.add_argument("--long", action="store_true", help="what takes minutes, too")
    parser.add_argument("--segments", type=int, default=MAX_SEGMENTS, help="how many segments the folders have (65,536)")
    parser.add_argument("--room", help="where the folders stand (/dev/shm, where it is there)")
    return parser.parse_args()


def main():
    arguments = read_arguments()
    if not os.access(arguments.program, os.X_OK):
        print(f"limits.py: {arguments.program} isn't built (./run builds it)", file=sys.stderr)
        print("0 passed, 1 failed")
        return 1
    memory = "/dev/shm" if os.access("/dev/shm", os.W_OK) else None
    room = Path(tempfile.mkdtemp(prefix="limits-", dir=arguments.room or memory))
    tests = Tests(os.path.abspath(arguments.program), room, arguments.segments, arguments.long)
    try:
        tests.run(tests.the_stack_is_small)
        tests.run(tests.items_ids_and_values)
        tests.run(tests.levels_of_json)
        tests.run(tests.schemas_of_32_fields)
        tests.run(tests.queries_of_64_clauses_in_8_levels)
        tests.run(tests.lines_sessions_and_texts)
        tests.run(tests.views_snapshots_and_waiting_items)
        tests.run(tests.pages_of_1000)
        tests.run(tests.write_folder)
        tests.run(tests.as_many_segments_as_may_stand)
        tests.run(tests.all_of_them_in_one)
        tests.run(tests.the_full_segment_again)
        tests.run(tests.a_row_less)
        if arguments.long:
            tests.run(tests.a_segment_for_each_write)
    finally:
        shutil.rmtree(room)
    print(f"{tests.passed} passed, {tests.failed} failed")
    return 1 if tests.failed or not tests.passed else 0


if __name__ == "__main__":
    sys.exit(main())
