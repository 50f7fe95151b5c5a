#!/usr/bin/env python3
"""Days of lines that a die throws, the same at each run: each reply of the program has to be that of a catalogue in plain lists.

usage: tests/thrown_days.py PROGRAM        (the catalogue)

The plain catalogue is the stand-in of the Python client's tests, which shares nothing with the program: it keeps the table as a list
and looks at each item of it for each read. Three sessions write, record, hold and read few items, so that items are put again and
deleted, tokens are gone or not held, and marks are dead; some lines are wrong on purpose. Behind each line but a few stands one of
upkeep, for the program alone. A day is told to the program in memory, over a folder, which is then opened again, and to three
threads. tests/random_days.py has longer days of more values, and isn't part of the gate. The last line is
`N passed, M failed`.
"""

import subprocess
import sys
from pathlib import Path

from chores import BETWEEN, TOLD
from limits import Child
from thrown import Dice
from tries import expect, run

sys.path.insert(0, str(Path(__file__).resolve().parent.parent / "clients" / "python" / "tests"))
sys.dont_write_bytecode = True

import fake_catalogue  # noqa: E402

SECONDS = 60
USAGE = "usage: tests/thrown_days.py PROGRAM"
SCHEMA = 'SCHEMA 2 1 {"brand":"keyword","color":"facet","price":"number","title":"text"}'
# How many days there are, of so many lines each, and how many of them are told over a folder, whose commits take time, and to threads.
DAYS, LINES, OVER_A_FOLDER, IN_THREADS = 6, 1_700, 2, 3

IDS = "abcdefgh"
# What an item has beside its id. The last is refused.
MEMBERS = (
    "",
    ',"price":7',
    ',"price":-3,"brand":"x"',
    ',"brand":"y","color":["red"]',
    ',"color":["blue","red"],"title":"Red shoe"',
    ',"title":"wool sock","price":7,"color":[]',
    ',"brand":7',
)
# Queries, of which the last is none.
QUERIES = (
    "*:*",
    "color:red",
    "*:* -color:red",
    "price:[* TO 5] brand:y",
    "+title:sho* color:blue",
    "title:sock brand:[a TO x]",
    "(price:7 color:blue) -brand:x",
    "price:x",
)
# Queries of what is deleted, of items that a further clause matches too.
DELETED = ("+color:red price:7 color:red", "+*:* -color:red price:7 color:red", "+price:[* TO 5] brand:y price:7 color:red")
# By titles nothing is sorted, and brands aren't counted.
SORTS = (".", "+price", "-price", "+brand", "-brand", "+title")
DIMENSIONS = ("color", "color", "color", "brand")
# What each day has to have: each command with an OK, and these refusals.
KINDS = {f"{name} OK" for name in ("PUT", "DEL", "DELW", "REFRESH", "OPEN", "CLOSE", "PRUNE", "FIND", "FACETS", "GET")}
KINDS |= {"PUT 13", "OPEN 21", "CLOSE 20", "FIND 20", "FIND 23", "FIND 24", "FIND 28", "FACETS 20", "FACETS 24", "FACETS 29", "GET 20"}


class Thrown(Dice):
    """Lines of one day. `tokens` are the newest four that were recorded, the newest first."""

    def __init__(self, seed):
        super().__init__(seed)
        self.tokens = [0] * 4

    def below(self, sides):
        return self.pick(range(sides))

    def line(self):
        session = (1, 2, 3)[self.below(3)]
        kind = self.below(9)
        thrown = (self.write, self.write, self.write, self.hold, self.hold, self.find, self.find, self.facets, self.get)[kind]
        return f"{session} {thrown()}"

    def write(self):
        name, members, kind = self.pick(IDS), self.pick(MEMBERS), self.below(8)
        if kind > 1:
            return f'PUT {{"id":"{name}"{members}}}'
        return f"DELW {self.pick(DELETED)}" if kind else f"DEL {name}"

    def hold(self):
        token, kind = self.pick(self.tokens), self.below(6)
        if kind == 2:
            return f"PRUNE {self.below(4)}"
        return {0: f"OPEN {token}", 1: f"CLOSE {token}", 3: "OPEN"}.get(kind, "REFRESH")

    def find(self):
        """A page, whose mark is none, or the number of a write not long before the token."""
        token, count, sort, query = self.pick(self.tokens), self.below(5), self.pick(SORTS), self.pick(QUERIES)
        mark = "." if self.below(3) else max(0, token - self.below(12))
        return f"FIND {token} {count} {sort} {mark} {query}"

    def facets(self):
        return f"FACETS {self.pick(self.tokens)} {self.pick(DIMENSIONS)} {self.below(4)} {self.pick(QUERIES)}"

    def get(self):
        return f"GET {self.pick(self.tokens)} {self.pick(IDS)}"


class Day:
    """Lines with their replies by the plain catalogue. Behind a line stands one of upkeep, whose reply is None: it has to be an OK."""

    def __init__(self, seed):
        self.plain = fake_catalogue.Fake(fake_catalogue.read_schema(SCHEMA))
        self.lines, self.replies, self.kinds = [], [], set()
        thrown = Thrown(seed)
        for number in range(LINES):
            line = thrown.line()
            reply = fake_catalogue.reply(self.plain, line.encode())
            self.say(line, reply)
            self.count(line, reply, thrown)
            self.keep_up(number)

    def say(self, line, reply):
        self.lines.append(line)
        self.replies.append(reply)

    def count(self, line, reply, thrown):
        command = line.split()[1]
        told = reply.split()
        self.kinds.add(f"{command} OK" if told[1] == b"OK" else f"{command} {told[2].decode()}")
        if command == "REFRESH" and told[1] == b"OK":
            thrown.tokens = [int(told[2]), *thrown.tokens[:3]]

    def keep_up(self, number):
        """What is due behind the line of this number."""
        chores = {0: "SWEEP", 7: "COMMIT"} | dict.fromkeys((3, 4, 8, 9), "MERGE") | dict.fromkeys((1, 2, 6, 10, 11), "WARM")
        due = "FORCE" if number % 60 == 5 else chores.get(number % 12)
        if due:
            self.say(f"0 {due}", None)


def days(count):
    """So many days, each by its number."""
    return ((seed, Day(seed)) for seed in range(1, count + 1))


def is_so(told, wanted):
    return told.startswith(b"0 OK ") if wanted is None else told == wanted


def compare(what, lines, told, wanted):
    expect(f"{what}: how many replies there are", len(told), len(wanted))
    for number, (line, one, other) in enumerate(zip(lines, told, wanted), 2):
        if not is_so(one, other):
            expect(f"{what}, line {number}, {line}", one, b"0 OK .." if other is None else other)


def told_at_once(program, words, lines):
    """What is answered to the schema line, and to each of the lines. A line that is no command stands behind each."""
    text = b"".join(it.encode() + b"\n" + BETWEEN for it in (SCHEMA, *lines))
    ran = subprocess.run([program, *words], input=text, stdout=subprocess.PIPE, timeout=SECONDS)
    *replies, rest = ran.stdout.split(TOLD)
    expect("how it ended, and what it said at last", (ran.returncode, rest), (0, b""))
    return replies[0], replies[1:]


def has_sets(stat):
    """Whether sets of rows stand in the cache, so that replies were compared that came from them."""
    return int(stat.split()[6]) > 0


class Try:
    def __init__(self, room, program):
        self.room, self.program = room, program

    def tell(self, what, day, words):
        """Tells the day, and then asks for what stands: its sets too have to be there."""
        lines, wanted = [*day.lines, "0 STAT"], [*day.replies, None]
        opened, told = told_at_once(self.program, words, lines)
        expect(f"{what}: the schema line", opened, b"OK 0\n")
        compare(what, lines, told, wanted)
        expect(f"{what}: whether sets of rows stand", has_sets(told[-1]), True)


def every_kind_of_line_and_of_mistake_comes(try_):
    found = [KINDS - day.kinds for _, day in days(DAYS)]
    expect("what a day lacks", found, [set()] * DAYS)


def in_memory_each_reply_is_the_plain_one(try_):
    for seed, day in days(DAYS):
        try_.tell(f"day {seed} in memory", day, ())


def over_a_folder_each_reply_is_the_plain_one(try_):
    """And behind a last commit a second run finds the table."""
    for seed, day in days(OVER_A_FOLDER):
        folder, what = str(try_.room.folder()), f"day {seed} over a folder"
        day.say("0 COMMIT", None)
        try_.tell(what, day, ("run", folder))
        opened, told = told_at_once(try_.program, ("run", folder), found_again(day.plain.writes))
        plain = day.plain
        plain.holds.clear()
        plain.do_refresh(1)
        wanted = [fake_catalogue.reply(plain, line.encode()) for line in found_again(plain.writes)]
        expect(f"{what}: the schema line of the second run", opened, b"OK %d\n" % plain.writes)
        compare(f"{what}, in the second run", found_again(plain.writes), told, wanted)


def found_again(token):
    """Lines that ask for all that a newest table has."""
    pages = [f"1 FIND {token} 9 {sort} . {query}" for sort in SORTS for query in QUERIES]
    counts = [f"1 FACETS {token} color 9 {query}" for query in QUERIES]
    return ["1 OPEN", *pages, *counts, *(f"1 GET {token} {name}" for name in IDS)]


def in_threads_each_reply_is_the_plain_one(try_):
    """Each line is told behind the reply to the one before, so that writes have their numbers."""
    for seed, day in days(IN_THREADS):
        # One of them over a folder, the others in memory.
        folder = [str(try_.room.folder())] if seed == 1 else []
        child = Child(try_.program, "run", "--threads", "3", *folder)
        try:
            expect("the schema line", child.ask(SCHEMA), "OK 0")
            told = [with_session(line, child.ask(line)) for line in day.lines]
            compare(f"day {seed} in threads", day.lines, told, day.replies)
            expect("how it ended", child.end(), "status 0")
        finally:
            child.kill()


def with_session(line, reply):
    """The reply as it came: the session's number stands before each of its lines."""
    session = line.split()[0]
    return "".join(f"{session} {it}\n" for it in reply.split("\n")).encode()


TESTS = (
    every_kind_of_line_and_of_mistake_comes,
    in_memory_each_reply_is_the_plain_one,
    over_a_folder_each_reply_is_the_plain_one,
    in_threads_each_reply_is_the_plain_one,
)


if __name__ == "__main__":
    sys.exit(run("thrown_days", USAGE, Try, TESTS))
