"""Reads the days of tests/days: texts of lines that the catalogue is told, and of the replies that a person worked out.

tests/days/README.md tells the form. Whatever hasn't it is an error with its file and line, so that no typo drops a line: a
marker that isn't known, a reply that isn't spelled as one, a line without a reply, a day without a line, a part that no day
takes in.
"""

import re
import shlex
from dataclasses import dataclass, field
from pathlib import Path
from typing import Optional

import counted
import pages
import shown
import thrown

FOLDER = Path(__file__).resolve().parent / "days"
# What the program is told first where a day doesn't say so itself, and the reply.
SHOP = 'SCHEMA 2 1 {"brand":"keyword","color":"facet","price":"number","title":"text"}'
OPENED = "OK 0"
# How a reply begins, or a further line of one.
REPLY = re.compile(r"(OK|NO|\?|[0-9]{1,4}) [^ ]")
REPEAT = re.compile(r"repeat ([0-9]+)\.\.([0-9]+)")
ESCAPE = re.compile(rb"\\(?:x([0-9a-f]{2})|\{(.*?)\*([0-9]+)\}|(.?))")
LETTERS = {b"\\": b"\\", b"s": b" ", b"t": b"\t", b"r": b"\r", b"n": b"\n"}
# Behind this in a text no line feed follows.
CUT = b"\\c"
# What a plain text may not have, since it isn't seen, or is lost in an editor.
UNSEEN = re.compile(r"[\x00-\x1f\x7f-\xa0\u2028\u2029\ufeff]| $")


class Unreadable(Exception):
    """A text that isn't a day's."""


@dataclass
class Start:
    """A start of the program: its arguments, or None where it is to be tried both in memory and over a new folder; the files that
    are written before it; the lines that it is told; and the replies."""

    words: Optional[list]
    files: list = field(default_factory=list)
    lines: list = field(default_factory=list)
    replies: list = field(default_factory=list)

    def is_refused(self):
        """Whether the first line is, so that the program ends by status 2, and what follows gets no reply."""
        return bool(self.replies) and self.replies[0].startswith(b"NO ")

    def status(self):
        return 2 if self.is_refused() else 0


@dataclass
class Day:
    """What it shows, where it stands, and the starts of the program, one after another."""

    title: str
    place: str
    starts: list = field(default_factory=list)


def unescaped(text):
    """The bytes of a text with escapes."""

    def meant(found):
        if found[1]:
            return bytes([int(found[1], 16)])
        if found[3]:
            return found[2] * int(found[3])
        if found[4] not in LETTERS:
            raise Unreadable(f"there is no escape {found[0].decode()}")
        return LETTERS[found[4]]

    return ESCAPE.sub(meant, text.encode())


def plain(text):
    """The bytes of a text that stands as it is."""
    if UNSEEN.search(text):
        raise Unreadable("a space at the end, or a character that isn't seen, is written as an escape")
    return text.encode()


class Reader:
    """Makes a day of its lines."""

    def __init__(self, day):
        self.day = day
        self.files = []

    def start(self, words):
        self.day.starts.append(Start(words, self.files))
        self.files = []

    def is_begun(self):
        return bool(self.day.starts) and not self.files

    def told(self, line):
        """A line that is told, whose last one has its reply."""
        start = self.day.starts[-1]
        if start.lines and not start.lines[-1].endswith(b"\n"):
            raise Unreadable(r"no line stands behind one that ends by \c")
        if len(start.replies) < len(start.lines) and not start.is_refused():
            raise Unreadable("the line before has no reply")
        if b"\n" in line[:-1]:
            raise Unreadable("a line has no line feed")
        start.lines.append(line)

    def first(self, line):
        """A first line in place of the shop's."""
        if not self.is_begun() or self.day.starts[-1].lines:
            self.start(None)
        self.told(line)

    def said(self, line):
        if not self.is_begun():
            self.start(None)
        if not self.day.starts[-1].lines:
            self.told(f"{SHOP}\n".encode())
            self.reply(OPENED.encode())
        self.told(line)

    def reply(self, line):
        start = self.day.starts[-1] if self.is_begun() else Start(None)
        if not start.lines or len(start.lines) > 1 and start.is_refused():
            raise Unreadable("a reply stands below its line, and none behind a refused first line")
        if len(start.replies) < len(start.lines):
            start.replies.append(b"")
        start.replies[-1] += line + b"\n"

    def take(self, line):
        """Takes a line of the day's text."""
        mark, _, text = line.partition(" ")
        if mark in (">", "@"):
            (self.said if mark == ">" else self.first)(plain(text) + b"\n")
        elif mark in (">\\", "@\\"):
            is_cut = text.endswith(CUT.decode())
            sent = unescaped(text[:-2]) if is_cut else unescaped(text) + b"\n"
            (self.said if mark[0] == ">" else self.first)(sent)
        elif mark == "<\\":
            self.reply(unescaped(text))
        elif mark == "$":
            self.ended()
            self.start(shlex.split(text))
        elif mark == "+":
            name, _, content = text.partition(" ")
            self.files.append((name, unescaped(content)))
        elif REPLY.match(line):
            self.reply(plain(line))
        else:
            raise Unreadable("this is neither a mark that is known nor a reply")

    def ended(self):
        """Fails unless what was begun is whole."""
        for start in self.day.starts:
            if not start.lines:
                raise Unreadable("a start of the program is told nothing")
            if len(start.replies) < len(start.lines) and not start.is_refused():
                raise Unreadable("the last line has no reply")


def blocks(text):
    """Of each day and each part of a text: its mark, its name, and its lines with their numbers."""
    found = []
    for number, line in enumerate(text.split("\n"), 1):
        if line.startswith(("== ", "=: ")):
            found.append((line[:2], line[3:], number, []))
        elif line == "" or line.startswith("-- "):
            continue
        elif not found:
            raise Unreadable(f"{number}: this stands in no day")
        else:
            found[-1][3].append((number, line))
    return found


def expanded(lines, parts, taken):
    """The lines, with those of each part in its place, and what is repeated as often as it says."""
    flat = []
    for number, line in lines:
        if not line.startswith(": "):
            flat.append((number, line))
        elif line[2:] not in parts:
            raise Unreadable(f"{number}: no part before is called {line[2:]!r}")
        else:
            taken.add(line[2:])
            flat += parts[line[2:]]
    whole, repeated, span = [], [], None
    for number, line in flat:
        opened = REPEAT.fullmatch(line)
        if opened and span is None:
            span = range(int(opened[1]), int(opened[2]) + 1)
        elif line == "end" and span is not None:
            if not repeated or not span:
                raise Unreadable(f"{number}: nothing is repeated")
            whole += [(at, it.replace("{n}", str(n))) for n in span for at, it in repeated]
            repeated, span = [], None
        else:
            (whole if span is None else repeated).append((number, line))
    if span is not None:
        raise Unreadable(f"{number}: what is repeated has no end")
    return whole


def read(name, text):
    """The days of a text."""
    days, parts, taken = [], {}, set()
    for mark, title, number, lines in blocks(text):
        lines = expanded(lines, parts, taken)
        if mark == "=:":
            if title in parts or not lines:
                raise Unreadable(f"{number}: a part of this name stands before, or this one is empty")
            parts[title] = lines
            continue
        day = Day(title, f"{name}:{number}")
        reader = Reader(day)
        for number, line in lines:
            try:
                reader.take(line)
            except (Unreadable, ValueError) as fault:
                raise Unreadable(f"{number}: {fault}: {line[:60]}") from None
        try:
            reader.ended()
        except Unreadable as fault:
            raise Unreadable(f"{number}: {fault}") from None
        if not day.starts or reader.files:
            raise Unreadable(f"{number}: this day tells the program nothing, or ends in a file")
        days.append(day)
    if not days or set(parts) - taken:
        raise Unreadable(f"1: there is no day here, or no day takes in {sorted(set(parts) - taken)}")
    if len({day.title for day in days}) < len(days):
        raise Unreadable("1: two days have one title")
    return days


def days():
    """Every day, in the order of the files."""
    found = []
    files = sorted(FOLDER.glob("*"))
    texts = [(it.name, it.read_bytes()) for it in files if it.suffix == ".txt"]
    texts += [(f"{it.__name__}.py", it.text().encode()) for it in (counted, pages, shown, thrown)]
    others = [it.name for it in files if it.suffix != ".txt" and it.name != "README.md"]
    if others:
        raise Unreadable(f"tests/days has files of no days: {others}")
    for name, text in texts:
        try:
            if not text.endswith(b"\n"):
                raise Unreadable("1: the last line has no line feed")
            found += read(name, text[:-1].decode())
        except (Unreadable, UnicodeDecodeError) as fault:
            raise Unreadable(f"{name}:{fault}") from None
    return found


RIGHT = "== a\n> 1 OPEN\n1 OK 0\n> 1 CLOSE 0\n1 OK 0"
# Changes of that text, each of which makes a text that isn't a day's.
WRONG = (
    ("> 1 C", ">1 C"),
    ("> 1 C", " > 1 C"),
    ("> 1 C", "* 1 C"),
    ("> 1 C", ">\\ 1 \\q"),
    ("OPEN", "OPEN "),
    ("1 OP", "1\tOP"),
    ("1 OK 0\n>", ">"),
    ("CLOSE 0\n1 OK 0", "CLOSE 0"),
    ("CLOSE 0", "CLOSE 0\n-remark"),
    ("CLOSE 0", "CLOSE 0\n: no part"),
    ("CLOSE 0", "CLOSE 0\n$ run shop"),
    ("CLOSE 0", "CLOSE 0\nrepeat 1..2"),
    ("== a", "== a\n== b"),
    ("== a", "= a"),
    ("== a", "=: a"),
    ("== a", "== a\n@ SCHEMA 1 1 {}\nNO 10"),
)


def refuses_wrong():
    """Whether the text is read, and is refused with any of the changes."""

    def is_read(text):
        try:
            return len(read("", text)) == 1
        except Unreadable:
            return False

    return is_read(RIGHT) and not any(is_read(RIGHT.replace(*change, 1)) for change in WRONG)
