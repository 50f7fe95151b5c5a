#!/usr/bin/env python3
"""One large day over a folder: what the parts do at their limits together, in one program, held against plain lists.

usage: tests/large.py PROGRAM

1,100 segments are written without a merge, with 77,000 items that have a label each and some of which are 8 KB long; held,
counted and searched; thinned by a query; merged into one; swept; written on to 120,000 writes; committed, and opened again. The
last line is `N passed, M failed`.
"""

import collections
import json
import sys
import tempfile
from pathlib import Path

from limits import Broken, Child

SCHEMA = 'SCHEMA 10 1024 {"brand":"keyword","label":"facet","price":"number","title":"text"}'
SEGMENTS, IN_EACH, WRITES = 1_100, 70, 120_000
SESSIONS = 5_001
LONGEST = 8_192


def item(number):
    """The item of this number: all have a label of their own, every third one also a common one, and every 500th is as long as an item may be."""
    made = {"id": f"i{number}", "brand": f"b{number % 50}", "price": number % 1_000, "label": [f"own {number}"] + ["common"] * (number % 3 == 0)}
    text = json.dumps(made | {"title": f"word{number % 100}"})
    return text + " " * (LONGEST - len(text)) if number % 500 == 0 else text


class Day:
    """The program over the folder, the items that live, and how many checks passed."""

    def __init__(self, program, folder):
        self.program, self.folder = program, folder
        self.child, self.alive, self.writes = None, {}, 0
        self.passed = self.failed = 0

    def open(self, wanted):
        self.child = Child(self.program, "run", str(self.folder))
        self.holds("opening", self.child.ask(SCHEMA), wanted)

    def close(self):
        self.holds("its end", self.child.end(), "status 0")

    def holds(self, what, told, wanted):
        if told == wanted:
            self.passed += 1
        else:
            self.failed += 1
            print(f"large: {what} FAILED: {told[:200]!r}, and not {wanted[:200]!r}")

    def put(self, numbers):
        """Puts these items, each of which is accepted."""
        replies = self.child.say([f"1 PUT {item(number)}" for number in numbers])
        first = self.writes + 1
        self.writes += len(numbers)
        self.alive.update((number, self.writes - len(numbers) + at) for at, number in enumerate(numbers, 1))
        self.holds("puts", "\n".join(replies), "\n".join(f"OK {at}" for at in range(first, self.writes + 1)))

    def delete(self, numbers):
        replies = self.child.say([f"1 DEL i{number}" for number in numbers])
        first = self.writes + 1
        self.writes += len(numbers)
        for number in numbers:
            del self.alive[number]
        self.holds("deletes", "\n".join(replies), "\n".join(f"OK {at}" for at in range(first, self.writes + 1)))

    def view(self):
        """A hold of the newest table."""
        self.holds("a refresh", self.child.ask("1 REFRESH"), f"OK {self.writes}")
        self.holds("an open", self.child.ask("1 OPEN"), f"OK {self.writes}")
        return self.writes

    def read(self, token):
        """Holds pages, counts and texts under the token against the items that live."""
        total = len(self.alive)
        newest = sorted(self.alive, key=lambda number: (-(number % 1_000), self.alive[number]))[:20]
        rows = [f"{self.alive[number]} i{number} {number % 1_000}" for number in newest]
        self.holds("a page by price", self.child.ask(f"1 FIND {token} 20 -price . *:*"), "\n".join([f"OK 20 {total}", *rows]))
        some = sorted((number for number in self.alive if number % 50 == 7), key=self.alive.get)
        rows = [f"{self.alive[number]} i{number} ." for number in some[:9]]
        self.holds("a page of a brand", self.child.ask(f"1 FIND {token} 9 . . brand:b7"), "\n".join([f"OK {len(rows)} {len(some)}", *rows]))
        counts = collections.Counter(f"own {number}" for number in self.alive)
        counts["common"] = sum(number % 3 == 0 for number in self.alive)
        first = sorted(counts, key=lambda label: (-counts[label], label.encode()))[:5]
        rows = [f"{counts[label]} {label}" for label in first]
        self.holds("counts of labels", self.child.ask(f"1 FACETS {token} label 5 *:*"), "\n".join([f"OK {total} {len(counts)}", *rows]))
        for number in (next(it for it in self.alive if it % 500 == 0), max(self.alive)):
            self.holds("a text", self.child.ask(f"1 GET {token} i{number}"), f"OK {item(number)}")

    def merge(self):
        """Says MERGE until nothing is due."""
        for _ in range(WRITES):
            told = self.child.ask("0 MERGE")
            if told == "OK idle":
                return
            if not told.startswith("OK "):
                break
        self.holds("merges", told, "OK idle")

    def files(self):
        return len(list(self.folder.iterdir()))


def serve(day):
    day.open("OK 0")
    for at in range(SEGMENTS):
        day.put(range(at * IN_EACH, (at + 1) * IN_EACH))
        day.holds("a refresh", day.child.ask("1 REFRESH"), f"OK {day.writes}")
    day.holds("the files of all segments", str(day.files()), str(2 * SEGMENTS))
    first = day.view()
    day.read(first)

    day.holds("a delete by query", day.child.ask("1 DELW brand:b5"), f"OK {day.writes + 1}")
    day.writes += 1
    before = dict(day.alive)
    day.alive = {number: at for number, at in day.alive.items() if number % 50 != 5}
    second = day.view()
    day.read(second)
    day.alive, after = before, day.alive
    day.read(first)
    day.alive = after

    opened = day.child.say([f"{session} OPEN" for session in range(1, SESSIONS + 1)])
    day.holds("many opens", "\n".join(set(opened)), f"OK {second}")
    closed = day.child.say([f"{session} CLOSE {second}" for session in range(2, SESSIONS + 1)])
    day.holds("many closes", "\n".join(set(closed)), f"OK {second}")

    day.holds("a forced merge", day.child.ask("0 FORCE"), f"OK begun {SEGMENTS}")
    day.merge()
    day.read(second)
    for token in (first, second):
        day.holds("a close", day.child.ask(f"1 CLOSE {token}"), f"OK {token}")
    # The live set of the merged segment has 75,460 rows, of which some die now. The view of a new token is of that segment.
    day.delete([number for number in after if number % 1_000 == 1])
    third = day.view()
    day.child.ask("0 PRUNE 0")
    day.holds("a sweep", day.child.ask("0 SWEEP"), f"OK {2 * SEGMENTS}")
    day.read(third)
    left = WRITES - day.writes
    day.put(range(SEGMENTS * IN_EACH, SEGMENTS * IN_EACH + left))
    fourth = day.view()
    day.read(fourth)
    day.holds("a commit", day.child.ask("1 COMMIT large"), "OK 1")
    day.merge()
    day.put([1_000_000])
    day.close()
    # What wasn't committed is gone.
    del day.alive[1_000_000]
    day.writes -= 1
    day.open(f"OK {day.writes}")
    day.read(day.view())
    day.close()


def main():
    if len(sys.argv) != 2:
        print(__doc__, file=sys.stderr)
        return 2
    with tempfile.TemporaryDirectory(prefix="large-") as room:
        day = Day(str(Path(sys.argv[1]).resolve()), Path(room))
        try:
            serve(day)
        except Broken as broken:
            day.failed += 1
            print(f"large: FAILED: {broken}")
    print(f"{day.passed} passed, {day.failed} failed")
    return 1 if day.failed else 0


if __name__ == "__main__":
    sys.exit(main())
