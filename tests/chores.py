#!/usr/bin/env python3
"""Puts a line of upkeep behind every line of the days of tests/days, one at a time: no read, no write and no right to a view may be
answered otherwise for it.

usage: tests/chores.py PROGRAM        (the catalogue)

Merges, sets in the making, sweeps and commits change which files and segments there are, and nothing that a session is told of
the table. So for each day of lines, each place in it, and each of five lines of upkeep, the day is served with that line there,
and the replies to its other lines are compared with those of the day as it stands, which tests/days.py holds against what is
wanted. In a long day most places are alike: there the first and the last few of those that are alike are tried. The last line is
`N passed, M failed`: a day with one line of upkeep, at all of its places, counts as one.
"""

import re
import subprocess
import sys
from collections import defaultdict
from concurrent.futures import ThreadPoolExecutor
from pathlib import Path

from days import SECONDS
from daytexts import days

UPKEEP = ("MERGE", "FORCE", "WARM", "SWEEP", "COMMIT")
# What is told of the table, of a write, or of a right: the words of lines whose replies may not change.
COMPARED = re.compile(rb"\d+ (FIND|FACETS|GET|PUT|DEL|DELW|REFRESH|OPEN|CLOSE)\b")
# A line with a session and no command is answered so and changes nothing: it stands between replies, whose lines it counts off.
BETWEEN, TOLD = b"9876 NOTHING\n", b"9876 NO 10\n"
# A day of so many lines has one of upkeep behind each of them. Longer days are of limits, and say one thing of a thousand ids.
MOST_LINES = 400
# Of places in a longer day that are alike, so many are tried from the first on, and as many up to the last.
FEW = 4
# Days of more bytes have lines of megabytes, and aren't tried.
MOST_BYTES = 100_000
# Texts of thousands of reads, whose days themselves cut the same rows into segments in several ways, aren't tried either.
OF_MANY_READS = ("shown.py", "thrown.py")
NUMBER = re.compile(rb"\d+")


def replies(program, lines):
    """What each of the lines is answered, the first of which is a schema line."""
    text = b"".join(line + BETWEEN for line in lines)
    ran = subprocess.run([program], input=text, stdout=subprocess.PIPE, stderr=subprocess.PIPE, timeout=SECONDS)
    return ran.stdout.split(TOLD)[:-1]


def places(lines):
    """Behind which lines one of upkeep is put. Places are alike where the lines around them are, but for their numbers."""
    if len(lines) <= MOST_LINES:
        return range(len(lines))
    alike = defaultdict(list)
    for at, around in enumerate(zip(lines, [*lines[1:], b""])):
        alike[tuple(NUMBER.sub(b"0", it) for it in around)].append(at)
    return sorted({at for them in alike.values() for at in [*them[:FEW], *them[-FEW:]]})


def changed(program, lines, wanted, at, upkeep):
    """The first line that is answered otherwise where the line of upkeep stands behind the one at this place, or None."""
    told = replies(program, [*lines[: at + 1], b"0 %s\n" % upkeep.encode(), *lines[at + 1 :]])
    del told[at + 1 : at + 2]
    if len(told) != len(wanted):
        return "some line, whose reply is missing"
    return next((line for line, one, other in zip(lines, told, wanted) if COMPARED.match(line) and one != other), None)


def is_kept(program, what, lines, upkeep):
    """Whether the day is answered alike with the line of upkeep at any of its places."""
    wanted = replies(program, lines)
    if len(wanted) != len(lines):
        print(f"chores: {what} FAILED: {len(lines)} lines were answered by {len(wanted)} replies")
        return False
    for at in places(lines):
        line = changed(program, lines, wanted, at, upkeep)
        if line is not None:
            print(f"chores: {what} FAILED: behind {lines[at]!r} 0 {upkeep} changes what is answered to {line!r}")
            return False
    return True


def given():
    """Of each day that is served in memory: what it shows, and its lines."""
    for day in days():
        for start in day.starts:
            lines = start.lines
            is_told = len(lines) > 1 and sum(map(len, lines)) <= MOST_BYTES and not day.place.startswith(OF_MANY_READS)
            if start.words is None and is_told and not start.is_refused() and lines[-1].endswith(b"\n"):
                yield f"{day.place} {day.title}", lines


def main():
    if len(sys.argv) != 2:
        print(__doc__, file=sys.stderr)
        return 2
    program = str(Path(sys.argv[1]).resolve())
    tried = [(what, lines, upkeep) for what, lines in given() for upkeep in UPKEEP]
    with ThreadPoolExecutor(2) as lanes:
        kept = list(lanes.map(lambda it: is_kept(program, *it), tried))
    if not tried:
        print("chores: no day of the tests was found")
    print(f"{sum(kept)} passed, {len(kept) - sum(kept) + (not tried)} failed")
    return 0 if tried and all(kept) else 1


if __name__ == "__main__":
    sys.exit(main())
