#!/usr/bin/env python3
"""Tells the stored days of lines to sessions in threads, which have to be answered as one thread answers them.

usage: tests/callers.py PROGRAM        (the catalogue)

A merger and a warmer work beside the threads of `run --threads`, so each day of tests/days that is served in memory is told
twice:

- to one thread, in one write. Each reply is the day's. Where a step of a merge is quicker than the day's own line for it, the
  day is told once more, so only a day that asks for upkeep may take more than one try.
- to three threads over a new folder, each line behind the reply to the one before. Each reply is the day's, but those to a line
  that asks for upkeep, or for the files that are left of it, and isn't refused.

Threads make no set of rows for a query that is asked for the first time. So of a day that asks for sets, the first doesn't
compare what WARM and STAT tell. That sets come for queries that are asked again, 64 at most, and that pages are the same with them and
without, is tried apart. The last line is `N passed, M failed`: a day counts twice.
"""

import re
import subprocess
import sys
import tempfile
import time
from concurrent.futures import ThreadPoolExecutor
from pathlib import Path

from chores import BETWEEN, TOLD
from days import LANES, SECONDS
from daytexts import days
from limits import Broken, Child

# What is told to these lines hangs on what the merger and the warmer have done meanwhile.
UPKEEP = re.compile(rb"\d+ (MERGE|FORCE|WARM|SWEEP|STAT|FILES)\b")
SETS = re.compile(rb"\d+ (WARM|STAT)\b")
ASKS_FOR_SETS = re.compile(rb"\d+ WARM\b")
# How often a day that asks for upkeep is told. Its lines take less time than an idle merger rests, so one try is mostly enough.
TRIES = 200


def given():
    """Of each day that is served in memory: what it shows, its lines, and their replies."""
    for day in days():
        for start in day.starts:
            if start.words is None and not start.is_refused() and start.lines[-1].endswith(b"\n"):
                yield f"{day.place} {day.title}", start.lines, start.replies


def is_begun(line, reply):
    """Whether the line asks for upkeep, or for the files that are left of it, and isn't refused."""
    return bool(UPKEEP.match(line)) and b" NO " not in reply


def told_at_once(program, lines):
    """What each of the lines is answered by one thread. A line that is no command stands behind each, so that replies can be told apart."""
    text = b"".join(line + BETWEEN for line in lines)
    ran = subprocess.run([program, "run", "--threads", "1"], input=text, stdout=subprocess.PIPE, stderr=subprocess.PIPE, timeout=SECONDS)
    *replies, rest = ran.stdout.split(TOLD)
    return replies if rest == b"" and ran.returncode == 0 else []


def other_reply(lines, told, wanted, left_out):
    """The first line that is answered otherwise than is wanted, with that answer, or None."""
    if len(told) != len(wanted):
        return f"{len(lines)} lines were answered by {len(told)} replies"
    for line, one, other in zip(lines, told, wanted):
        if one != other and not left_out(line, other):
            return f"to {line[:80]!r} came {one[:120]!r}, and not {other[:120]!r}"
    return None


def is_told_at_once(program, what, lines, wanted):
    """Whether one thread answers just the day's replies, within the tries that the day may take."""
    asks_for_sets = any(map(ASKS_FOR_SETS.match, lines))
    tries = TRIES if any(map(is_begun, lines, wanted)) else 1
    for _ in range(tries):
        other = other_reply(lines, told_at_once(program, lines), wanted, lambda line, _: asks_for_sets and SETS.match(line))
        if other is None:
            return True
    print(f"callers: {what} FAILED on one thread, {tries} times, at last since {other}")
    return False


def told_in_turn(program, folder, lines):
    """What each of the lines is answered by three threads, where it is told behind the reply to the one before."""
    child = Child(program, "run", "--threads", "3", folder)
    told = []
    for line in lines:
        session, _, _ = line[:-1].partition(b" ")
        reply = child.ask(line[:-1])
        front = b"" if session == b"SCHEMA" or reply.startswith("? ") else session + b" "
        told.append(b"".join(front + it.encode() + b"\n" for it in reply.split("\n")))
    ended = child.end()
    if ended != "status 0":
        raise Broken(f"it ended with {ended}")
    return told


def is_told_in_turn(program, what, lines, wanted):
    """Whether three threads over a folder answer the day's replies."""
    with tempfile.TemporaryDirectory(prefix="callers-") as folder:
        try:
            other = other_reply(lines, told_in_turn(program, folder, lines), wanted, is_begun)
        except Broken as broken:
            other = str(broken)
    if other is not None:
        print(f"callers: {what} FAILED on three threads: {other}")
    return other is None


def sets_of(child):
    """How many sets of rows there are."""
    return int(child.ask("0 STAT").split()[5])


def has_page(child, number):
    """Whether the page of the query of this number is right: the one item has the first number's word."""
    return child.ask(f"1 FIND 1 9 . . title:w{number}") == ("OK 1 1\n1 a ." if number == 1 else "OK 0 0")


def gets_set(child, number):
    """Whether the query is answered alike until a set is made for it, of which there are 64 at most."""
    for _ in range(TRIES):
        if not has_page(child, number):
            return False
        if sets_of(child) == min(number, 64):
            return True
        time.sleep(0.001)
    return False


def are_sets_made(program, threads):
    """Whether threads make sets for the queries that they are asked again, and answer alike by them, and once their segment is gone."""
    child = Child(program, "run", "--threads", threads)
    try:
        opened = [child.ask(it) for it in ('SCHEMA 2 1 {"title":"text"}', '1 PUT {"id":"a","title":"w1"}', "1 REFRESH", "1 OPEN")]
        kept = opened == ["OK 0", "OK 1", "OK 1", "OK 1"] and all(gets_set(child, number) for number in range(1, 67))
        # The first query's set is made anew while its segment goes.
        kept = kept and all(has_page(child, 1) for _ in range(TRIES)) and child.ask("1 DEL a") == "OK 2"
        kept = kept and child.ask("0 FORCE").startswith("OK ") and all(has_page(child, 1) for _ in range(TRIES)) and sets_of(child) <= 64
        kept = kept and child.end() == "status 0"
    except Broken as broken:
        print(f"callers: {broken}")
        kept = False
    finally:
        child.kill()
    if not kept:
        print(f"callers: sets for queries that are asked again FAILED on {threads} threads")
    return kept


def main():
    if len(sys.argv) != 2:
        print(__doc__, file=sys.stderr)
        return 2
    program = str(Path(sys.argv[1]).resolve())
    found = list(given())
    if not found:
        print("callers: no day of the tests was found")
    with ThreadPoolExecutor(LANES) as lanes:
        kept = list(lanes.map(lambda it: is_told_at_once(program, *it), found))
        kept += lanes.map(lambda it: is_told_in_turn(program, *it), found)
    kept += [are_sets_made(program, threads) for threads in ("1", "3")]
    print(f"{sum(kept)} passed, {len(kept) - sum(kept) + (not found)} failed")
    return 0 if kept and all(kept) else 1


if __name__ == "__main__":
    sys.exit(main())
