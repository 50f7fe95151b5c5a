#!/usr/bin/env python3
"""Runs every stored day of lines against built programs: each has to write what is written down, and nothing else.

usage: tests/days.py PROGRAM CHECK        (the catalogue, and catalogue_check)

A day is a text of tests/days, in the form that the README there tells, of tests/pages.py, tests/shown.py or tests/thrown.py, which
work their replies out, or of tests/counted.py, which cuts the same rows into segments in several ways. Where it doesn't say how the
program is started, it is served both in memory and over a new folder. A stored run is the files stdin, args, stdout, status and
data/ beside a program's src/, on which `rt ci` runs it too, or in a folder of tests/stored, for the catalogue. The last line is
`N passed, M failed`: a day counts as one, and so does that texts with a slip in them are refused.
"""

import os
import shutil
import subprocess
import sys
import tempfile
from concurrent.futures import ThreadPoolExecutor
from pathlib import Path

from daytexts import Unreadable, days, refuses_wrong

TOP = Path(__file__).resolve().parent.parent
SECONDS = 120
LANES = 4


def stored_runs(catalogue, check):
    """Of each stored run: what it is called, its program, arguments, input, what it has to write and end with, and its files."""
    programs = {"catalogue": catalogue, "catalogue_check": check}
    homes = [(it.parent.parent, programs.get(it.parent.parent.name)) for it in sorted(TOP.glob("crates/*/src/main.rt"))]
    homes += [(it, catalogue) for it in sorted(TOP.glob("tests/stored/*"))]
    for home, program in homes:
        args, stdin, stdout, status = ((home / it).read_bytes() if (home / it).is_file() else b"" for it in ("args", "stdin", "stdout", "status"))
        yield home.name, program, os.fsdecode(args).splitlines(), stdin, stdout, int(status or b"0"), home / "data"


def differs(what, wrote, wanted):
    at = next((at for at, pair in enumerate(zip(wrote, wanted)) if pair[0] != pair[1]), min(len(wrote), len(wanted)))
    line = wanted[:at].count(b"\n") + 1
    print(f"days: {what} FAILED: from its line {line} on it wrote {wrote[at:][:120]!r}, and not {wanted[at:][:120]!r}")


def run(what, program, words, given, wanted, status, at):
    """Whether the program, started in this folder, writes what is wanted, and ends with the status."""
    if not program:
        print(f"days: {what} FAILED: no program of that name is given")
        return False
    try:
        ran = subprocess.run([program, *words], cwd=at, input=given, stdout=subprocess.PIPE, stderr=subprocess.PIPE, timeout=SECONDS)
    except subprocess.TimeoutExpired:
        print(f"days: {what} FAILED: it hadn't ended after {SECONDS} seconds")
        return False
    if ran.stdout != wanted:
        differs(what, ran.stdout, wanted)
    if ran.returncode != status:
        print(f"days: {what} FAILED: it ended with status {ran.returncode}, and not {status}: {os.fsdecode(ran.stderr)[-200:]}")
    return ran.stdout == wanted and ran.returncode == status


def is_stored_run_kept(name, program, words, given, wanted, status, data):
    with tempfile.TemporaryDirectory(prefix="days-") as room:
        at = Path(room) / "data"
        shutil.copytree(data, at) if data.is_dir() else at.mkdir()
        return run(f"the stored run of {name}", program, words, given, wanted, status, at)


def is_start_kept(what, program, start, room):
    """Whether one start of the program is answered as its day says."""
    for name, content in start.files:
        (room / name).write_bytes(content)
    ways = [start.words]
    if start.words is None:
        new = tempfile.mkdtemp(prefix="new-", dir=room)
        ways = [[], ["run", new]]
    rest = b"".join(start.lines), b"".join(start.replies), start.status(), room
    return all([run(" ".join([what, *words]), program, words, *rest) for words in ways])


def is_day_kept(program, day):
    """Whether the day is, from its first start to its last. They have one room, in which there is an empty folder `shop`."""
    with tempfile.TemporaryDirectory(prefix="days-") as room:
        (Path(room) / "shop").mkdir()
        return all([is_start_kept(f"{day.place} {day.title}", program, it, Path(room)) for it in day.starts])


def main():
    if len(sys.argv) != 3:
        print(__doc__, file=sys.stderr)
        return 2
    catalogue, check = (str(Path(it).resolve()) for it in sys.argv[1:])
    try:
        written = days()
    except Unreadable as fault:
        print(f"days: tests/days/{fault}")
        print("0 passed, 1 failed")
        return 1
    kept = [refuses_wrong()]
    if not kept[0]:
        print("days: a text with a slip in it is read as a day")
    with ThreadPoolExecutor(LANES) as lanes:
        kept += lanes.map(lambda it: is_stored_run_kept(*it), stored_runs(catalogue, check))
        kept += lanes.map(lambda it: is_day_kept(catalogue, it), written)
    print(f"{sum(kept)} passed, {len(kept) - sum(kept)} failed")
    return 0 if all(kept) else 1


if __name__ == "__main__":
    sys.exit(main())
