#!/usr/bin/env python3
"""Measures how the program grows with its catalogue, and writes a table and a plot.

growth.py PROGRAM [--sizes 10000,100000,1000000] [--folder DIR] [--out growth] [--rounds 5]
growth.py --show growth

Writes OUT.json, OUT.md and OUT.svg; with --show the table and the plot are made again of OUT.json.
Times are the processor's, user and system, of the program alone, and those of the fastest round; a machine that is busy with
something else lengthens them less than the wall's. The folder is made in DIR (the system's place for temporary files).
"""

import argparse
import json
import os
import platform
import random
import shutil
import sys
import tempfile
import time

import plot
from child import Child, Refused
from items import SCHEMA, Shop, name

SCHEMA_LINE = f"SCHEMA 10 1000 {SCHEMA}"
# As many items wait before the program writes a segment of them.
CHUNK = 1024
# A line of merging for so many writes: enough to keep up.
MERGE_EVERY = 64
TIDY_EVERY = 16 * CHUNK
PAGE = 20
# Of a load line by line, the lines that may be the longest: seconds by the wall.
LONG = 0.0005


def say(text):
    print(text, file=sys.stderr, flush=True)


def expect(found, wanted, what):
    if found != wanted:
        raise Refused(f"{what}: '{found}', wanted '{wanted}'")


def make_merges(writes):
    return ["0 MERGE"] * (writes // MERGE_EVERY)


def tidy_lines():
    """A view of now, and none else; and the files that nobody needs then go."""
    return ["1 REFRESH", "1 PRUNE 1", "0 SWEEP"]


def settle(child):
    """Merges until nothing is due, and lets go of what was replaced."""
    while child.ask("0 MERGE") != "0 OK idle":
        pass
    for line in tidy_lines():
        child.ask(line)


# Rows of the table.


def load(child, shop, count):
    """Puts the items in batches with merges kept up. Gives seconds of the processor for the puts, and for the upkeep."""
    puts = upkeep = 0.0
    for begin in range(0, count, CHUNK):
        size = min(CHUNK, count - begin)
        lines = [f"2 PUT {shop.text(number)}" for number in range(begin, begin + size)]
        replies, cpu = child.batch(lines)
        expect(replies[-1], f"2 OK {begin + size}", "the last of a batch of PUT")
        puts += cpu
        chores = make_merges(CHUNK)
        if (begin + CHUNK) % TIDY_EVERY == 0:
            chores += tidy_lines()
        upkeep += child.batch(chores)[1]
    before = child.cpu()
    settle(child)
    return puts, upkeep + child.cpu() - before


def fastest(child, rounds, make, count, check=None):
    """The processor's seconds for a line, in the fastest of the rounds."""
    best = float("inf")
    for _ in range(rounds):
        replies, cpu = child.batch([make() for _ in range(count)])
        if check:
            check(replies)
        best = min(best, cpu / count)
    return best


def check_gets(replies):
    for reply in replies:
        if not reply.startswith('1 OK {"id":"item'):
            raise Refused(f"GET was answered '{reply}'")


def check_pages(count):
    def check(replies):
        for reply in replies[:: PAGE + 1]:
            expect(reply, f"1 OK {PAGE} {count}", "FIND")

    return check


def measure_reads(child, rng, count, rounds):
    """GET, pages in three orders, and counts, the first time and again, under a view of all items."""
    token = child.ask("1 OPEN").split(" ")[2]
    pages = check_pages(count)
    first = child.timed(f"1 FACETS {token} color 10 *:*")[1]
    rows = {
        "GET": fastest(child, rounds, lambda: f"1 GET {token} {name(rng.randrange(count))}", 3000, check_gets),
        "FIND .": fastest(child, rounds, lambda: f"1 FIND {token} {PAGE} . . *:*", 300, pages),
        "FIND +price": fastest(child, rounds, lambda: f"1 FIND {token} {PAGE} +price . *:*", 300, pages),
        "FIND +brand": fastest(child, rounds, lambda: f"1 FIND {token} {PAGE} +brand . *:*", 300, pages),
        "FACETS first": first,
        "FACETS color": fastest(child, rounds, lambda: f"1 FACETS {token} color 10 *:*", 300),
    }
    child.ask(f"1 CLOSE {token}")
    return rows


def measure_refresh(child, shop, rng, count, rounds):
    """A REFRESH behind ten writes, by itself: one line to and fro."""
    best = float("inf")
    for _ in range(10 * rounds):
        for _ in range(10):
            child.ask(f"2 PUT {shop.text(rng.randrange(count))}")
        best = min(best, child.timed("2 REFRESH")[1])
        settle(child)
    return best


def measure_cycles(child, shop, rng, count, rounds):
    """A write that a reader sees at once: PUT, REFRESH, OPEN, FIND, CLOSE, ten times in one batch; merges between, not timed."""
    best = float("inf")
    token = int(child.ask("1 REFRESH").split(" ")[2])
    for _ in range(10 * rounds):
        lines = []
        for _ in range(10):
            token += 1
            lines += [f"2 PUT {shop.text(rng.randrange(count))}", "2 REFRESH", "4 OPEN"]
            lines += [f"4 FIND {token} {PAGE} . . *:*", f"4 CLOSE {token}"]
        replies, cpu = child.batch(lines)
        expect(replies[-1], f"4 OK {token}", "the last CLOSE of ten cycles")
        expect(replies[3], f"4 OK {PAGE} {count}", "FIND in a cycle")
        best = min(best, cpu / 10)
        settle(child)
    return best


def measure_opening(program, folder, count, rounds):
    """Opens the folder anew. Gives milliseconds of the processor and of the wall, and the memory that it takes."""
    times, memory = [], 0.0
    for _ in range(rounds):
        child = Child(program, folder, SCHEMA_LINE)
        times.append(child.opening)
        child.ask("1 OPEN")
        replies, _ = child.batch([f"1 FIND {child.token} {PAGE} . . *:*"])
        expect(replies[0], f"1 OK {PAGE} {count}", "FIND after opening")
        memory = child.memory()[0]
        child.end()
    return {"opening": min(cpu for cpu, _ in times), "opening wall": min(wall for _, wall in times), "opened memory": memory}


class Longest:
    """The longest line of each command, by the processor and by the wall."""

    def __init__(self):
        self.found = {}

    def note(self, kind, cpu, wall):
        old = self.found.get(kind, (0.0, 0.0))
        self.found[kind] = (max(old[0], cpu), max(old[1], wall))


def measure_longest(program, folder, seed, count):
    """A load line by line, each sent when the one before is answered, with merges kept up by lines between."""
    child, shop, longest = Child(program, folder, SCHEMA_LINE), Shop(seed), Longest()

    def ask(line):
        reply, cpu, wall = child.timed(line, LONG)
        kind = line.split(" ", 2)[1]
        if kind == "MERGE":
            kind += " " + reply.split(" ")[2]
        longest.note(kind, cpu, wall)
        return reply

    for number in range(count):
        ask(f"2 PUT {shop.text(number)}")
        if number % MERGE_EVERY == MERGE_EVERY - 1:
            ask("0 MERGE")
        if number % TIDY_EVERY == TIDY_EVERY - 1:
            for line in tidy_lines():
                ask(line)
    while ask("0 MERGE") != "0 OK idle":
        pass
    child.end()
    return longest.found


def in_folder(parent, work):
    """Does the work in a fresh folder, which goes afterwards."""
    folder = tempfile.mkdtemp(prefix="growth-", dir=parent)
    try:
        return work(folder)
    finally:
        shutil.rmtree(folder)


def measure(program, folder, count, rounds, seed):
    """All rows of one size but the longest line."""
    rng, shop = random.Random(seed + 1), Shop(seed)
    child = Child(program, folder, SCHEMA_LINE)
    puts, upkeep = load(child, shop, count)
    rows = {"PUT": puts / count, "upkeep": upkeep / count}
    rows.update(measure_reads(child, rng, count, rounds))
    rows["loaded memory"] = child.memory()[0]
    _, cpu, wall = child.timed("1 COMMIT")
    rows["COMMIT"], rows["COMMIT wall"] = cpu, wall
    rows["REFRESH"] = measure_refresh(child, shop, rng, count, rounds)
    rows["cycle"] = measure_cycles(child, shop, rng, count, rounds)
    child.ask("1 COMMIT")
    rows["peak memory"] = child.memory()[0]
    child.end()
    rows["folder"] = sum(entry.stat().st_size for entry in os.scandir(folder)) / 2**20
    rows.update(measure_opening(program, folder, count, rounds))
    return rows


# The table.


def short(value):
    return f"{value:,.0f}" if value >= 100 else f"{value:.1f}" if value >= 10 else f"{value:.2f}"


MICRO, MILLI, ONE = 1e6, 1e3, 1
ROWS = (
    ("PUT, µs a line", "PUT", MICRO),
    ("merges kept up, µs a written item", "upkeep", MICRO),
    ("REFRESH behind ten PUTs, µs", "REFRESH", MICRO),
    ("GET, µs", "GET", MICRO),
    ("FIND `.` of everything, 20 shown, µs", "FIND .", MICRO),
    ("PUT, REFRESH, OPEN, FIND `.`, CLOSE together, µs", "cycle", MICRO),
    ("FIND `+price` of everything, 20 shown, µs", "FIND +price", MICRO),
    ("FIND `+brand` of everything, 20 shown, µs", "FIND +brand", MICRO),
    ("FACETS of 40 colors over everything, the first, µs", "FACETS first", MICRO),
    ("FACETS of 40 colors over everything, again, µs", "FACETS color", MICRO),
    ("the first COMMIT, ms", "COMMIT", MILLI),
    ("the first COMMIT, ms by the wall", "COMMIT wall", MILLI),
    ("opening the folder, ms", "opening", MILLI),
    ("opening the folder, ms by the wall", "opening wall", MILLI),
    ("memory when it is opened, MB", "opened memory", ONE),
    ("peak memory of load and reads, MB", "loaded memory", ONE),
    ("peak memory of all of this, MB", "peak memory", ONE),
    ("the folder's files at its end, MB", "folder", ONE),
)


def table(results):
    sizes = sorted(results["sizes"], key=int)
    lines = ["| items | " + " | ".join(f"{int(size):,}" for size in sizes) + " |", "|---" * (len(sizes) + 1) + "|"]
    for label, key, unit in ROWS:
        cells = [short(results["sizes"][size]["rows"][key] * unit) for size in sizes]
        lines.append(f"| {label} | " + " | ".join(cells) + " |")
    kinds = sorted({kind for size in sizes for kind in results["sizes"][size]["longest"]})
    for kind in kinds:
        cells = []
        for size in sizes:
            found = results["sizes"][size]["longest"].get(kind)
            cells.append(f"{short(found[0] * MILLI)} ({short(found[1] * MILLI)})" if found else "-")
        lines.append(f"| longest {kind} of a load, ms, by the wall in brackets | " + " | ".join(cells) + " |")
    return "\n".join(lines) + "\n"


def write_out(out, results):
    with open(f"{out}.json", "w") as file:
        json.dump(results, file, indent=1)
        file.write("\n")
    with open(f"{out}.md", "w") as file:
        file.write(table(results))
    with open(f"{out}.svg", "w") as file:
        file.write(plot.draw(results))


def processor():
    with open("/proc/cpuinfo") as info:
        return next((line.split(": ")[1].strip() for line in info if line.startswith("model name")), platform.machine())


def read_arguments():
    parser = argparse.ArgumentParser(description=__doc__, formatter_class=argparse.RawDescriptionHelpFormatter)
    parser.add_argument("program", nargs="?")
    parser.add_argument("--sizes", default="10000,100000,1000000")
    parser.add_argument("--folder", help="where the folders of the measurement are made")
    parser.add_argument("--out", default="growth", help="the files' name without its ending")
    parser.add_argument("--rounds", type=int, default=5)
    parser.add_argument("--seed", type=int, default=1)
    parser.add_argument("--show", metavar="OUT", help="make the table and the plot of OUT.json again, and measure nothing")
    arguments = parser.parse_args()
    if bool(arguments.show) == bool(arguments.program):
        parser.error("name the program, or --show what was measured")
    return arguments


def main():
    arguments = read_arguments()
    if arguments.show:
        with open(f"{arguments.show}.json") as file:
            write_out(arguments.show, json.load(file))
        return
    results = {"processor": processor(), "cores": os.cpu_count(), "seed": arguments.seed, "rounds": arguments.rounds, "sizes": {}}
    for count in map(int, arguments.sizes.split(",")):
        begun, load_before = time.time(), os.getloadavg()[0]
        rows = in_folder(
            arguments.folder, lambda folder: measure(arguments.program, folder, count, arguments.rounds, arguments.seed)
        )
        longest = in_folder(
            arguments.folder, lambda folder: measure_longest(arguments.program, folder, arguments.seed, count)
        )
        results["sizes"][str(count)] = {"rows": rows, "longest": longest, "load": [load_before, os.getloadavg()[0]]}
        write_out(arguments.out, results)
        say(f"growth.py: {count:,} items in {time.time() - begun:.0f} s")
    print(table(results), end="")


if __name__ == "__main__":
    main()
