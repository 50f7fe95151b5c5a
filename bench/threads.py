#!/usr/bin/env python3
"""Measures what threads bring: the pace of `run` and of `run --threads`, by turns, and how long a FIND waits beside a merge.

threads.py PROGRAM [--threads 4] [--items 100000] [--lines 200000] [--rounds 5] [--seconds 6] [--folder DIR] [--quiet] [--part PART ..]

Times are the wall's, since it is more than one processor that is asked for: the machine has to be quiet. In the parts `paces` and
`writer` the program reads a file and writes to nowhere, so that nobody else takes a processor; what it takes for the same file
without the lines is taken off. Where other machines have the same processors, `--quiet` lets the part `writer` count what was measured
between two quiet moments alone.
"""

import argparse
import hashlib
import json
import os
import random
import shutil
import statistics
import subprocess
import sys
import tempfile
import threading
import time
from pathlib import Path

from items import COLORS, SCHEMA, Shop

sys.path.insert(0, str(Path(__file__).resolve().parent.parent / "clients" / "python"))
import jasminedome  # noqa: E402

SCHEMA_LINE = f"SCHEMA 10 1000 {SCHEMA}"
PAGE = 20
CHUNK = 1024
SESSIONS = (1, 2, 3, 4)
WRITER = 5  # with five threads it shares none with those that read
MIXES = ((2.8, 0.7), (3.1, 0.6), (2.4, 0.8))  # FINDs in times one thread alone, and the writer's lines in times its pace alone
CALLERS = 8  # threads of the client
LARGEST = 262_144  # rows of the largest segment
LOOKED = 200_000  # lines whose replies are looked at


def load_lines(shop, count, tidies=True):
    """Lines that load so many items, with merges and sweeps between them; with threads these go on by themselves."""
    lines = []
    for number in range(count):
        lines.append(f"0 PUT {shop.text(number)}")
        if tidies and number % 64 == 63:
            lines.append("0 MERGE")
    return lines + (["0 MERGE"] * (count // 16) + ["0 REFRESH", "0 PRUNE 1", "0 SWEEP", "0 COMMIT"] if tidies else ["0 REFRESH"])


def clause(rng, shop):
    """A query of a shop's page: a word of its titles, two colors, and a range of prices."""
    low = rng.randrange(500, 4000)
    colors = " ".join(f"color:{each}" for each in rng.sample(COLORS[:8], 2))
    return f"+title:{shop.pick(shop.words[:60])} +({colors}) +price:[{low} TO {4 * low}]"


def find_lines(sessions, token, count, query):
    """So many FIND lines, the sessions by turns."""
    return [f"{sessions[n % len(sessions)]} FIND {token} {PAGE} +price . {query()}" for n in range(count)]


def cycle_lines(shop, rng, items, token, count, upkeep):
    """So many near-real-time cycles of session 1: ten writes, and a page of them. With threads, upkeep goes on by itself."""
    lines = []
    for _ in range(count):
        lines += [f"1 PUT {shop.text(rng.randrange(items))}" for _ in range(10)]
        token += 10
        lines += ["1 REFRESH", f"1 OPEN {token}", f"1 FIND {token} {PAGE} +price . *:*", f"1 FACETS {token} color 10 *:*", f"1 CLOSE {token}"]
        lines += ["0 MERGE"] * 3 * upkeep + ["1 PRUNE 1"] + ["0 SWEEP"] * upkeep
    return lines


class Moments:
    """Tells quiet moments: those in which no other machine takes anything of this one's processors.

    Where two machines have a thread each of one core, either is slowed to two thirds of its pace while the other works, and no figure of
    the system shows that. What is asked here is a small loop on each processor by itself, and no program that is measured.
    """

    LEAST = 0.93  # the pace of the slowest processor, in times the best that was seen of any
    LONGEST = 1_800  # how many seconds one is waited for

    def __init__(self, has_to_be_quiet):
        self.has_to_be_quiet = has_to_be_quiet
        self.processors, self.data, self.best = sorted(os.sched_getaffinity(0)), bytes(1 << 16), 0
        for _ in range(40 if has_to_be_quiet else 0):
            self.share()

    def share(self, seconds=0.2):
        """The pace of the slowest processor, in times the best that was seen of any."""
        paces = []

        def work(processor):
            os.sched_setaffinity(0, {processor})
            begin, count, took = time.perf_counter(), 0, 0
            while took < seconds:
                hashlib.blake2b(self.data).digest()
                count, took = count + 1, time.perf_counter() - begin
            paces.append(count / took)

        workers = [threading.Thread(target=work, args=(each,)) for each in self.processors]
        for worker in workers:
            worker.start()
        for worker in workers:
            worker.join()
        self.best = max(self.best, *paces)
        return min(paces) / self.best

    def await_one(self):
        """Comes back in a quiet moment."""
        end = time.monotonic() + self.LONGEST
        while self.share(0.1) < self.LEAST:
            if time.monotonic() > end:
                raise SystemExit(f"threads: there was no quiet moment in {self.LONGEST} seconds")
            time.sleep(0.1)

    def between(self, work):
        """What the work answers that stood between two quiet moments, and the list of what it answered before and doesn't count."""
        others = []
        while self.has_to_be_quiet:
            self.await_one()
            found = work()
            if self.share() >= self.LEAST:
                return found, others
            others.append(found)
        return work(), others


class Room:
    """A folder with a loaded catalogue, and copies of it for each run."""

    def __init__(self, program, at, items):
        self.program, self.at, self.items = program, at, items
        self.loaded = os.path.join(at, "loaded")
        os.mkdir(self.loaded)
        self.seconds([], load_lines(Shop(1), items), self.loaded)
        self.token = items

    def seconds(self, words, lines, folder=None, told=subprocess.DEVNULL):
        """How long the program takes for the lines, read from a file."""
        place = folder or shutil.copytree(self.loaded, os.path.join(self.at, "copy"))
        said = os.path.join(self.at, "lines")
        with open(said, "w", encoding="utf-8") as out:
            out.write("\n".join([SCHEMA_LINE, *lines]) + "\n")
        with open(said, "rb") as inp:
            begin = time.perf_counter()
            subprocess.run([self.program, "run", *words, place], stdin=inp, stdout=told, check=True)
            took = time.perf_counter() - begin
        if not folder:
            shutil.rmtree(place)
        return took

    def replies(self, words, lines):
        """What the program tells, by lines. None may be a refusal."""
        with tempfile.TemporaryFile(dir=self.at) as told:
            self.seconds(words, lines, told=told)
            told.seek(0)
            replies = told.read().splitlines()
        for reply in replies:
            if b" NO " in reply[:8] or reply.startswith(b"NO"):
                raise SystemExit(f"threads: a line was answered {reply!r}")
        return replies


def paces(asked, room):
    """The table of paces: lines a second, in the middle of the rounds."""
    rng, shop = random.Random(5), Shop(1)
    kinds = {"run": [], "--threads 1": ["--threads", "1"], f"--threads {asked.threads}": ["--threads", str(asked.threads)]}
    some = len(SESSIONS)
    rows = {
        f"FIND of everything by price, {some} sessions": (SESSIONS, asked.lines, lambda: "*:*"),
        f"FIND by clauses, {some} sessions": (SESSIONS, asked.lines // 8, lambda: clause(rng, shop)),
        "FIND of everything by price, one session": (SESSIONS[:1], asked.lines, lambda: "*:*"),
        "FIND by clauses, one session": (SESSIONS[:1], asked.lines // 8, lambda: clause(rng, shop)),
    }
    found = {}
    for _ in range(asked.rounds):
        opens = [f"{session} OPEN" for session in SESSIONS]
        empty = {kind: room.seconds(words, opens) for kind, words in kinds.items()}
        for row, (sessions, count, query) in rows.items():
            lines = opens + find_lines(sessions, room.token, count, query)
            for kind, words in kinds.items():
                found.setdefault((row, kind), []).append(count / (room.seconds(words, lines) - empty[kind]))
        count = asked.lines // 200
        for kind, words in kinds.items():
            lines = opens + cycle_lines(shop, rng, room.items, room.token, count, not words)
            found.setdefault(("cycles of ten writes and a page, one session", kind), []).append(count / (room.seconds(words, lines) - empty[kind]))
    show(found, kinds, f"a second, in the middle of {asked.rounds} rounds")


def show(found, kinds, head):
    """Prints a table, with each pace in times the first of its row."""
    print(f"| {head} | " + " | ".join(kinds) + " |")
    print("|---|" + "---|" * len(kinds))
    for row in dict.fromkeys(row for row, _ in found):
        middle = [statistics.median(found[row, kind]) for kind in kinds]
        print(f"| {row} | " + " | ".join(f"{each:,.0f} ({each / middle[0]:.2f})" for each in middle) + " |")


class Talk:
    """A running program that is spoken to over pipes."""

    def __init__(self, command):
        self.child = subprocess.Popen(command, stdin=subprocess.PIPE, stdout=subprocess.PIPE, bufsize=0)
        self.inp, self.out = self.child.stdin.fileno(), self.child.stdout.fileno()
        self.ask(SCHEMA_LINE)

    def ask(self, *lines):
        """Says the lines, each once the one before is answered, by one line; answers the last reply."""
        reply = b""
        for line in lines:
            os.write(self.inp, line.encode() + b"\n")
            reply = b""
            while not reply.endswith(b"\n"):
                reply += os.read(self.out, 1 << 16)
            if b" NO " in reply[:12] or reply.startswith(b"NO"):
                raise SystemExit(f"threads: '{line[:60]}' was answered {reply!r}")
        return reply

    def end(self):
        self.child.stdin.close()
        self.child.wait()


def writer_lines(shop, rng, items, count):
    """So many lines of the writer, each eleventh a REFRESH."""
    return [f"{WRITER} REFRESH" if n % 11 == 10 else f"{WRITER} PUT {shop.text(rng.randrange(items))}" for n in range(count)]


def mixed(some, others):
    """Both lists in one, each spread evenly over it."""
    places = [((n + 0.5) / len(lines), line) for lines in (some, others) for n, line in enumerate(lines)]
    return [line for _, line in sorted(places, key=lambda each: each[0])]


def pace_of(room, words, opens, lines, seconds):
    """How many of the lines a second the program answers, over about so many seconds, and what it takes for none."""
    none, count = room.seconds(words, opens), 1_000
    while True:
        took = room.seconds(words, opens + lines[:count]) - none
        if took > seconds / 2 or count == len(lines):
            return count / took, none
        count = min(len(lines), int(count * min(16, seconds / max(took, 0.001))))


def look(replies):
    """Says how evenly FINDs and the writer's lines were answered beside each other."""
    heads = [reply.startswith(b"%d " % WRITER) for reply in replies if reply[1:5] == b" OK "]
    last = {kind: len(heads) - heads[::-1].index(kind) for kind in (False, True)}
    behind = max(sum(kind != other for other in heads[end:]) / sum(kind != other for other in heads) for kind, end in last.items())
    print(f"behind the last line of one kind came at most {100 * behind:.1f} % of the other's")


def beside_writer(asked, room):
    """FIND from four sessions, beside a session that writes and refreshes all the time."""
    # More FINDs than a machine answers in a second, times 2.8 too.
    for kind, most, query in (("of everything by price", 450_000, lambda rng, shop: "*:*"), ("by clauses", 40_000, clause)):
        beside_writer_by(asked, room, kind, most, query)


def beside_writer_by(asked, room, kind, most, query):
    """FIND by one kind of query from four sessions, beside a session that writes and refreshes all the time.

    The file has both kinds of lines, each spread evenly over it: as many as one thread alone answers in some time, times 2.8 say, and
    as many as the writer alone says in it, times 0.7. Where the program takes less for them, it is faster than that.
    """
    rng, shop = random.Random(6), Shop(1)
    words = ["--threads", str(asked.threads + 1)]
    # By their token, since the writer may have recorded newer views before.
    opens = [f"{session} OPEN {room.token}" for session in SESSIONS]
    finds = find_lines(SESSIONS, room.token, most * asked.seconds, lambda: query(rng, shop))
    writes = writer_lines(shop, rng, room.items, 40_000 * asked.seconds)
    found, others = {}, {}
    moments = Moments(asked.quiet)
    for _ in range(asked.rounds):
        one = moments.between(lambda: pace_of(room, [], opens, finds, asked.seconds))[0][0]
        four = moments.between(lambda: pace_of(room, words, opens, finds, asked.seconds))[0][0]
        pen, none = moments.between(lambda: pace_of(room, words, opens, writes, asked.seconds))[0]
        found.setdefault("alone", []).append((one, four, pen))
        for readers, writer in MIXES:
            if len(finds) < readers * one * asked.seconds or len(writes) < writer * pen * asked.seconds:
                raise SystemExit(f"threads: too few lines for {asked.seconds} seconds")
            said = mixed(finds[: int(readers * one * asked.seconds)], writes[: int(writer * pen * asked.seconds)])
            if not found.get((readers, writer)) and (readers, writer) == MIXES[0]:
                look(room.replies(words, opens + said[:LOOKED]))
            pace, more = moments.between(lambda: asked.seconds / (room.seconds(words, opens + said) - none))
            found.setdefault((readers, writer), []).append(pace)
            others.setdefault((readers, writer), []).extend(more)
    one, four, pen = (statistics.median(each) for each in zip(*found["alone"]))
    print(f"FIND {kind} from {len(SESSIONS)} sessions, a second: run {one:,.0f}; {' '.join(words)} {four:,.0f} ({four / one:.2f})")
    print(f"the writer's lines by {' '.join(words)}, a second: {pen:,.0f}")
    for readers, writer in MIXES:
        times, more = found[readers, writer], others[readers, writer]
        middle = statistics.median(times)
        print(f"both, mixed as {readers} and {writer}: {readers * middle:.2f} times FIND {kind} by run, and {writer * middle:.2f} times the writer alone")
        print(f"  in the rounds {pairs(times, readers, writer)}")
        if more:
            print(f"  not counted, since the machine wasn't quiet: {pairs(more, readers, writer)}")


def pairs(times, readers, writer):
    """The paces of both kinds of lines, in times each alone."""
    return ", ".join(f"{readers * each:.2f} and {writer * each:.2f}" for each in times)


def longest_wait(asked, room):
    """The longest step of a merge to the largest segment, and the longest that a FIND waits beside such a merge."""
    lines = load_lines(Shop(4), LARGEST, tidies=False)
    alone = Talk([asked.program, "run"])
    alone.ask(*lines)
    steps, told = [], b""
    alone.ask("0 FORCE")
    while told != b"0 OK done\n":
        begin = time.perf_counter()
        told = alone.ask("0 MERGE")
        steps.append(time.perf_counter() - begin)
    alone.end()
    del lines[-1]
    beside = Talk([asked.program, "run", "--threads", "2"])
    beside.ask(*lines, "0 REFRESH", "1 OPEN")
    waits = {"*:*": [], f"color:{COLORS[0]} price:[100 TO 2000]": []}
    # Session 0 has all merged, and is told that there is nothing to do once that is done.
    os.write(beside.inp, b"0 FORCE\n")
    told = b""
    while b"0 OK idle\n" not in told:
        for query, found in waits.items():
            os.write(beside.inp, f"1 FIND {LARGEST} {PAGE} +price . {query}\n".encode())
            begin, told = time.perf_counter(), b""
            while told.count(b"\n1 ") + told.startswith(b"1 ") <= PAGE:
                told += os.read(beside.out, 1 << 16)
            found.append(time.perf_counter() - begin)
            if b"0 OK " in told and b"0 OK idle\n" not in told:
                os.write(beside.inp, b"0 FORCE\n")
            elif b"0 OK " in told:
                break
    beside.end()
    print(f"merge to {LARGEST:,} rows: {len(steps)} steps, the longest {1000 * max(steps):.1f} ms")
    for query, found in waits.items():
        print(f"FIND {query} beside it: {len(found)} times, the longest wait {1000 * max(found):.1f} ms, in the middle {1000 * statistics.median(found):.2f} ms")


def clients(asked, room):
    """FIND by the Python client, from one of its threads and from eight, by one thread of the program and by more."""
    rng, shop = random.Random(7), Shop(1)
    rows = {
        "everything by price": (8_000, lambda: "*:*"),
        "by clauses": (4_000, lambda: clause(rng, shop)),
        "any of twenty words": (2_000, lambda: " ".join(f"title:{word}" for word in rng.sample(shop.words[:200], 20))),
        "any of sixty words": (1_000, lambda: " ".join(f"title:{word}" for word in rng.sample(shop.words[:200], 60))),
    }
    kinds = {"run": None, f"--threads {asked.threads}": asked.threads}
    found = {}
    for _ in range(asked.rounds):
        for kind, threads in kinds.items():
            place = shutil.copytree(room.loaded, os.path.join(room.at, "copy"))
            with jasminedome.Catalogue(json.loads(SCHEMA), place, 10, 1000, room.program, threads=threads) as catalogue:
                for row, (count, query) in rows.items():
                    for callers in (1, CALLERS):
                        pace = calls(catalogue, [query() for _ in range(count)], callers)
                        found.setdefault((f"`find` {row}, by {'one thread' if callers == 1 else f'{callers} threads'} of the client", kind), []).append(pace)
            shutil.rmtree(place)
    show(found, kinds, f"a second, in the middle of {asked.rounds} rounds")


def calls(catalogue, queries, callers):
    """How many calls of `find` a second so many threads of the client make, each with a view and queries of its own."""

    def work(mine):
        with catalogue.open() as view:
            for query in mine:
                view.find(query, "+price", count=PAGE)

    workers = [threading.Thread(target=work, args=(queries[n::callers],)) for n in range(callers)]
    begin = time.perf_counter()
    for worker in workers:
        worker.start()
    for worker in workers:
        worker.join()
    return len(queries) / (time.perf_counter() - begin)


def main():
    parser = argparse.ArgumentParser("threads.py", description=__doc__.split("\n", maxsplit=1)[0])
    parser.add_argument("program")
    parser.add_argument("--threads", type=int, default=4)
    parser.add_argument("--items", type=int, default=100_000)
    parser.add_argument("--lines", type=int, default=200_000)
    parser.add_argument("--rounds", type=int, default=5)
    parser.add_argument("--seconds", type=int, default=6)
    parser.add_argument("--folder")
    parser.add_argument("--quiet", action="store_true", help="count only what was measured between two quiet moments")
    parts = {"paces": paces, "writer": beside_writer, "wait": longest_wait, "client": clients}
    parser.add_argument("--part", choices=parts, action="append")
    asked = parser.parse_args()
    at = tempfile.mkdtemp(dir=asked.folder)
    try:
        room = Room(asked.program, at, asked.items)
        for name, part in parts.items():
            if name in (asked.part or parts):
                part(asked, room)
    finally:
        shutil.rmtree(at)


if __name__ == "__main__":
    sys.exit(main())
