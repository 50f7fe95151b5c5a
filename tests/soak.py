#!/usr/bin/env python3
"""Has eight callers draw lines for minutes against `run --threads`, kills the program at random, and compares every reply.

soak.py [PROGRAM] [--minutes 10] [--threads 4] [--seed N] [--life 20]

The callers are threads of the Python client, each under sessions of its own; none waits for another. The one list of writes is made
of the numbers that were told: each once, rising for each caller. A read has to tell what a plain model tells after just the writes
of its token. The program is killed after some seconds, at most --life, and opened again: it has to open with no fewer writes than
each COMMIT had that was answered OK, and with the items that the list has at that number. A write that was sent and not answered may
stand in the list or not: where a number wasn't told, some such write has to fit.
"""

import argparse
import itertools
import json
import os
import random
import signal
import sys
import tempfile
import threading
import time
from pathlib import Path

TOP = Path(__file__).resolve().parent.parent
sys.path.insert(0, str(TOP / "clients" / "python" / "tests"))

import support  # noqa: E402  before the package: it finds it
import fake_catalogue  # noqa: E402
from test_threads import COLORS, IDS, THREADS, Told, Worker, any_item, any_query  # noqa: E402

import jasminedome  # noqa: E402

GONE = (jasminedome.ProgramEnded, jasminedome.BadReply)


class Mismatch(Exception):
    """What the program told isn't what the model says."""


class Caller(Worker):
    """One thread's lines. What it sent of a write and wasn't told is `pending`."""

    def __init__(self, shop, told, seed, newest):
        super().__init__(shop, told, seed)
        self.newest = newest
        self.pending = None
        self.committed = newest  # a number of writes that an answered COMMIT has
        del self.operations[self.put_many]  # whose items needn't have numbers in a row here

    def run_until(self, ended):
        names, weights = list(self.operations), list(self.operations.values())
        try:
            while not ended.is_set():
                self.chance.choices(names, weights)[0]()
        except GONE:
            pass  # it was killed
        except BaseException as error:
            self.told.faults.append(repr(error))

    def say(self, call, what, text):
        self.pending = (what, text)
        self.wrote(call(text), what, text)
        self.pending = None

    def put(self):
        self.say(self.shop.put, "put", json.dumps(any_item(self.chance), ensure_ascii=False))

    def delete(self):
        self.say(self.shop.delete, "del", self.chance.choice(IDS))

    def delete_where(self):
        color = jasminedome.term("color", self.chance.choice(COLORS))
        self.say(self.shop.delete_where, "delw", str(jasminedome.all_of(color, any_query(self.chance))))

    def commit(self):
        known = self.newest
        self.shop.commit("soak")
        self.committed = max(self.committed, known)
        with self.shop.snapshot():
            pass


class Model:
    """The table after the first writes of a list, and the views of the tokens that were read."""

    def __init__(self, table, writes):
        self.fake = fake_catalogue.Fake(support.FIELDS)
        self.fake.table, self.fake.writes = dict(table), writes

    def write(self, what, text):
        return getattr(self.fake, f"do_{what}")(0, text)

    def record(self):
        token = self.fake.writes
        self.fake.records[token] = list(self.fake.table.values())
        self.fake.holds.add((0, token))

    def answer(self, what, arguments):
        try:
            return getattr(self.fake, f"do_{what}")(0, *arguments)
        except fake_catalogue.No as no:
            return (no.args[0], no.args[1] if len(no.args) > 1 else None)


def judge(base, told, opened, pending):
    """Compares what was told in a life with the model, and answers the table after `opened` writes."""
    table, first = base
    missing = [n for n in range(first + 1, max([opened, *told.writes]) + 1) if n not in told.writes]
    if len(missing) > len(pending):
        raise Mismatch(f"the writes {missing} weren't told, and {len(pending)} were sent without a reply")
    for order in itertools.permutations(pending, len(missing)):
        model = Model(table, first)
        found = fits(model, {**told.writes, **dict(zip(missing, order))}, told.reads, opened)
        if isinstance(found, dict):
            return found
    raise Mismatch(found)


def fits(model, writes, reads, opened):
    """The table after `opened` writes, where each read fits the list; else what doesn't."""
    tokens, first = {token for token, *_ in reads}, model.fake.writes
    table = dict(model.fake.table) if opened == first else None
    for number in range(first, max([first, opened, *writes]) + 1):
        if number > first and model.write(*writes[number]) != [number]:
            return f"the write {number} can't be one: {writes[number]}"
        if number in tokens:
            model.record()
        if number == opened:
            table = dict(model.fake.table)
    for token, what, arguments, reply in reads:
        wanted = model.answer(what, arguments)
        if reply != wanted:
            return f"{what} {arguments} was told {reply}, and is {wanted}"
    return table


def items_of(shop):
    """Id, number and text of each item of the newest view."""
    with shop.open() as view:
        return [(hit.id, hit.number, view.source(hit.id)) for hit in view.find(count=1_000).hits]


def live(program, folder, threads, base, chance, life):
    """One life of the program, from its opening to a kill; answers what was told, what was pending, and what has to be committed."""
    told, ended = Told(), threading.Event()
    with support.shop(program, folder=folder, threads=threads) as shop:
        callers = [Caller(shop, told, chance.random(), base[1]) for _ in range(THREADS)]
        workers = [threading.Thread(target=each.run_until, args=(ended,)) for each in callers]
        for each in workers:
            each.start()
        time.sleep(chance.uniform(0.2, life))
        os.kill(shop.pid, signal.SIGKILL)
        ended.set()
        for each in workers:
            each.join()
    if told.faults:
        raise Mismatch(told.faults)
    return told, [each.pending for each in callers if each.pending], max(each.committed for each in callers)


def soak(program, minutes, threads, seed, life):
    chance, until, lives = random.Random(seed), time.monotonic() + 60 * minutes, 0
    writes = reads = 0
    with tempfile.TemporaryDirectory() as folder:
        base = {}, 0
        while time.monotonic() < until:
            told, pending, committed = live(program, folder, threads, base, chance, life)
            with support.shop(program, folder=folder) as shop:
                opened, items = shop.opened_at, items_of(shop)
            if opened < committed:
                raise Mismatch(f"a COMMIT of at least {committed} writes was answered, and it opens with {opened}")
            table = judge(base, told, opened, pending)
            if items != [(name, number, text) for name, (number, _, text) in table.items()]:
                raise Mismatch(f"it opens with other items than the list has after {opened} writes")
            base = table, opened
            lives, writes, reads = lives + 1, writes + len(told.writes), reads + len(told.reads)
            print(f"soak: life {lives}: {len(told.writes)} writes, {len(told.reads)} reads, opens with {opened}", flush=True)
    return lives, writes, reads


def main():
    parser = argparse.ArgumentParser("soak.py", description=__doc__.split("\n")[0])
    parser.add_argument("program", nargs="?", default=str(TOP / "run"))
    parser.add_argument("--minutes", type=float, default=10)
    parser.add_argument("--threads", type=int, default=4)
    parser.add_argument("--seed", type=int, default=random.randrange(10**6))
    parser.add_argument("--life", type=float, default=20)
    asked = parser.parse_args()
    print(f"soak: seed {asked.seed}", flush=True)
    try:
        lives, writes, reads = soak(asked.program, asked.minutes, asked.threads, asked.seed, asked.life)
    except Mismatch as mismatch:
        print(f"soak: {mismatch}")
        return 1
    print(f"soak: {lives} lives, {writes} writes, {reads} reads, all as the one list has them")
    return 0


if __name__ == "__main__":
    sys.exit(main())
