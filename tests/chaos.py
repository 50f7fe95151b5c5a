#!/usr/bin/env python3
"""Kills replicas of a log, their programs and PostgreSQL at random, while others write and page through it; then compares all.

usage: tests/chaos.py [PROGRAM] [--items N] [--seconds S] [--seed N]    (by hand: it takes a minute or two, and every processor)

Eight writers put their share of the items and then go on changing, deleting and breaking them, in batches under keys of
which some are said twice. Visitors page through the newest anchor, and note what they are shown; one of them over HTTP, from
services that are killed too. In the end every acknowledged batch has to be in the log once, at its position and in its
writer's order; every replica has to show what a plain model of the log shows, and the same bytes as the others under equal
tokens; and whatever a visitor was shown under a token has to be one thing, whoever answered. The last line is `chaos.py: ..`
with the figures, and the status 0 where all is so.
"""

import argparse
import hashlib
import json
import multiprocessing
import os
import random
import re
import shutil
import signal
import subprocess
import sys
import tempfile
import time
from collections import defaultdict
from dataclasses import dataclass, field
from pathlib import Path

TOP = Path(__file__).resolve().parent.parent
sys.path[:0] = [str(TOP / "bench"), str(TOP / "clients" / "python" / "tests" / "replicas")]

import items  # noqa: E402
import replicated  # noqa: E402
from cluster import Cluster, wanting  # noqa: E402
from serving import PYTHON, Server  # noqa: E402

from jasminedome.replicas import Log, Mark, NoReplica, Shelves, TokenLost  # noqa: E402

FIELDS = json.loads(items.SCHEMA)
LOG = "chaos"
SORTS = (".", "+price", "-brand", "+stock")
QUERIES = ("*:*", "color:red", "+stock:[50 TO *] -color:blue")
PAGE = 200
PATIENCE = 120  # seconds in which PostgreSQL and replicas come back
EVERY = "5000,5"
PULSE = "0.5s,3s,20s"
WHERE = re.compile(r"DELW \+color:(\w+) \+stock:\[(\d+) TO \*\] \+price:\[\* TO (\d+)\]\Z")


class Mismatch(Exception):
    """What was found isn't what it should be."""


def require(is_so, what):
    if not is_so:
        raise Mismatch(what)


# Who writes, and who reads.


class Writer:
    """Puts its share of the ids for the first time, then goes on changing any of them."""

    def __init__(self, dsn, number, given):
        self.chance = random.Random(given.seed * 1_000 + number)
        self.shop = items.Shop(given.seed * 1_000 + number)
        self.log = Log(dsn, LOG, PATIENCE)
        self.number, self.items, self.batch = number, given.items, given.batch
        self.share = list(range(number, given.items, given.writers))
        self.told, self.again, self.written = [], 0, 0

    def line(self):
        if self.share:
            return f"PUT {self.shop.text(self.share.pop())}"
        kind = self.chance.random()
        if kind < 0.85:
            return f"PUT {self.shop.text(self.chance.randrange(self.items))}"
        if kind < 0.93:
            return f"DEL {items.name(self.chance.randrange(self.items * 2))}"
        return 'PUT {"id":"bad","price":"cheap"}' if kind < 0.97 else "PUT {nojson"

    def where(self):
        color, stock, price = self.chance.choice(items.COLORS), self.chance.randrange(100), self.chance.randrange(2_000)
        return f"DELW +color:{color} +stock:[{stock} TO *] +price:[* TO {price}]"

    def write(self):
        is_first = bool(self.share)
        lines = [self.line() for _ in range(self.batch)]
        if not is_first and self.chance.random() < 0.02:
            lines.append(self.where())
        key = f"writer {self.number} {len(self.told)}"
        position = self.log.append(lines, key=key)
        self.told.append((key, position))
        self.written += len(lines)
        if self.chance.random() < 0.05:
            self.again += 1
            require(self.log.append(lines, key=key) == position, f"{key} was appended twice")


def write(dsn, number, given, until, out):
    writer = Writer(dsn, number, given)
    while time.monotonic() < until or writer.share:
        writer.write()
    out.put((number, writer.told, writer.again, writer.written, time.monotonic()))


@dataclass
class Seen:
    """What a visitor was shown: of each read all the digests of its reply."""

    digests: dict = field(default_factory=lambda: defaultdict(set))
    lost: int = 0
    reads: int = 0
    sessions: int = 0
    moved: int = 0
    longest: float = 0.0
    longest_over_http: float = 0.0
    services: int = 0


def visit(addresses, number, until, out):
    chance, seen = random.Random(number), Seen()
    shelves = Shelves(addresses, patience=30)
    while time.monotonic() < until:
        try:
            visit_once(shelves, chance, seen, until)
        except (TokenLost, NoReplica) as error:
            print(f"chaos.py: a visitor lost the page: {error}", file=sys.stderr)
            seen.lost += 1
    seen.moved = shelves.moved
    seen.digests = dict(seen.digests)
    out.put(seen)


def visit_once(shelves, chance, seen, until):
    """Pages through the newest anchor by one sort and query, and counts colors beside each page."""
    token = shelves.open().token
    sort, query, after = chance.choice(SORTS), chance.choice(QUERIES), "."
    seen.sessions += 1
    while time.monotonic() < until:
        page = read(shelves, seen, f"FIND {token} {PAGE} {sort} {after} {query}", lambda told: int(told.split(" ")[0]))
        read(shelves, seen, f"FACETS {token} color 50 {query}", lambda told: min(50, int(told.split(" ")[1])))
        if len(page) - 1 < PAGE:
            break
        after = page[-1].split(" ", 1)[0]
        time.sleep(chance.random() * 0.1)


def read(shelves, seen, line, more):
    begun = time.monotonic()
    told = shelves.read([(line, more)])[0]
    seen.longest = max(seen.longest, time.monotonic() - begun)
    seen.reads += 1
    seen.digests[line].add(digest(told))
    return told


class Guest:
    """A visitor over HTTP. The service is its own, and is killed again and again: the next one goes on under the token."""

    def __init__(self, dsn, number, seen):
        self.dsn, self.chance, self.seen = dsn, random.Random(number), seen
        self.server = None

    def visit(self, until):
        """Does what `visit_once` does, in the words of HTTP."""
        sort, query, token, after = self.chance.choice(SORTS), self.chance.choice(QUERIES), None, None
        self.seen.sessions += 1
        while time.monotonic() < until:
            asked = {"query": query, "count": PAGE, "after": after, "facets": ["color"], "labels": 50, "items": False}
            told = self.search(token, {**asked, **({} if sort == "." else {"sort": sort})})
            if told is None:
                return
            token, after = told["token"], told["next"]
            if after is None:
                break
            if self.chance.random() < 0.1:
                self.end()
            time.sleep(self.chance.random() * 0.1)

    def search(self, token, asked):
        """An answer, noted as the lines that a replica answers; None where the token is gone."""
        begun = time.monotonic()
        while True:
            try:
                status, told = self.service().ask("POST", "/search" + ("" if token is None else f"?token={token}"), asked)
            except OSError as error:
                status, told = 503, error
            if status in (200, 410) or time.monotonic() > begun + PATIENCE:
                break
            time.sleep(0.2)
        if status != 200:
            print(f"chaos.py: a visitor lost the page over HTTP: {status} {told}", file=sys.stderr)
            self.seen.lost += 1
            return None
        self.note(told, asked)
        self.seen.longest_over_http = max(self.seen.longest_over_http, time.monotonic() - begun)
        return told

    def note(self, told, asked):
        hits, counts, token, query = told["hits"], told["facets"]["color"], told["token"], asked["query"]
        keys = ["." if hit["key"] is None else f"={hit['key']}" if isinstance(hit["key"], str) else hit["key"] for hit in hits]
        page = [f"{len(hits)} {told['total']}", *(f"{hit['number']} {hit['id']} {key}" for hit, key in zip(hits, keys))]
        after = "." if asked["after"] is None else asked["after"]
        labels = [f"{each['count']} {each['label']}" for each in counts["counts"]]
        self.seen.digests[f"FIND {token} {PAGE} {asked.get('sort', '.')} {after} {query}"].add(digest(page))
        self.seen.digests[f"FACETS {token} color 50 {query}"].add(digest([f"{counts['matching']} {counts['labels']}", *labels]))
        self.seen.reads += 2

    def service(self):
        if self.server is None:
            self.server = Server("--log", self.dsn, "--name", LOG, "--show-every", "0.5", "--timeout", PATIENCE, fields=False)
        return self.server

    def end(self):
        """Kills the service, if one runs."""
        if self.server is not None:
            self.server.stop(signal.SIGKILL)
            self.server = None
            self.seen.services += 1


def visit_over_http(dsn, number, until, out):
    seen = Seen()
    guest = Guest(dsn, number, seen)
    try:
        while time.monotonic() < until:
            guest.visit(until)
    finally:
        guest.end()
        seen.digests = dict(seen.digests)
        out.put(seen)


def digest(told):
    return hashlib.sha256("\n".join(told).encode()).hexdigest()


# Who kills.


class Killer:
    """Kills a replica, or the program below one, every few seconds, but never the last replica; and stops PostgreSQL."""

    def __init__(self, cluster, nodes, given):
        self.cluster, self.nodes, self.given = cluster, nodes, given
        self.chance = random.Random(given.seed)
        self.down = {}
        self.replicas = self.programs = self.stops = 0

    def work(self, until):
        kill_at, stop_at = time.monotonic() + self.given.kill_every, time.monotonic() + self.given.stop_every
        while time.monotonic() < until:
            time.sleep(0.05)
            now = time.monotonic()
            for node in [node for node, at in self.down.items() if now > at]:
                node.start()
                del self.down[node]
            if now > kill_at:
                self.kill(now)
                kill_at = now + self.chance.expovariate(1 / self.given.kill_every)
            if now > stop_at:
                self.cluster.stop()
                time.sleep(self.chance.random())
                self.cluster.start()
                self.stops += 1
                stop_at = now + self.given.stop_every
        for node in self.down:
            node.start()

    def kill(self, now):
        up = [node for node in self.nodes if node not in self.down]
        if len(up) > 1:
            node = self.chance.choice(up)
            if self.chance.random() < 0.5:
                node.kill()
                self.down[node] = now + self.chance.random() * 2
                self.replicas += 1
            else:
                self.programs += node.kill_program()


# What is compared.


def model(log):
    """The catalogue of a log by plain Python: number and text of each id, in the order of addition; and the writes accepted."""
    table, count, position = {}, 0, 0
    while True:
        batches = log.batches(position, 500)
        if not batches:
            return table, count
        for batch in batches:
            position += 1
            require(batch.position == position, f"the log has no batch {position}")
            for line in batch.writes:
                count = apply(table, count, line)


def apply(table, count, line):
    word, rest = line.split(" ", 1)
    if word == "PUT":
        try:
            item = json.loads(rest)
        except ValueError:
            return count
        if isinstance(item.get("price", 0), str):
            return count
        table.pop(item["id"], None)
        table[item["id"]] = (count + 1, item, rest)
    elif word == "DEL":
        table.pop(rest, None)
    else:
        color, stock, price = WHERE.match(line).groups()
        for id, (_, item, _) in list(table.items()):
            if color in item["color"] and item.get("stock", -1) >= int(stock) and item.get("price", 10**9) <= int(price):
                del table[id]
    return count + 1


def compare_keys(log, writers):
    """Every acknowledged batch is in the log once, at its position, in its writer's order; and no other is."""
    positions = {}
    for number in range(0, log.head().position, 500):
        rows = log._ask("SELECT key, position FROM batch WHERE position > %s AND position <= %s", (number, number + 500))
        positions.update(rows)
    require(sorted(positions.values()) == list(range(1, log.head().position + 1)), "the log has gaps")
    for number, told, *_ in writers:
        require([position for _, position in told] == sorted({position for _, position in told}), "a writer's order")
        require(all(positions.get(key) == position for key, position in told), "an acknowledged batch is lost")
        mine = [key for key in positions if key.startswith(f"writer {number} ")]
        require(len(mine) == len(told), "a batch is there that was never acknowledged")


def compare_model(log, nodes, chance):
    table, count = model(log)
    wanted = [f"{number} {id}" for id, (number, _, _) in table.items()]
    for node in nodes:
        require(node.status()["newest"]["token"] == count, f"{node.name} counts other writes")
        view = Shelves([node.address]).open(is_lasting=False)
        found = [f"{hit.number} {hit.id}" for page in view.pages(count=1_000) for hit in page]
        require(found == wanted, f"{node.name} isn't the model")
        ids = chance.sample(list(table), min(2_000, len(table)))
        for id, item in zip(ids, view.get_many(ids)):
            require(item == table[id][1], f"{node.name} has another text of {id}")
    return count


def compare_windows(nodes, given, chance):
    """All windows are one; the newest token and some others are dumped in full, and equal byte by byte."""
    windows = [node.status()["tokens"] for node in nodes]
    require(all(window == windows[0] for window in windows), f"windows differ: {windows}")
    some = windows[0][-1:] + chance.sample(windows[0][:-1], min(given.full, len(windows[0]) - 1))
    ids = chance.sample([items.name(number) for number in range(given.items)], min(500, given.items))
    size = 0
    for token in some:
        dumps = {replicated.dump(node.address, token, ids, ("*:*", "color:red")) for node in nodes}
        require(len(dumps) == 1, f"replicas differ under {token}")
        size += dumps.pop()[1]
    return windows[0], len(some), size


def compare_visits(nodes, visits, window):
    """Whatever was shown under a token is one thing; and each replica shows it now."""
    merged = defaultdict(set)
    for seen in visits:
        for line, digests in seen.digests.items():
            merged[line] |= digests
    require(all(len(digests) == 1 for digests in merged.values()), "a token showed two things")
    again = 0
    for node in nodes:
        shelves = Shelves([node.address])
        for line, digests in merged.items():
            if int(line.split(" ")[1].partition("-")[0]) in window:
                is_find = line.startswith("FIND")
                more = (lambda told: int(told.split(" ")[0])) if is_find else (lambda told: min(50, int(told.split(" ")[1])))
                require(digest(shelves.read([(line, more)])[0]) in digests, f"{node.name} shows something else: {line}")
                again += 1
    return len(merged), again


# The run.


def can_serve():
    """Whether a Python is there that serves over HTTP and speaks with PostgreSQL."""
    asked = [PYTHON or sys.executable, "-c", "import psycopg2, starlette, uvicorn"]
    return subprocess.run(asked, stderr=subprocess.DEVNULL).returncode == 0


def arguments():
    parser = argparse.ArgumentParser(description=__doc__.split("\n\n")[0])
    parser.add_argument("program", nargs="?", help="the program; else the one that ./run would run")
    for name, value in (("items", 100_000), ("replicas", 3), ("writers", 8), ("visitors", 3), ("batch", 50), ("full", 3)):
        parser.add_argument(f"--{name}", type=int, default=value, help="(%(default)s)")
    parser.add_argument("--guests", type=int, default=1 if can_serve() else 0, help="visitors over HTTP (%(default)s)")
    parser.add_argument("--seconds", type=float, default=60, help="(%(default)s)")
    parser.add_argument("--kill-every", type=float, default=4, help="seconds between two kills, about (%(default)s)")
    parser.add_argument("--stop-every", type=float, default=20, help="seconds between two stops of PostgreSQL (%(default)s)")
    parser.add_argument("--seed", type=int, default=random.SystemRandom().randrange(10**6))
    given = parser.parse_args()
    if given.program is None:
        given.program = subprocess.run([TOP / "run", "--path"], stdout=subprocess.PIPE, text=True, check=True).stdout.strip()
    return given


def run(given, cluster, room):
    log = replicated.log_of(cluster.dsn, LOG, FIELDS)
    nodes = [
        replicated.Node(cluster.dsn, LOG, room, f"r{number}", [given.program], every=EVERY, pulse=PULSE).start()
        for number in range(1, given.replicas + 1)
    ]
    try:
        begun = log.append([], Mark.ANCHOR)
        for node in nodes:
            node.wait(begun)
        return played(given, cluster, log, nodes)
    finally:
        for node in nodes:
            node.kill()


def played(given, cluster, log, nodes):
    begun = time.monotonic()
    until = begun + given.seconds
    written, visited = multiprocessing.Queue(), multiprocessing.Queue()
    addresses = [node.address for node in nodes]
    works = [(write, (cluster.dsn, number, given, until, written)) for number in range(given.writers)]
    works += [(visit, (addresses, number, until + 3, visited)) for number in range(given.visitors)]
    works += [(visit_over_http, (cluster.dsn, number, until + 3, visited)) for number in range(given.guests)]
    processes = [multiprocessing.Process(target=work, args=args, daemon=True) for work, args in works]
    for process in processes:
        process.start()
    killer = Killer(cluster, nodes, given)
    killer.work(until)
    writers = [written.get(timeout=PATIENCE + given.seconds) for _ in range(given.writers)]
    visits = [visited.get(timeout=PATIENCE) for _ in range(given.visitors + given.guests)]
    wrote = max(end for *_, end in writers) - begun
    end = log.append([], Mark.ANCHOR)
    told = [node.wait(end, PATIENCE) for node in nodes]
    caught_up = time.monotonic() - begun - wrote
    return compared(given, log, nodes, killer, writers, visits, told, wrote, caught_up)


def compared(given, log, nodes, killer, writers, visits, told, wrote, caught_up):
    chance = random.Random(given.seed)
    compare_keys(log, writers)
    count = compare_model(log, nodes, chance)
    window, full, size = compare_windows(nodes, given, chance)
    different, again = compare_visits(nodes, visits, window)
    lost = sum(seen.lost for seen in visits)
    require(lost == 0, f"{lost} pages were lost")
    lines = sum(each[3] for each in writers)
    refused = log._ask("SELECT count(*) FROM refused")[0][0]
    over_http = max(visits, key=lambda seen: seen.services)
    return (
        f"{log.head().position:,} batches, {lines:,} writes ({lines / wrote:,.0f} a second, {refused:,} refused), {count:,}"
        f" accepted, {sum(each[2] for each in writers)} keys said twice; {killer.replicas} replicas and {killer.programs} programs"
        f" killed, PostgreSQL stopped {killer.stops} times in {wrote:.0f} s; all caught up {caught_up:.1f} s later, after"
        f" {[each['starts'] for each in told]} starts; windows of {len(window)} tokens are one, {full} compared byte by byte,"
        f" {size / 1e6:.0f} MB a replica; {sum(seen.sessions for seen in visits)} visits,"
        f" {sum(seen.reads for seen in visits):,} reads, {sum(seen.moved for seen in visits)} answered by another replica,"
        f" 0 lost, 0 unlike, the longest {max(seen.longest for seen in visits):.2f} s; {different:,} different ones, each with"
        f" one answer, {again:,} asked again; of these {over_http.reads:,} reads over HTTP, from {over_http.services} services"
        f" that were killed, the longest search {over_http.longest_over_http:.2f} s"
    )


def main():
    given = arguments()
    why = wanting()
    if why is not None:
        print(f"chaos.py: left out for want of {why}", file=sys.stderr)
        return 2
    signal.signal(signal.SIGTERM, lambda *_: sys.exit(1))  # in order, so that nothing goes on running
    room = Path(tempfile.mkdtemp(prefix="chaos-"))
    cluster = Cluster()
    try:
        told = run(given, cluster, room)
    except Mismatch as mismatch:
        print(f"chaos.py: FAILED, seed {given.seed}: {mismatch}; the replicas' folders are in {room}", file=sys.stderr)
        return 1
    finally:
        cluster.end()
    shutil.rmtree(room)
    print(f"chaos.py: {told} (seed {given.seed}, load {os.getloadavg()[0]:.1f})")
    return 0


if __name__ == "__main__":
    sys.exit(main())
