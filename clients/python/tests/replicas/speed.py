"""How fast replicas are: writes through the log, the lag of what is shown, and reads from one, two and three replicas.

    JASMINEDOME_PROGRAM=$(./run --path) /usr/bin/python3 clients/python/tests/replicas/speed.py [--items N]

By hand: it takes a minute or two, and wants processors. Each replica is pinned to a processor of its own for the reads, with
its program.
"""

import argparse
import contextlib
import multiprocessing
import os
import random
import shutil
import tempfile
import threading
import time
from pathlib import Path

import replicated  # first: it finds the package
from cluster import Cluster
from replicated import puts

from jasminedome.replicas import Log, Mark, Shelves
from jasminedome.replicas.wire import Wire

LOG = "speed"
WRITERS, READERS = 8, 4
TOGETHER = 32  # lines that a reader has on the way at the same time
SECONDS = 3.0


def load():
    return f"(load {os.getloadavg()[0]:.1f})"


def quantiles(times):
    ordered = sorted(times)
    return "/".join(f"{ordered[int(len(ordered) * share)] * 1_000:.1f}" for share in (0.5, 0.9, 0.99))


def append(dsn, numbers, batch, out):
    log, position = Log(dsn, LOG), 0
    texts = puts(*numbers)
    out.put("ready")
    for at in range(0, len(texts), batch):
        position = log.append(texts[at : at + batch])
    out.put(position)


def write(dsn, nodes, items, batch):
    """Items by eight writers, from the first append until all replicas show the last."""
    out = multiprocessing.Queue()
    shares = [range(number, items, WRITERS) for number in range(WRITERS)]
    writers = [multiprocessing.Process(target=append, args=(dsn, share, batch, out)) for share in shares]
    for writer in writers:
        writer.start()
    for _ in writers:
        out.get()
    begun = time.monotonic()
    for _ in writers:
        out.get()
    appended = time.monotonic() - begun
    end = Log(dsn, LOG).append([], Mark.ANCHOR)
    for node in nodes:
        node.wait(end, 120)
    shown = time.monotonic() - begun
    rates = f"{items / appended:,.0f} a second appended, {items / shown:,.0f} shown by all"
    print(f"{items:,} items in batches of {batch}: {rates} {load()}")


def lag(dsn, nodes, count):
    """From the call of an append of one item with a mark until replicas show it."""
    log = Log(dsn, LOG)
    appended, first, last = [], [], []
    wires = [Wire(node.address) for node in nodes]
    for number in range(count):
        position = log.head().position + 1
        seen = []

        def wait(wire):
            wire.ask([b"WAIT %d 10\n" % position], 20)
            seen.append(time.monotonic())

        waiters = [threading.Thread(target=wait, args=(wire,)) for wire in wires]
        for waiter in waiters:
            waiter.start()
        time.sleep(0.01)
        begun = time.monotonic()
        log.append(puts(number), Mark.VIEW)
        appended.append(time.monotonic() - begun)
        for waiter in waiters:
            waiter.join()
        first.append(min(seen) - begun)
        last.append(max(seen) - begun)
    print(
        f"lag of {count} items, each with a mark, ms p50/p90/p99: appended {quantiles(appended)},"
        f" shown by the first {quantiles(first)}, by all {quantiles(last)} {load()}"
    )


def read(addresses, line, number, out):
    """Reads as often as it can, some lines at once, as bytes; each time from the next replica."""
    wires = [Wire(address) for address in addresses]
    times, until = [], time.monotonic() + SECONDS
    while time.monotonic() < until:
        begun = time.perf_counter()
        wires[(len(times) + number) % len(wires)].ask([line] * TOGETHER, 10)
        times.append(time.perf_counter() - begun)
    out.put((len(times) * TOGETHER, times))


def find(addresses, token, number, out):
    """Pages by the call of a view, one after another."""
    view = Shelves(addresses).open(token)
    times, until = [], time.monotonic() + SECONDS
    while time.monotonic() < until:
        begun = time.perf_counter()
        view.find()
        times.append(time.perf_counter() - begun)
    out.put((len(times), times))


def spent(process):
    """The seconds of a processor that a process has had."""
    words = Path(f"/proc/{process}/stat").read_text().rsplit(")", 1)[1].split()
    return (int(words[11]) + int(words[12])) / os.sysconf("SC_CLK_TCK")


def together(nodes, work, *arguments):
    """What readers side by side read in a second, and what a read costs the replica and its program."""
    out = multiprocessing.Queue()
    pairs = [(node.process.pid, node.status()["process"]) for node in nodes]
    before = [[spent(process) for process in pair] for pair in pairs]
    addresses = [node.address for node in nodes]
    readers = [multiprocessing.Process(target=work, args=(addresses, *arguments, number, out)) for number in range(READERS)]
    for reader in readers:
        reader.start()
    told = [out.get() for _ in readers]
    for reader in readers:
        reader.join()
    count = sum(each[0] for each in told)
    costs = [sum(spent(pair[at]) - was[at] for pair, was in zip(pairs, before)) / count * 1e6 for at in (0, 1)]
    times = quantiles([each for _, times in told for each in times])
    return (
        f"{count / SECONDS:,.0f} a second, ms p50/p90/p99 {times}; µs of a processor for each: replica {costs[0]:.0f},"
        f" program {costs[1]:.0f} {load()}"
    )


def pin(process, processors):
    """Keeps a process, with its threads, on some processors."""
    for thread in os.listdir(f"/proc/{process}/task"):
        with contextlib.suppress(ProcessLookupError):
            os.sched_setaffinity(int(thread), processors)


def read_all(nodes):
    """Reads from one, two and three replicas, each on a processor of its own; the readers are on those that are left."""
    token = nodes[0].status()["anchor"]["stamp"]
    everywhere = os.sched_getaffinity(0)
    for processor, node in zip(sorted(everywhere), nodes):
        for process in (node.process.pid, node.status()["process"]):
            pin(process, {processor})
    lines = {title: f"FIND {token} 20 {sort} . *:*\n".encode() for title, sort in (("FIND .", "."), ("FIND +price", "+price"))}
    for count in range(1, len(nodes) + 1):
        pin(os.getpid(), everywhere - set(sorted(everywhere)[:count]) or everywhere)
        for title, line in lines.items():
            print(f"{title}, {count} replicas, {READERS} readers of {TOGETHER} lines: {together(nodes[:count], read, line)}")
        print(f"view.find(), {count} replicas, {READERS} readers: {together(nodes[:count], find, token)}")


def resident(process):
    """The megabytes of memory that a process has."""
    lines = Path(f"/proc/{process}/status").read_text().splitlines()
    return next(int(line.split()[1]) for line in lines if line.startswith("VmRSS")) / 1024


def remember(dsn, nodes, items):
    """Sixty anchors with a hundredth of the items changed between each, of which 48 are held."""
    log = Log(dsn, LOG)
    pairs = [(node.process.pid, node.status()["process"]) for node in nodes]
    before = [[resident(process) for process in pair] for pair in pairs]
    for _ in range(60):
        end = log.append(puts(*random.sample(range(items), items // 100)), Mark.ANCHOR)
    tokens = [len(node.wait(end)["tokens"]) for node in nodes]
    grown = [f"{was[1]:.0f} to {resident(pair[1]):.0f}" for pair, was in zip(pairs, before)]
    told = [f"{resident(pair[0]):.0f}" for pair in pairs]
    changes = items * 60 // 100
    print(f"memory in MB with {tokens} tokens held over {changes:,} changes: programs {grown}, replicas {told} {load()}")


def main():
    parser = argparse.ArgumentParser(description=__doc__.split("\n\n")[0])
    parser.add_argument("--items", type=int, default=100_000)
    given = parser.parse_args()
    cluster, room = Cluster(), Path(tempfile.mkdtemp(prefix="speed-"))
    replicated.log_of(cluster.dsn, LOG)
    nodes = [replicated.Node(cluster.dsn, LOG, room, f"r{number}").start() for number in (1, 2, 3)]
    try:
        for node in nodes:
            node.status()
        for batch in (100, 500):
            write(cluster.dsn, nodes, given.items, batch)
        lag(cluster.dsn, nodes, 200)
        anchor = Log(cluster.dsn, LOG).append([], Mark.ANCHOR)
        for node in nodes:
            node.wait(anchor)
        read_all(nodes)
        remember(cluster.dsn, nodes, given.items)
    finally:
        for node in nodes:
            node.kill()
        cluster.end()
        shutil.rmtree(room)


if __name__ == "__main__":
    main()
