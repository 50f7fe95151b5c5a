"""What the tests of replicas share: items, logs, replicas as processes of their own, and digests of what they show."""

import hashlib
import json
import os
import random
import shlex
import shutil
import signal
import subprocess
import sys
import tempfile
import time
import unittest
from pathlib import Path

HERE = Path(__file__).resolve().parent
PACKAGE = HERE.parent.parent
sys.path[:0] = [str(PACKAGE), str(HERE.parent)]

import cluster  # noqa: E402
from cluster import free_port  # noqa: E402

from jasminedome.replicas import Log, Shelves  # noqa: E402
from jasminedome.replicas.database import Database  # noqa: E402
from jasminedome.replicas.wire import GONE, Wire  # noqa: E402

FAKE = [sys.executable, str(HERE.parent / "fake_catalogue.py")]
FLAKY = [sys.executable, str(HERE / "flaky_catalogue.py")]
PROGRAM = shlex.split(os.environ.get("JASMINEDOME_PROGRAM", "")) or FAKE
FIELDS = {"brand": "keyword", "color": "facet", "price": "number", "title": "text"}
COLORS = "black white red pink orange yellow olive green teal blue navy violet".split()
WORDS = "running hiking leather canvas warm light classic soft wide narrow shoe boot scarf shirt coat".split()
PATIENCE = 30  # seconds


def item(number, rng=random):
    """The JSON text of an item of this number, another one each time."""
    made = {
        "id": f"item{number:07d}",
        "title": " ".join(rng.choices(WORDS, k=6)),
        "brand": f"Brand {rng.randrange(50)}",
        "color": rng.sample(COLORS, rng.choice((0, 1, 1, 2, 3))),
    }
    if rng.random() < 0.95:
        made["price"] = int(rng.lognormvariate(8, 1.2))
    return json.dumps(made, separators=(",", ":"))


def puts(*numbers, rng=random):
    """Writes that put the items of these numbers."""
    return [f"PUT {item(number, rng)}" for number in numbers]


class Node:
    """A replica as a process of its own."""

    def __init__(self, dsn, log, room, name, program=None, **options):
        self.name = name
        self.folder = Path(room, name)
        self.address = options.pop("listen", None) or f"127.0.0.1:{free_port()}"
        self.said = Path(room, f"{name}.log")
        self.process = None
        self._named = ["--dsn", dsn, "--name", log, "--folder", str(self.folder), "--listen", self.address, "--replica", name]
        self.program = program or PROGRAM
        self.options = {"pulse": "off", "every": "20000,10", **options}

    def start(self):
        words = [f"--{key}" if value is True else f"--{key}={value}" for key, value in self.options.items()]
        command = [sys.executable, "-m", "jasminedome", "replica", *self._named, *words]
        path = os.pathsep.join([str(PACKAGE), os.environ.get("PYTHONPATH", "")])
        environment = {**os.environ, "PYTHONPATH": path, "JASMINEDOME_PROGRAM": shlex.join(self.program)}
        with open(self.said, "a") as out:
            self.process = subprocess.Popen(command, env=environment, stdin=subprocess.DEVNULL, stdout=out, stderr=out)
        return self

    def status(self, line="STATUS", patience=PATIENCE):
        """What it answers to STATUS or WAIT, once it answers at all."""
        until = time.monotonic() + patience
        while True:
            try:
                wire = Wire(self.address)
                try:
                    return json.loads(wire.ask([line.encode() + b"\n"], patience)[0])
                finally:
                    wire.close()
            except (OSError, ValueError):
                if time.monotonic() > until or self.process.poll() is not None:
                    raise RuntimeError(f"{self.name} is silent: {self.said.read_text()[-2000:]}") from None
                time.sleep(0.02)

    def wait(self, position, patience=PATIENCE):
        """Its status, once it shows a position and has caught up."""
        until = time.monotonic() + patience
        while True:
            told = self.status(f"WAIT {position} 1")
            if told["failed"]:
                raise RuntimeError(told["failed"])
            if told["shown"] >= position and told["is_ready"]:
                return told
            if time.monotonic() > until:
                raise TimeoutError(f"{self.name} doesn't show {position}: {told}")

    def until(self, key, patience=PATIENCE):
        """What its status has under a key, once that is something."""
        return self.until_it(f"has {key}", lambda told: told[key], patience)[key]

    def until_it(self, what, is_so, patience=PATIENCE):
        """Its status, once that is so."""
        until = time.monotonic() + patience
        while True:
            told = self.status()
            if is_so(told):
                return told
            if time.monotonic() > until:
                raise TimeoutError(f"{self.name} never {what}: {told}")
            time.sleep(0.02)

    def kill(self):
        """Kills the replica; its program is left alone, and ends at its input's end."""
        self.process.send_signal(signal.SIGKILL)
        self.process.wait()

    def kill_program(self):
        """Kills the program below it, if one runs."""
        try:
            found = self.status(patience=1)["process"]
            if found:
                os.kill(found, signal.SIGKILL)
            return bool(found)
        except (OSError, RuntimeError):
            return False

    def stop(self):
        if self.process is not None and self.process.poll() is None:
            self.process.send_signal(signal.SIGTERM)
            try:
                self.process.wait(PATIENCE)
            except subprocess.TimeoutExpired:
                self.kill()


def dump(address, token, ids=(), queries=("*:*",)):
    """A digest of everything that one replica shows under a token, and how many bytes that was."""
    wire, digest, size = Wire(address), hashlib.sha256(), 0

    def ask(line):
        nonlocal size
        reply = wire.ask([line.encode() + b"\n"], 120)[0]
        if reply == GONE:
            raise LookupError(f"{address} doesn't hold {token}")
        digest.update(reply)
        size += len(reply)
        return reply.split(b"\n")[1:-1]

    try:
        for query in queries:
            for sort in (".", "+price", "-price", "+brand"):
                mark = "."
                while True:
                    hits = ask(f"FIND {token} 1000 {sort} {mark} {query}")
                    if len(hits) < 1000:
                        break
                    mark = hits[-1].split(b" ", 2)[1].decode()
            ask(f"FACETS {token} color 1000 {query}")
        for id in ids:
            ask(f"GET {token} {id}")
    finally:
        wire.close()
    return digest.hexdigest(), size


def log_of(dsn, name, fields=FIELDS):
    """A new log under that name, in place of an old one."""
    database = Database(dsn, "public", 30)
    database.ask(f"DROP SCHEMA IF EXISTS {name} CASCADE")
    database.close()
    return Log.create(dsn, fields, name)


class LogTest(unittest.TestCase):
    """A test with a log of its own, and a room for replicas of it."""

    def setUp(self):
        self.cluster = cluster.shared()
        self.dsn = self.cluster.dsn
        self.name = f"t{os.urandom(4).hex()}"
        self.log = log_of(self.dsn, self.name)
        self.room = Path(tempfile.mkdtemp(prefix="jasminedome-replicas-"))
        self.nodes = []
        self.addCleanup(self._end)

    def _end(self):
        for node in self.nodes:
            node.stop()
        self.log.close()
        shutil.rmtree(self.room)

    def node(self, name, **options):
        """A replica that runs, of this log."""
        node = Node(self.dsn, self.name, self.room, name, **options).start()
        self.nodes.append(node)
        return node

    def shelves(self, *nodes, **options):
        shelves = Shelves([node.address for node in nodes], **{"patience": PATIENCE, **options})
        self.addCleanup(shelves.close)
        return shelves

    def ask(self, sql, *arguments):
        """The rows of a statement, said behind the log's back."""
        database = Database(self.dsn, self.name, 10)
        try:
            return database.ask(sql, arguments)
        finally:
            database.close()

    def assert_alike(self, nodes, tokens, ids=()):
        """Every one of the replicas shows the same under each of the tokens."""
        for token in tokens:
            self.assertEqual(len({dump(node.address, token, ids) for node in nodes}), 1, token)
