#!/usr/bin/env python3
"""README's first minutes, as somebody new would spend them, each command timed.

From a clone of the commit that stands here, without the kit: the package goes into a fresh environment that has no network,
50,000 rows of a table into a folder; that is served, searched by curl, killed, and started again. What was answered before
the kill has to be there behind it. Wants git, curl, venv, and Starlette and uvicorn in a Python that sees Debian's packages.
"""

import argparse
import contextlib
import csv
import json
import os
import random
import shutil
import signal
import subprocess
import sys
import tempfile
import time
from pathlib import Path

TOP = Path(__file__).resolve().parent.parent
WORDS = "running hiking leather canvas warm light classic soft wide narrow shoe boot scarf shirt coat jacket".split()
COLORS = "black blue green grey orange pink purple red white yellow".split()
ALONE = ["unshare", "--net"]  # a command behind it has no network


class Steps:
    """What was done, and how long each step took."""

    def __init__(self):
        self.rows = []

    def do(self, shown, command, **options):
        """Runs a command; answers what it wrote."""
        begun = time.monotonic()
        told = subprocess.run(command, stdout=subprocess.PIPE, stderr=subprocess.PIPE, text=True, **options)
        self.note(shown, time.monotonic() - begun)
        if told.returncode:
            raise SystemExit(f"minutes.py: {shown}: status {told.returncode}\n{told.stdout}{told.stderr}")
        return told.stdout

    def note(self, shown, seconds):
        self.rows.append((shown, seconds))
        print(f"{seconds:8.2f} s  {shown}", flush=True)


def write_table(path, rows):
    """A table of so many things to wear, with ids, titles, brands, colors and prices."""
    chance = random.Random(1)
    with open(path, "w", newline="", encoding="utf-8") as out:
        table = csv.writer(out)
        table.writerow(["id", "title", "brand", "color", "price"])
        for number in range(rows):
            title = " ".join([chance.choice(COLORS), *chance.choices(WORDS, k=4)]).capitalize()
            colors = "|".join(chance.sample(COLORS, chance.choice((1, 1, 2))))
            table.writerow([f"item-{number}", title, f"Brand {chance.randrange(80)}", colors, int(chance.lognormvariate(8, 1))])


class Served:
    """The service in a process of its own."""

    def __init__(self, steps, python, room, shown):
        command = [python, "-m", "jasminedome", "serve", "--listen", "127.0.0.1:0"]
        command += ["--folder", "shop", "--journal", "shop-journal"]
        begun = time.monotonic()
        self.process = subprocess.Popen(command, cwd=room, stdout=subprocess.PIPE, text=True, start_new_session=True)
        said = []
        while not said or "open on" not in said[-1]:
            said.append(self.process.stdout.readline())
            if not said[-1]:
                raise SystemExit(f"minutes.py: {shown}: it ended, {said}")
        steps.note(f"{shown}: {''.join(said).strip()}", time.monotonic() - begun)
        self.origin = said[-1].split()[-1]

    def kill(self):
        """Kills it and its program, as a loss of power would."""
        with contextlib.suppress(ProcessLookupError):
            for child in Path(f"/proc/{self.process.pid}/task/{self.process.pid}/children").read_text().split():
                os.kill(int(child), signal.SIGKILL)
            os.kill(self.process.pid, signal.SIGKILL)
        self.process.wait()

    def curl(self, steps, shown, path, *more):
        return json.loads(steps.do(shown, ["curl", "-s", "--fail", *more, self.origin + path]))


def play(steps, room, python, rows):
    steps.do("git clone", ["git", "clone", "-q", TOP, room / "clone"])
    steps.do("python3 -m venv --system-site-packages", [python, "-m", "venv", "--system-site-packages", room / "venv"])
    python, install = room / "venv" / "bin" / "python", ["install", "-q", "./clients/python"]
    steps.do("pip install ./clients/python, without network", [*ALONE, python, "-m", "pip", *install], cwd=room / "clone")
    print(steps.do("python -m jasminedome --version", [python, "-m", "jasminedome", "--version"]).strip())
    write_table(room / "items.csv", rows)
    load = [python, "-m", "jasminedome", "load", "items.csv", "--folder", "shop", "--field", "brand:facet"]
    load += ["--field", "color:facet"]
    print(steps.do(f"load items.csv, {rows:,} rows", load, cwd=room).splitlines()[0])
    served = Served(steps, python, room, "serve")
    try:
        asked = json.dumps({"words": "red sho", "facets": ["brand"]})
        found = served.curl(steps, "curl /search", "/search", "-d", asked)
        print(f"{found['total']:,} found, {len(found['hits'])} shown, {found['facets']['brand']['labels']} brands")
        item = json.dumps({"title": "A shoe of tonight", "price": 5900})
        print(served.curl(steps, "curl -X PUT /items/new", "/items/new", "-X", "PUT", "-d", item))
        begun = time.monotonic()
        served.kill()
        steps.note("kill -9", time.monotonic() - begun)
        served = Served(steps, python, room, "serve again")
        found = served.curl(steps, "curl /search", "/search", "-d", json.dumps({"words": "tonight"}))
        if [hit["id"] for hit in found["hits"]] != ["new"]:
            raise SystemExit(f"minutes.py: what was answered before the kill isn't there: {found}")
        print("what was answered before the kill is there")
    finally:
        served.kill()


def main():
    parser = argparse.ArgumentParser(description=__doc__.split("\n\n")[0])
    parser.add_argument("--rows", type=int, default=50_000, help="of the table (%(default)s)")
    parser.add_argument("--python", default="/usr/bin/python3", help="that sees Starlette and uvicorn (%(default)s)")
    given = parser.parse_args()
    steps, room = Steps(), Path(tempfile.mkdtemp(prefix="minutes-"))
    environment = ("JASMINEDOME_PROGRAM", "PYTHONPATH", "VIRTUAL_ENV")
    for name in environment:  # a newcomer has none of these
        os.environ.pop(name, None)
    if subprocess.run([*ALONE, "true"], stderr=subprocess.DEVNULL).returncode:
        ALONE.clear()
        print("the network can't be taken away here, so pip might use it", file=sys.stderr)
    try:
        play(steps, room, given.python, given.rows)
    finally:
        shutil.rmtree(room)
    print(f"{sum(seconds for _, seconds in steps.rows):8.2f} s  all of it (load {os.getloadavg()[0]:.1f})")
    return 0


if __name__ == "__main__":
    sys.exit(main())
