#!/usr/bin/env python3
"""Random days of lines against a plain reference: each reply to a session but 0 has to be the same, byte by byte.

usage: tests/random_days.py [--seed N] [--days N] [--lines N] PROGRAM

The reference is the stand-in of the Python client's tests, which keeps the catalogue as a list and looks at each item of it for
each read. A day is a schema line, writes with many ties, extreme numbers, missing values and few ids, so that items are put
again, views that are opened and kept, upkeep between all of them, and reads under the held tokens: pages in every order, behind
marks that are there, gone or dead, counts, and stored texts. Session 0's replies are left out, since the reference has no
segments. It isn't part of the gate. The last line is `N days, M lines: all replies are equal`, and the status 0 where they are.
"""

import argparse
import random
import subprocess
import sys
from pathlib import Path

sys.path.insert(0, str(Path(__file__).resolve().parent.parent / "clients" / "python" / "tests"))
sys.dont_write_bytecode = True

import fake_catalogue  # noqa: E402

FIELDS = '{"brand":"keyword","color":"facet","price":"number","stock":"number","title":"text"}'
ENDS = [-(2**63), -(2**63) + 1, 2**63 - 1, 2**63 - 2, 0, -1, 1]
WORDS = ["a", "b", "c", "dd", "e", "ff", "ff2"]
SORTS = [".", "+price", "-price", "+stock", "-stock", "+brand", "-brand"]


class Day:
    """One day's lines: what items, values and ids it takes them from."""

    def __init__(self, seed, count):
        self.random = random.Random(seed)
        pick = self.random.choice
        self.numbers = ENDS if self.random.random() < 0.4 else list(range(pick((1, 3, 50, 5000))))
        self.brands = [f"B{n}" for n in range(pick((1, 3, 40)))]
        self.ids = max(1, count // pick((4, 10, 40)))
        self.writes, self.tokens, self.held = 0, [0], []
        self.lines = [f"SCHEMA {pick((2, 3, 10))} {pick((1, 10, 100, 1000))} {FIELDS}"]
        while len(self.lines) < count:
            self.go_on()

    def say(self, line):
        self.lines.append(line)

    def go_on(self):
        kind = self.random.random()
        if kind < 0.55:
            self.write()
        elif kind < 0.68:
            self.say(self.random.choice(["0 MERGE", "0 MERGE", "0 MERGE", "0 WARM", "0 SWEEP", "0 FORCE", "0 STAT"]))
        elif kind < 0.72:
            self.look()
        elif kind < 0.74:
            self.end()
        elif self.held:
            self.read()

    def write(self):
        kind = self.random.random()
        name = f"i{self.random.randrange(self.ids)}"
        if kind < 0.85:
            self.say(f"1 PUT {self.item(name)}")
        elif kind < 0.97:
            self.say(f"2 DEL {name}")
        else:
            self.say(f"2 DELW {self.query()}")
        self.writes += 1

    def item(self, name):
        some, pick = self.random.random, self.random.choice
        parts = [f'"id":"{name}"']
        parts += [f'"price":{pick(self.numbers)}'] * (some() < 0.8)
        parts += [f'"stock":{pick(self.numbers)}'] * (some() < 0.5)
        parts += [f'"brand":"{pick(self.brands)}"'] * (some() < 0.8)
        parts += ['"title":"%s"' % " ".join(self.random.choices(WORDS, k=3))] * (some() < 0.9)
        parts += ['"color":[%s]' % ",".join(f'"{it}"' for it in sorted(set(self.random.choices(WORDS, k=2))))] * (some() < 0.9)
        return "{" + ",".join(parts) + "}"

    def look(self):
        self.say("1 REFRESH")
        self.tokens = [*self.tokens, self.writes][-4:]
        session = self.random.randrange(3, 7)
        self.say(f"{session} OPEN")
        self.held.append((session, self.writes))

    def end(self):
        if self.held and self.random.random() < 0.5:
            session, token = self.held.pop(self.random.randrange(len(self.held)))
            self.held = [it for it in self.held if it != (session, token)]
            self.say(f"{session} CLOSE {token}")
        else:
            self.say(f"0 PRUNE {self.random.choice((1, 2, 5))}")

    def read(self):
        session, token = self.random.choice(self.held)
        if self.random.random() < 0.05:
            token = self.random.choice(self.tokens)
        pick, kind = self.random.choice, self.random.random()
        if kind < 0.75:
            mark = pick((".", ".", str(self.random.randint(1, max(1, self.writes)))))
            self.say(f"{session} FIND {token} {pick((0, 1, 2, 5, 20, 1000))} {pick(SORTS)} {mark} {self.query()}")
        elif kind < 0.9:
            self.say(f"{session} FACETS {token} color {pick((0, 1, 3, 1000))} {self.query()}")
        else:
            self.say(f"{session} GET {token} i{self.random.randrange(self.ids + 1)}")

    def query(self, depth=0):
        kinds = ["*:*", self.range("price", self.numbers), self.range("stock", self.numbers), f"stock:{self.random.choice(self.numbers)}"]
        kinds += [f"brand:{self.random.choice(self.brands)}", self.range("brand", self.brands), "brand:B*"]
        kinds += [f"title:{self.random.choice([*WORDS, 'nope'])}", "title:f*", f"color:{self.random.choice(WORDS)}", "color:f*"]
        if not depth and self.random.random() < 0.35:
            return " ".join(self.random.choice(("", "+", "-")) + self.query(1) for _ in range(self.random.randint(1, 3)))
        return self.random.choice(kinds)

    def range(self, field, values):
        low, high = self.random.choice(["*", *values[:9]]), self.random.choice(["*", *values[-9:]])
        return f"{field}:[{low} TO {high}]"


def replies_of(lines):
    """The reference's replies, line by line."""
    fake = fake_catalogue.Fake(fake_catalogue.read_schema(lines[0]))
    return [b"OK 0\n", *(fake_catalogue.reply(fake, line.encode()) for line in lines[1:])]


def told(output):
    """The lines that aren't session 0's."""
    return [line for line in output.split(b"\n") if not line.startswith(b"0 ")]


def first_difference(program, lines):
    """Where the program's replies differ from the reference's, or None."""
    ran = subprocess.run([program], input="".join(f"{it}\n" for it in lines).encode(), stdout=subprocess.PIPE)
    if ran.returncode:
        return f"the program ended with status {ran.returncode}"
    wanted = replies_of(lines)
    if told(ran.stdout) == told(b"".join(wanted)):
        return None
    found = iter(told(ran.stdout))
    for line, reply in zip(lines, wanted):
        for one in told(reply)[:-1]:
            answer = next(found, None)
            if answer != one:
                return f"{line}\n  wanted {one.decode()}\n  found  {answer.decode() if answer is not None else 'nothing'}"
    return "the program wrote more than the reference"


def main():
    parser = argparse.ArgumentParser("random_days.py")
    parser.add_argument("--seed", type=int, default=1)
    parser.add_argument("--days", type=int, default=50)
    parser.add_argument("--lines", type=int, default=1000)
    parser.add_argument("program")
    asked = parser.parse_args()
    total = 0
    for seed in range(asked.seed, asked.seed + asked.days):
        lines = Day(seed, asked.lines).lines
        total += len(lines)
        why = first_difference(asked.program, lines)
        if why:
            print(f"day {seed} of {asked.lines} lines: {why}")
            return 1
    print(f"{asked.days} days, {total} lines: all replies are equal")
    return 0


if __name__ == "__main__":
    sys.exit(main())
