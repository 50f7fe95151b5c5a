"""The crates of this repository: which stand on which, and sums of their files."""

import hashlib
import os
from pathlib import Path

TOP = Path(__file__).resolve().parent.parent
PARTS = ("src", "specs", "proofs")


class Sources:
    def __init__(self, top=TOP):
        self.top, self.uses, self.of_kit = top, {}, {}
        named = {}
        for line in (top / "crates.txt").read_text(encoding="utf-8").splitlines():
            name, has_list, below = line.partition("#")[0].partition(":")
            if has_list:
                named[name.split()[0]] = below.split()
        for name, below in named.items():
            self.uses[name] = [it for it in below if it in named]
            self.of_kit[name] = [it for it in below if it not in named]
        self.sums, self.sizes = {}, {}

    def below(self, *names):
        """These crates and those below them, each after those that it uses."""
        found = []

        def visit(name):
            if name not in found:
                for it in self.uses[name]:
                    visit(it)
                found.append(name)

        for name in names:
            visit(name)
        return found

    def is_program(self, name):
        return (self.top / "crates" / name / "src" / "main.rt").is_file()

    def files(self, name):
        for part in PARTS:
            for at, folders, files in os.walk(self.top / "crates" / name / part):
                folders.sort()
                for file in sorted(files):
                    yield Path(at) / file

    def sum_below(self, name):
        """A sum of all files of the crate and of those below it, and of what crates.txt says of them."""
        if name not in self.sums:
            made = hashlib.sha256(repr((name, self.of_kit[name], [self.sum_below(it) for it in self.uses[name]])).encode())
            for file in self.files(name):
                made.update(repr((file.relative_to(self.top).as_posix(), file.read_bytes())).encode())
            self.sums[name] = made.hexdigest()
        return self.sums[name]

    def size(self, name):
        if name not in self.sizes:
            self.sizes[name] = sum(file.stat().st_size for file in self.files(name))
        return self.sizes[name]

    def size_below(self, name):
        return sum(self.size(it) for it in self.below(name))

    def behind(self, names, cost):
        """For each of these crates what the dearest chain of them that waits for it costs, itself counted."""
        order = [it for it in self.below(*names) if it in names]
        behind = {}
        for name in reversed(order):
            above = [behind[it] for it in behind if name in self.uses[it]]
            behind[name] = cost(name) + max(above, default=0)
        return behind
