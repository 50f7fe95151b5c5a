#!/usr/bin/env python3
"""Proves and builds programs of this repository, crate by crate: the libraries below them, and then each program.

usage: tests/build.py [--keep] [--lanes N] [PROGRAM..]

Crates that don't wait for each other are proved side by side, where there are 4 GB of memory for each processor. Those with the
longest chain of others behind them come first, and share the processors that are idle as their jobs. What earlier runs proved
of the same files is not proved again. With --keep each function's proof is kept, so that a later change is proved without what
it doesn't touch; without it libraries are kept by what they state, as `rt ci` has them, which takes a third less or more. It
says on standard error how far it is, and, where a crate isn't proved, what its check said.
"""

import argparse
import os
import subprocess
import sys
import tempfile
import threading
import time
from concurrent.futures import FIRST_COMPLETED, ThreadPoolExecutor, wait
from pathlib import Path

sys.path.insert(0, str(Path(__file__).resolve().parent))

import kit  # noqa: E402
from sources import TOP, Sources  # noqa: E402

# rt runs what it has built: an input that ends well makes its status the build's.
INPUT = b"SCHEMA 2 1 {}\n"
# A chain that is shorter than the longest by no more than this is as urgent. Where other crates wait a proof gets so many jobs at most,
# and where none does so many: beyond these it hardly ends sooner.
URGENT, MOST_JOBS, ALL_JOBS = 0.9, 3, 4


def seconds_behind(sources, names):
    """For each of these crates what the longest chain that waits for it takes, itself counted, by tests/seconds.txt."""
    known = (it.split() for it in (TOP / "tests" / "seconds.txt").read_text(encoding="utf-8").splitlines() if it and it[0] != "#")
    known = {name: int(seconds) for name, seconds in known}
    return sources.behind(names, lambda name: known.get(name) or sources.size(name) // 3000)


def shares(ready, idle, behind, longest):
    """Which crates are begun by so many processors, and how many jobs each gets. `ready` has the longest chains first."""
    urgent = [it for it in ready if behind[it] >= URGENT * longest]
    given = dict.fromkeys(urgent[:idle], 1)
    share_out(given, idle, behind, MOST_JOBS)
    given.update(dict.fromkeys([it for it in ready if it not in given][: idle - sum(given.values())], 1))
    share_out(given, idle, behind, ALL_JOBS)
    return given


def share_out(given, idle, behind, most):
    """One job more at a time for the longest chain by jobs, until all are given out, or each has the most."""
    while sum(given.values()) < idle and any(jobs < most for jobs in given.values()):
        given[max((it for it in given if given[it] < most), key=lambda it: behind[it] / given[it])] += 1


class Builder:
    """Builds one library as `rt lib` does. That holds each crate below it for itself, so two such commands go in turn; here
    all are held at once, and the order is ours. Where a kit has nothing of the kind, `rt lib` is called."""

    def __init__(self, names, keeps):
        self.crates, self.held = {}, []
        try:
            rt = kit.builds(keeps)
            # Commands end with us, and what starts them can't be made beside threads.
            rt.rtlib.guarded()
            found = {it.name: it for it in rt.rtlib.crates_below(str(TOP))}
            self.held = rt.rtlib.lock([found[it] for it in names])
            self.crates = found
        except Exception as error:
            print(f"build: this kit's rt builds one crate at a time ({type(error).__name__}: {error})", file=sys.stderr)

    def lanes(self):
        return kit.lanes() if self.crates else 1

    def build(self, name, jobs, out):
        crate = self.crates.get(name)
        if not crate:
            return subprocess.run(["rt", "lib", "--jobs", str(jobs)], cwd=TOP / "crates" / name, stdin=subprocess.DEVNULL, stdout=out, stderr=out).returncode
        os.makedirs(f"{crate.folder}/out", exist_ok=True)
        crate.out = out
        return crate.build_rlib(["--jobs", str(jobs)], anew=False)

    def end(self):
        for it in self.held:
            os.close(it)
        self.held = []


def run_alone(name, jobs, keeps):
    """What `rt run` does in the program's folder."""
    os.chdir(TOP / "crates" / name)
    try:
        rt = kit.builds(keeps)
    except Exception as error:  # a kit that is put together otherwise
        print(f"build: by rt itself ({type(error).__name__}: {error})", file=sys.stderr)
        os.execvp("rt", ["rt", "run", "--jobs", str(jobs)])
    return rt.main(["run", "--jobs", str(jobs)])


class Build:
    """Proves the libraries below some programs, and builds these."""

    def __init__(self, sources, programs, asked):
        self.sources, self.programs, self.keeps = sources, programs, asked.keep
        self.whole = sources.below(*programs)
        self.left = [it for it in self.whole if not sources.is_program(it)]
        self.behind = seconds_behind(sources, self.whole)
        self.left.sort(key=lambda it: -self.behind[it])
        self.builder = Builder(self.left, self.keeps)
        self.lanes = max(1, asked.lanes) if asked.lanes and self.builder.crates else self.builder.lanes()
        self.start, self.done, self.telling = time.monotonic(), [], threading.Lock()
        print(
            f"run: proving {len(self.whole)} crates, {self.lanes} at once, which takes long the first time (./try shows the program unproved)",
            file=sys.stderr,
            flush=True,
        )

    def tell(self, name):
        with self.telling:
            self.done.append(name)
            spent = int(time.monotonic() - self.start)
            print(f"run: {len(self.done)} of {len(self.whole)} done: {name}, after {spent // 60} min {spent % 60} s", file=sys.stderr, flush=True)

    def prove(self, name, jobs):
        """Proves one library, and answers whether it is proved."""
        with tempfile.TemporaryFile("w+", errors="replace") as out:
            try:
                status = self.builder.build(name, jobs, out)
            except SystemExit:
                status = 2
            if not status:
                self.tell(name)
                return True
            out.seek(0)
            with self.telling:
                print(f"{out.read()}run: {name} is not proved", file=sys.stderr, flush=True)
            return False

    def begin(self, pool, running):
        """Begins what is due by the processors that are idle."""
        ready = [it for it in self.left if all(dep in self.done for dep in self.sources.uses[it])]
        idle = self.lanes - sum(jobs for _, jobs in running.values())
        longest = max((self.behind[it] for it in [*ready, *(name for name, _ in running.values())]), default=0)
        for name, jobs in shares(ready, idle, self.behind, longest).items():
            self.left.remove(name)
            running[pool.submit(self.prove, name, jobs)] = name, jobs

    def prove_all(self):
        """Answers whether all libraries are proved. Behind one that isn't, none is begun."""
        running, failed = {}, False
        with ThreadPoolExecutor(self.lanes) as pool:
            self.begin(pool, running)
            while running:
                for it in wait(running, return_when=FIRST_COMPLETED).done:
                    running.pop(it)
                    failed = failed or not it.result()
                if not failed:
                    self.begin(pool, running)
        self.builder.end()
        return not failed

    def build(self, name):
        """Proves and builds a program, and answers whether it stands."""
        words = [sys.executable, __file__, "--alone", "--lanes", str(min(ALL_JOBS, self.lanes)), *["--keep"] * self.keeps, name]
        ran = subprocess.run(words, input=INPUT, stdout=subprocess.PIPE, stderr=subprocess.STDOUT)
        # catalogue_check wants a folder, and says so: what counts is that it was built.
        made = TOP / "crates" / name / "out" / name
        is_proved = b"logic=not-proved" not in ran.stdout and b"error[" not in ran.stdout
        if made.is_file() and made.with_name(f"{name}.stamp").is_file() and is_proved and not (ran.returncode and name == "catalogue"):
            self.tell(name)
            return True
        sys.stderr.buffer.write(ran.stdout)
        print(f"run: {name} was not built", file=sys.stderr)
        return False


def asked_for():
    parser = argparse.ArgumentParser("build.py", description="Proves and builds programs of this repository.")
    parser.add_argument("--keep", action="store_true", help="keeps each function's proof for later changes")
    parser.add_argument("--lanes", type=int, help="how many processors it uses")
    parser.add_argument("--alone", action="store_true", help=argparse.SUPPRESS)
    parser.add_argument("programs", nargs="*", metavar="PROGRAM", default=["catalogue"])
    asked = parser.parse_args()
    # What was kept once is taken, and kept anew.
    asked.keep = asked.keep or any(any((TOP / "crates").glob(f"*/out/{it}")) for it in ("incremental", "rlib/stamp"))
    return asked


def main():
    asked, sources = asked_for(), Sources()
    if asked.alone:
        return run_alone(asked.programs[0], asked.lanes, asked.keep)
    programs = asked.programs or ["catalogue"]
    wrong = [it for it in programs if it not in sources.uses or not sources.is_program(it)]
    if wrong or not kit.home():
        print(f"build: {wrong[0]} is no program of crates.txt" if wrong else "build: no rt on PATH", file=sys.stderr)
        return 2
    build = Build(sources, programs, asked)
    if not build.prove_all():
        print("run: not all was proved, so no program was built", file=sys.stderr)
        return 1
    return 0 if all(build.build(it) for it in programs) else 1


if __name__ == "__main__":
    sys.exit(main())
