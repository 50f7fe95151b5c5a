"""The Rattle kit on this machine: where it is, what it calls itself, and what of this repository it has built.

usage: python3 tests/kit.py            (how many checks go side by side here)
"""

import hashlib
import importlib.machinery
import importlib.util
import json
import os
import re
import shutil
import subprocess
import sys
import tempfile
import threading
from pathlib import Path

from sources import TOP


def home():
    """The kit's folder, by the `rt` on the PATH, or None."""
    rt = shutil.which("rt")
    return Path(rt).resolve().parent.parent if rt else None


def line():
    """The kit's line, as `rt version` says it, or None where there is no kit."""
    at = home()
    return (at / "KIT-ID").read_text(encoding="utf-8").split("\n")[0].strip() if at else None


def store():
    """A folder beside the kit for what runs on this machine found out, or one of the user's own where that can't be written."""
    beside = home().parent / "jasminedome-kept"
    try:
        beside.mkdir(mode=0o700, exist_ok=True)
        if beside.stat().st_uid == os.geteuid() and os.access(beside, os.W_OK):
            return beside
    except OSError:
        pass
    return Path(os.environ.get("XDG_CACHE_HOME") or Path.home() / ".cache") / "jasminedome-kept"


def memory():
    """The bytes of memory that are free."""
    for said in Path("/proc/meminfo").read_text().splitlines():
        if said.startswith("MemAvailable:"):
            return 1024 * int(said.split()[1])
    return 0


def lanes():
    """How many checks go side by side: one a processor, where there are 4 GB of memory for each."""
    return max(1, min(len(os.sched_getaffinity(0)), memory() // 4_000_000_000))


class Libraries:
    """The libraries below some crates, as the prover built them of the files that stand there now."""

    def __init__(self, sources):
        # For each crate, where it finds itself and those below it: they fit together only as they were built.
        self.sources, self.room, self.at, self.gate = sources, None, {}, None
        self.is_kept = home() is not None and hasattr(rt(), "Kept")
        # What stands in out/ as `rt ci` begins comes back there as it ends, and what it made goes.
        self.stays = not any((TOP / "crates").glob("*/out/rlib"))

    def take_all(self, crates):
        """Finds those of each crate: those that `rt ci` kept or left, and else those that are built now."""
        self.take_proved(crates)
        self.take_left([it for it in crates if it not in self.at])
        for crate in crates:
            if crate not in self.at:
                self.build(crate)

    def take_proved(self, crates):
        """Takes what `rt ci` has proved, which may still be running."""
        if self.is_kept:
            self.take_kept(crates)
        elif self.stays:
            self.take_made(crates)

    def take_made(self, crates):
        """Takes what an `rt ci` that keeps nothing has made in out/, by what it says of each crate once that is proved."""
        log = TOP / "out" / "ci.log"
        said = log.read_text(encoding="utf-8", errors="replace") if log.is_file() else ""
        proved = set(re.findall(r"^rt: (\w+) proved$", said, re.M))
        for crate in crates:
            below = self.sources.below(crate)[:-1]
            if crate not in self.at and proved.issuperset(below) and all((self.in_out(crate)[it] / "format").is_file() for it in below):
                self.at[crate] = self.in_out(crate)

    def take_kept(self, crates):
        """Takes what `rt ci` proved of the same files over the same libraries, by the sums under which it keeps that.

        A crate's own proof need not be there yet: `rt ci` may be at it."""
        try:
            self.gate = self.gate or KeptByGate(self.sources)
            found = self.gate.look(self.sources.below(*crates))
        except Exception as error:  # a kit that keeps it otherwise
            print(f"kit: what rt ci kept can't be read ({type(error).__name__}: {error}), so libraries are built", file=sys.stderr)
            return
        for crate in crates:
            names = self.sources.below(crate)
            if crate in self.at or not all(it in found for it in names[:-1]):
                continue
            self.room = self.room or tempfile.mkdtemp(prefix="libraries-")
            for name in names[:-1]:
                link_files(*found[name], Path(self.room))
            self.at[crate] = {name: Path(self.room) / "rlib" / f"{name}.rlib" for name in names}

    def in_out(self, crate):
        return {name: TOP / "crates" / name / "out" / "rlib" / f"{name}.rlib" for name in self.sources.below(crate)}

    def take_left(self, crates):
        """Takes what `rt ci` left in out/, where it could keep nothing: ./prove notes of which sources that is."""
        if not crates:
            return
        words = ["bash", "-c", 'top=$1 && . "$top/release/common.sh" && [ "$(told "$record" sources)" = "$(sources_sum)" ]', "", str(TOP)]
        if subprocess.run(words, stderr=subprocess.DEVNULL).returncode:
            return
        for crate in crates:
            rlibs = [it for name, it in self.in_out(crate).items() if not self.sources.is_program(name)]
            # What rt itself built for later checks has a stamp, and may be of other sources.
            if all((it / "format").is_file() and not it.with_name("stamp").exists() for it in rlibs):
                self.at[crate] = self.in_out(crate)

    def build(self, crate):
        """Has rt prove the crate and build the libraries below it; rt builds none that stands there of the same files."""
        verb = "check" if self.sources.is_program(crate) else "lib"
        ran = subprocess.run(["rt", verb, "--jobs", "1"], cwd=TOP / "crates" / crate, stdin=subprocess.DEVNULL, stdout=subprocess.PIPE, stderr=subprocess.STDOUT, errors="replace")
        if ran.returncode:
            print(f"kit: {crate} isn't proved as it stands:\n{ran.stdout[-2000:]}", file=sys.stderr)
        else:
            self.at[crate] = self.in_out(crate)

    def words(self, crate):
        """The words that check the crate in a copy of its folder, or None where a library below isn't there."""
        if crate not in self.at:
            return None
        kit, at = home(), self.at[crate]
        words = [str(kit / "bin" / "rattle"), "check", "--crate-name", crate]
        words += ["src/main.rt" if self.sources.is_program(crate) else "src/lib.rt"]
        for name in ("std", *self.sources.of_kit[crate]):
            words += ["--extern", f"{name}={kit}/rlibs/{name}.rlib"]
        words += ["-L", f"dependency={kit}/rlibs"]
        for name in self.sources.uses[crate]:
            words += ["--extern", f"{name}={at[name]}"]
        for folder in dict.fromkeys(str(at[name].parent) for name in self.sources.below(crate)[:-1]):
            words += ["-L", f"dependency={folder}"]
        words += ["--antt-project", f"{kit}/rattle/logic/antt-project.json", "--logic-built", f"{kit}/logic_built"]
        return [*words, "--links", f"{crate}=", "--jobs", "1"]

    def close(self):
        if self.room:
            shutil.rmtree(self.room, ignore_errors=True)


def rt():
    """The kit's own rt, for what no command of it does."""
    sys.dont_write_bytecode = True
    loader = importlib.machinery.SourceFileLoader("rt_of_the_kit", str(home() / "bin" / "rt"))
    made = importlib.util.module_from_spec(importlib.util.spec_from_loader("rt_of_the_kit", loader))
    loader.exec_module(made)
    return made


def builds(keeps):
    """The kit's own rt, as programs are built with it here: what a crate is made of is looked at once, and not once for each path of
    crates.txt that leads to it; and the proofs of functions are kept for later checks, or libraries are what they state alone."""
    kits = rt()
    if hasattr(kits, "share_work"):
        kits.share_work(True)
    else:
        share_sums(kits.rtlib.Crate)
    if not keeps:
        keep_statements(kits.rtlib)
    return kits


def keep_statements(rtlib):
    """Has a library built as `rt ci` builds it: with what it states, and not with its proofs. Its stamp has a name of its own, since other
    commands of rt want the proofs too, and build their own. Where a kit is put together otherwise, it builds as it does."""
    of = rtlib.Crate
    if not all(hasattr(of, it) for it in ("build_rlib", "call", "has_kept", "is_built", "stamp", "words")) or not hasattr(rtlib, "RATTLE"):
        return

    def stamp_of(crate):
        return Path(crate.folder) / "out" / "rlib" / "statements"

    def is_built(crate):
        return os.path.isdir(crate.rlib) and stamp_of(crate).is_file() and stamp_of(crate).read_text(encoding="utf-8") == crate.stamp()

    def build_rlib(crate, flags, anew):
        if crate.is_built():
            return 0
        stamp, kept = crate.stamp(), stamp_of(crate)
        shutil.rmtree(kept.parent, ignore_errors=True)
        kept.parent.mkdir(parents=True)
        status = crate.call(rtlib.RATTLE, "build", *crate.words(flags), "--statements", "-o", crate.rlib)
        if status == 0 and stamp == crate.stamp():
            kept.write_text(stamp, encoding="utf-8")
        return status

    rtlib.KEPT, of.has_kept, of.is_built, of.build_rlib = [], lambda _: False, is_built, build_rlib


def share_sums(of):
    """Has the sum of a crate's files take that of each crate below it once, and not once for each path that leads there."""
    own, asked = of.stamp, threading.local()

    def stamp(crate):
        sums, is_first = getattr(asked, "sums", None), not hasattr(asked, "sums")
        if is_first:
            sums = asked.sums = {}
        try:
            if crate.folder not in sums:
                sums[crate.folder] = own(crate)
            return sums[crate.folder]
        finally:
            if is_first:
                del asked.sums

    of.stamp = stamp


class KeptByGate:
    """What `rt ci` proved on this machine of the crates as they stand."""

    def __init__(self, sources):
        kits = rt()
        kits.Crate.allowed = kits.handles_of(str(TOP))
        kits.rtlib.Crate = kits.Crate
        self.sources, self.kept, self.found = sources, kits.Kept([]), {}
        self.crates = {it.name: it for it in kits.rtlib.crates_below(str(TOP))}
        # Where each is kept, once those below it are.
        self.entries = {}

    def look(self, names):
        """For each of these crates that is kept: where its files are, and their paths below out/. Each comes behind those that it uses."""
        for name in names:
            if name not in self.found and all(it in self.found for it in self.sources.below(name)[:-1]):
                self.look_at(name)
        return self.found

    def look_at(self, name):
        if name not in self.entries:
            self.entries[name] = Path(self.kept.place(self.crates[name], False, self.kept.key(self.crates[name])))
        entry = self.entries[name]
        if not (entry / "made.json").is_file():
            return
        made = json.loads((entry / "made.json").read_text(encoding="utf-8"))
        files = [(path, total) for path, total in made["files"]]
        for number, (path, total) in enumerate(files):
            if hashlib.sha256((entry / str(number)).read_bytes()).hexdigest() != total:
                raise ValueError(f"{entry} is damaged")
        self.kept.rlibs[name] = hashlib.sha256(repr([] if self.sources.is_program(name) else files).encode()).hexdigest()
        self.found[name] = entry, [path for path, _ in files]


def link_files(entry, paths, room):
    """Puts the files of what is kept under their own paths into the room, where they aren't there yet."""
    for number, path in enumerate(paths):
        to = room / path
        if to.exists():
            continue
        to.parent.mkdir(parents=True, exist_ok=True)
        try:
            os.link(entry / str(number), to)
        except OSError:
            shutil.copyfile(entry / str(number), to)


if __name__ == "__main__":
    print(lanes())
