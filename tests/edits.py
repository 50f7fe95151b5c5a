#!/usr/bin/env python3
"""Tries the must-fail edits of tests/edits, and of crates/*/must-fail: wrong bodies, each of which its own crate's contracts have to refuse.

usage: tests/edits.py [--anew] [--as-they-stand] [--beside FILE] [--by-search] [--lanes N] [--only LETTERS] [CRATE..]

All edits of a crate go into one copy of it, and one check proves the functions that they change; of two edits of one function
the second changes a copy of it, which has its contract and its proof under another name, and its cycle with it where it is in
one. A caller's proof rests on nothing of a callee but its contract, so every other function of the copy is left with that alone:
its body is taken out, and a hole stands for its proof. An edit is refused where its function is not proved, and for what it does:
a goal of its own function is left open, or an answer to one no longer proves it. A line '# clause: NAME' names the clause of its
function that refuses it, and '# clause: (none)' says that a goal inside it does, as of a call or a loop: the other clauses of what
the function ensures are then left out. Where nothing but names that are gone tells against it, it shows nothing of the contract,
and counts as not refused. The goals in an edit's line '# leave: GOAL..' are left out: others refuse it sooner. A line
'# answer: GOAL c = TERM' answers a goal of its function which the tactics prove where the body is right, and lines
'# use: MODULE.{..}' bring what the term names: an answer that no longer fits refuses at once, where a search has to come to its
end. What isn't refused beside such functions is tried again in a copy that has each with its body and its proof, and what comes
of that stands. An edit with a line '# compiler: TEXT' is one that must not compile: the compiler has to refuse it by an error
with this text.

A crate is tried over the libraries below it as `rt ci` built and kept them on this machine, or else over those that `rt lib`
builds. What an edit came to is kept beside the kit by the checksums of all that it stands on, and not tried again before one
of these changes; --anew tries all. The last line is `N refused, M not`, and the status 0 where M is.

With --beside FILE it goes along with an `rt ci` that runs for as long as the file is there: a crate's edits are tried once the
libraries below it are proved, by processors that `rt ci` leaves idle.

With --as-they-stand the edits are left out, and nothing is kept: the same checks have to prove each function, so that what
refuses an edit is the edit. The last line is then `N proved as they stand, M not`.

With --by-search the edits' own answers are left out, so that the tactics have to fail where they stood, and nothing is kept.
"""

import argparse
import hashlib
import json
import os
import re
import shutil
import signal
import subprocess
import sys
import tempfile
import threading
import time
from collections import Counter
from concurrent.futures import FIRST_COMPLETED, ThreadPoolExecutor, wait
from pathlib import Path

sys.path.insert(0, str(Path(__file__).resolve().parent))

import kit  # noqa: E402
from functions import answers_all_clauses, can_be_copied, clause_of_goal, clauses_of, copy_function, goals_answered  # noqa: E402
from functions import give_answers, leave_clauses, leave_contracts, leave_goals, unit_at, unit_named, units_of  # noqa: E402
from sources import TOP, Sources  # noqa: E402

EDITS = TOP / "tests" / "edits"
REFUSED, BY_NAMES, MISSED, BAD, UNTRIED = "refused", "refused for a name alone", "NOT REFUSED", "BAD EDIT", "NOT TRIED"
SETTLED = (REFUSED, BY_NAMES, MISSED, BAD)

# Errors that only say that a name is gone.
NAMES = re.compile(r"has no field|is not in scope|has no `|was not admitted|is no name")
# Errors by which the edited text itself can't be read.
UNREAD = re.compile(r"is not in scope|has no field|is no name|operand is missing|expected the end|cannot continue")
# Where a person wants to read what the checks said.
LOGS = os.environ.get("EDITS_LOGS")
TOLD = re.compile(r"(?:note: )?(?:\./)?((?:src|proofs|specs)/[^:\s]+):(\d+):\d+: (.*)")
OPEN = re.compile(r"it is not proved that")
FALSE = "the facts known there allow values at which this goal is false"
# What the prover says of a function that it accepts: the last two where it is told to check past the holes of others.
ACCEPTED = ("proved", "no holes", "depends on a hole in ")
# Bytes of memory that have to be free for a check that begins while `rt ci` runs: that counts on what was free when it began.
ROOM_BESIDE = 6_000_000_000
TURN = 5  # seconds between two looks at what `rt ci` has kept


class Edit:
    def __init__(self, crate, file):
        self.crate, self.file, self.name = crate, file, file.stem
        self.label = f"{crate}/{self.name}"
        self.pairs, self.only, self.lemmas, self.fault = [], [], [], None
        # Goals of its function that are left out, since others refuse it sooner.
        self.goals_left = []
        # The clauses of its function that are left, where a line says which refuses it.
        self.clauses = None
        # Answers to goals of its function that have none: the goal's name beside the edit, and without it, and the term; and what the terms name.
        self.answers, self.uses = [], []
        # What the compiler has to say of an edit that must not compile.
        self.compiler = None
        # Whether it stands in no function, so that it changes more than one.
        self.is_wide = False
        # The functions that it changes, and whether a copy of its function can be changed in place of that.
        self.units, self.is_for_copies = [], False
        path = old = None
        for line in file.read_text(encoding="utf-8").split("\n"):
            if line.startswith("file: "):
                path = line[len("file: ") :].strip()
                if not path.startswith("src/") or os.path.normpath(path) != path:
                    self.fault = f"{path} is no file of src/: an edit of a contract, a definition or a proof shows nothing"
            elif line.startswith("old: "):
                old = line[len("old: ") :]
            elif line.startswith("new:"):
                new = line[len("new:") :]
                if path is None or not old:
                    self.fault = "a 'new:' line stands before a 'file:' or 'old:' line"
                    break
                self.pairs.append((path, old, new[1:] if new.startswith(" ") else new))
                old = None
            elif line.startswith("# only: "):
                # The functions that have to refuse an edit that stands in none, as one of a type.
                self.only += line[len("# only: ") :].split()
            elif line.startswith("# compiler: "):
                self.compiler = line[len("# compiler: ") :].strip()
            elif line.startswith("# leave: "):
                self.goals_left += line[len("# leave: ") :].split()
            elif line.startswith("# clause: "):
                self.clauses = [it for it in line[len("# clause: ") :].split() if it != "(none)"]
            elif line.startswith("# answer: "):
                goal, _, term = line[len("# answer: ") :].partition(" ")
                beside, _, alone = goal.partition("|")
                self.answers.append((beside, alone or beside, term.strip()))
            elif line.startswith("# use: "):
                self.uses.append(line[len("# ") :].replace("use: ", "use ", 1).strip())
            elif line.startswith("# lemma: "):
                # The files of lemmas that say of the type what the functions' contracts rest on.
                self.lemmas += line[len("# lemma: ") :].split()
            elif line.strip() and not line.startswith("#"):
                self.fault = f"the line '{line[:60]}' is not read"
        if not self.pairs and not self.fault:
            self.fault = "it has no 'old:' and 'new:' pair"

    def apply(self, room):
        """Writes the edit into the copy of the crate, and gives the functions that it changes, or why it can't be applied."""
        texts, units = {}, {}
        for path, old, new in self.pairs:
            if path not in texts:
                if not (room / path).is_file():
                    return None, f"there is no {path}"
                texts[path] = (room / path).read_text(encoding="utf-8")
            count = texts[path].count(old)
            if count != 1:
                return None, f"an 'old:' text stands in {path} {count} times, and not once"
            at = texts[path].index(old)
            unit = unit_at(room, path, texts[path], at)
            if unit:
                units[unit.path] = unit
            texts[path] = texts[path].replace(old, new)
        self.is_wide = not units or self.compiler is not None
        if not units and not self.only:
            units = {unit.path: unit for path, text in texts.items() for unit in units_of(room, path, text)}
            if not units:
                return None, "no function stands in its file: name those that have to refuse it, by a line '# only: NAME..'"
        for path, text in texts.items():
            if (room / path).read_text(encoding="utf-8") == text:
                return None, "it changes nothing"
        for name in self.only:
            unit = unit_named(room, name)
            if not unit:
                return None, f"no function {name} stands in src/"
            units[name] = unit
        # A goal that is left out beside its answer would be declared twice, and that alone would refuse any edit.
        for unit in units.values():
            for goal in goals_answered(room, unit, [*self.goals_left, *(it for it, _, _ in self.answers)]):
                return None, f"a line '# leave:' or '# answer:' names {goal}, which has an answer"
        for unit in units.values():
            text = texts.get(unit.file) or (room / unit.file).read_text(encoding="utf-8")
            named = {name for name, _, _ in clauses_of(text.split("\n"), unit)}
            for name in set(self.clauses or ()) - named:
                return None, f"a line '# clause:' names {name}, which is no clause of what {unit.path} ensures"
        for path, text in texts.items():
            (room / path).write_text(text, encoding="utf-8")
        if self.only:
            units = {it: units[it] for it in self.only}
        return list(units.values()), None

    def find_units(self, room):
        """Notes which functions it changes of a copy of the crate, and leaves the copy as it is; gives why it can't be applied."""
        units, why = (None, self.fault) if self.fault else self.apply(room)
        put_back(self.crate, self, room)
        self.units = units or []
        if not why and len(units) == 1 and not self.is_wide and not self.only:
            of = units[0]
            rows = "\n".join((room / of.file).read_text(encoding="utf-8").split("\n")[of.head : of.body[1] + 1])
            self.is_for_copies = all(path == of.file for path, _, _ in self.pairs) and self.in_text(rows) is not None and can_be_copied(self.crate, room, of)
        return why

    def leave_out(self, room, unit, as_it_stands):
        """Leaves out of its function in the copy of the crate, or of the copy of that, the clauses and the goals that don't have to refuse it."""
        goals = self.goals_left
        if self.clauses is not None and unit.path != self.units[0].path and not unit.cycle and not answers_all_clauses(room, unit):
            leave_clauses(room, unit, self.clauses)
            goals = [it for it in goals if clause_of_goal(it) in (None, *self.clauses)]
        if not as_it_stands:
            leave_goals(self.crate, room, unit, goals)
        answers = [(alone if as_it_stands else beside, term) for beside, alone, term in self.answers]
        give_answers(self.crate, room, unit, [it for it in answers if it[0] != "-"], self.uses)

    def in_text(self, text):
        """The text of its function as it changes that, or None where it doesn't all stand there."""
        for _, old, new in self.pairs:
            if text.count(old) != 1:
                return None
            text = text.replace(old, new)
        return text

    def apply_to_copy(self, room, number, as_it_stands):
        """Writes a copy of its function into the copy of the crate, with the edit in it, and gives that."""
        of = self.units[0]
        name = f"{of.path.rpartition('::')[2]}_{number}"
        return copy_function(self.crate, room, of, name, (lambda it: it) if as_it_stands else self.in_text)


def files_of(crate):
    """The files of the crate's edits: those of tests/edits, and those that `rt ci` tries too."""
    return sorted([*(EDITS / crate).glob("*.edit"), *(TOP / "crates" / crate / "must-fail").glob("*.edit")], key=lambda it: it.name)


class Checks:
    """Runs the checks, and ends with all of them where it is told to end. `beside` is there for as long as `rt ci` runs."""

    def __init__(self, beside):
        self.beside, self.running, self.is_over, self.turn = beside, set(), False, threading.Lock()
        # How many checks each crate took, and seconds of a processor.
        self.counts, self.seconds = Counter(), Counter()

    def is_beside(self):
        return self.beside is not None and self.beside.exists()

    def run(self, crate, words, room):
        """What a check of the crate came to."""
        while self.is_beside() and kit.memory() < ROOM_BESIDE and not self.is_over:
            time.sleep(1)
        if self.is_beside():
            words = ["nice", "-n", "19", *words]
        with self.turn:
            if self.is_over:
                raise KeyboardInterrupt
            child = subprocess.Popen(words, cwd=room, stdin=subprocess.DEVNULL, stdout=subprocess.PIPE, stderr=subprocess.STDOUT, text=True, errors="replace")
            self.running.add(child)
        with child.stdout as said:
            text = said.read()
        _, status, used = os.wait4(child.pid, 0)
        child.returncode = os.waitstatus_to_exitcode(status)
        with self.turn:
            self.running.discard(child)
            self.counts[crate] += 1
            self.seconds[crate] += used.ru_utime + used.ru_stime
        return subprocess.CompletedProcess(words, child.returncode, text)

    def end(self):
        with self.turn:
            self.is_over = True
            for child in self.running:
                child.kill()


class Batch:
    """Edits of one crate that go into one check: of two that change one function the second changes a copy of it."""

    def __init__(self, crate, number):
        self.crate, self.number, self.edits, self.keys, self.is_alone = crate, number, [], set(), False

    def takes(self, edit):
        keys = {it.key for it in edit.units}
        if self.edits and (edit.is_wide or self.is_alone or keys & self.keys and not edit.is_for_copies):
            return False
        self.edits.append(edit)
        self.keys |= keys
        self.is_alone = edit.is_wide
        return True


def copied(crate, room):
    for part in ("src", "specs", "proofs"):
        if (TOP / "crates" / crate / part).is_dir():
            shutil.copytree(TOP / "crates" / crate / part, room / part)


def put_back(crate, edit, room):
    """Takes the edit from the copy again."""
    for path in {path for path, _, _ in edit.pairs}:
        if (room / path).is_file():
            shutil.copyfile(TOP / "crates" / crate / path, room / path)


def batches_of(crate, edits):
    """Batches for the edits, and of those that can't be applied why."""
    batches, faults = [], {}
    with tempfile.TemporaryDirectory(prefix="edits-") as room:
        room = Path(room)
        if edits:
            copied(crate, room)
        for edit in edits:
            why = edit.find_units(room)
            if why:
                faults[edit] = why
            elif not any(it.takes(edit) for it in batches):
                batches.append(Batch(crate, len(batches) + 1))
                batches[-1].takes(edit)
    return batches, faults


def applied(edits, room, as_they_stand):
    """Applies the edits to the copy of the crate, one of a function that another has changed to a copy of that; gives which functions each changes."""
    units, keys, second = {}, set(), []
    for edit in edits:
        # Clauses are left out of a copy alone, since what calls the function has to find them all.
        if keys & {it.key for it in edit.units} or edit.clauses is not None and edit.is_for_copies:
            second.append(edit)
            continue
        found, why = edit.apply(room)
        if as_they_stand:
            put_back(edit.crate, edit, room)
        if why is None:
            units[edit] = found
            keys |= {it.key for it in found}
    # A copy is one of the function as it stands in the crate, and goes behind all that stands in its file.
    for number, edit in enumerate(second, 2):
        copy = edit.apply_to_copy(room, number, as_they_stand) if edit.is_for_copies else None
        if copy:
            units[edit] = [copy]
    return units


def check(batch, edits, words, checks, as_they_stand=False):
    """Checks the crate with these edits of the batch, and gives what each came to; one that doesn't go with the others stands in no answer.

    Where the words let holes pass, each function that no edit changes is left with its contract alone."""
    with tempfile.TemporaryDirectory(prefix="edits-") as room:
        room = Path(room)
        copied(batch.crate, room)
        units = applied(edits, room, as_they_stand)
        changed = [it for found in units.values() for it in found]
        is_whole = "--allow-holes" not in words
        if not is_whole:
            leave_contracts(batch.crate, room, changed)
            for edit, found in units.items():
                edit.leave_out(room, found[0], as_they_stand)
        # What an edit adds or takes away is one line for one line, so the places of functions stay.
        asked = [word for name in sorted({it.path for it in changed}) for word in ("--only", name)]
        ran = checks.run(batch.crate, [*words, *asked], room)
        if LOGS:
            named = f"{batch.crate}-{batch.number if len(edits) > 1 else edits[0].name}{'-whole' if is_whole else ''}"
            Path(LOGS, f"{named}.log").write_text(f"{' '.join(asked)}\n{ran.stdout}", encoding="utf-8")
        return {edit: judged(edit, found, ran) for edit, found in units.items()}


def messages(text):
    """The messages of a check, each on one line: the prover breaks long ones, and begins each further line with a space."""
    return re.sub(r"\n +", " ", text).split("\n")


def judged(edit, units, ran):
    """What the check says of the edit, and by which words."""
    lines = messages(ran.stdout)
    if edit.compiler is not None and ran.returncode == 1:
        refused = next((it for it in lines if re.search(r"\berror\b", it) and edit.compiler in it), None)
        if refused:
            return REFUSED, re.sub(r"^(\./)?", "", refused)[:200]
    said = {}
    for line in lines:
        found = re.match(rf"fn {edit.crate}::(\S+): (.*)", line)
        if found:
            said[found[1]] = found[2]
    mine = {name: status for name, status in said.items() if any(it.owns_name(name) for it in units)}
    # 3 says that the prover couldn't tell of some function, which its own line says too.
    if ran.returncode not in (0, 1, 3) or not mine:
        first = next((it for it in lines if "error" in it), lines[0])
        if ran.returncode == 1 and re.search(r"\berror\[[\w-]+\]", ran.stdout):
            return BAD, f"it doesn't reach the prover: {first[:200]}"
        limit = next((it for it in lines if "no verdict" in it), first)
        return UNTRIED, f"its check ended with status {ran.returncode}: {limit[:200]}"
    if edit.compiler is not None:
        return MISSED, f"it compiles, and the compiler was to say '{edit.compiler}'"
    unproved = {name: status for name, status in mine.items() if status.startswith(("not proved", "no proof"))}
    if not unproved:
        if all(status.startswith(ACCEPTED) for status in mine.values()):
            return MISSED, f"{', '.join(mine)} is still proved"
        return UNTRIED, "; ".join(f"{name}: {status}" for name, status in mine.items())[:200]
    opened, refused, gone, gone_goals, is_false = [], [], [], set(), False
    for line in lines:
        told = TOLD.match(line)
        if not told:
            continue
        file, row, text = told[1], int(told[2]), told[3]
        if file.startswith("src/") and any(it.owns_line(file, row) for it in units):
            if OPEN.search(text):
                opened.append((re.findall(r"\(`([^`]+)`\)", text), line))
                is_false = is_false or FALSE in text
            elif text.startswith("error: "):
                if UNREAD.search(re.sub(r"`[^`]*`", "``", text)):
                    return BAD, f"the prover can't read the edited text: {line[:200]}"
                refused.append(line)
        elif (file in edit.lemmas or file.startswith("proofs/") and any(it.owns_proof(file) for it in units)) and text.startswith("error: "):
            if NAMES.search(text):
                gone.append(line)
                gone_goals.update(re.findall(r"has no `([^`]+)`", text))
            else:
                refused.append(line)
    # A goal that was renamed stands open for want of its answer: it says something only where its answer is no longer there to be missed.
    if refused or opened and (is_false or not gone or len(opened) > len(gone_goals)):
        first = refused[0] if refused and not is_false else next((it for _, it in opened if FALSE in it), opened[0][1] if opened else refused[0])
        return REFUSED, re.sub(r"^(note: )?(\./)?", "", first)[:200]
    if gone or opened:
        return BY_NAMES, (gone or [opened[0][1]])[0][:200]
    # A function without a proof of its own has no line for an open goal: its verdict says which goal the search left.
    left = [f"{name}: {status}" for name, status in unproved.items() if "`search` did not prove `" in status]
    if left:
        return REFUSED, left[0][:200]
    return BY_NAMES, f"no goal of its own is left open: {'; '.join(f'{name}: {status}' for name, status in unproved.items())[:200]}"


class Results:
    """What edits came to earlier on this machine, each by the sum of all that it stands on."""

    def __init__(self, sources, asked):
        self.at, self.sources, self.asked = kit.store() / "edits", sources, asked
        judge = b"".join(Path(__file__).with_name(it).read_bytes() for it in ("edits.py", "functions.py", "sources.py", "kit.py"))
        self.judge = hashlib.sha256(judge).hexdigest()

    def name(self, edit):
        made = (kit.line(), self.judge, self.sources.sum_below(edit.crate), edit.name, edit.file.read_text(encoding="utf-8"))
        return hashlib.sha256(repr(made).encode()).hexdigest()

    def known(self, edit):
        if self.asked.anew or self.asked.as_they_stand or self.asked.by_search:
            return None
        try:
            found = json.loads((self.at / self.name(edit)).read_text(encoding="utf-8"))
            return (found["kind"], found["text"]) if found["kind"] in SETTLED else None
        except (OSError, ValueError, KeyError, TypeError):
            return None

    def keep(self, edit, kind, text):
        if kind not in SETTLED or self.asked.as_they_stand or self.asked.by_search:
            return
        try:
            self.at.mkdir(parents=True, exist_ok=True)
            with tempfile.NamedTemporaryFile("w", dir=self.at, delete=False, encoding="utf-8") as new:
                json.dump({"edit": edit.label, "kind": kind, "text": text}, new)
            os.replace(new.name, self.at / self.name(edit))
        except OSError:
            pass


def tried(batch, libraries, checks, as_they_stand):
    """What each edit of the batch comes to.

    Beside functions with nothing but their contracts a check may only refuse: what else it says, a check of the whole has to
    say too. Where edits don't go together there, each is tried by itself."""
    words = libraries.words(batch.crate)
    if words is None:
        return {edit: (UNTRIED, "the crate, or a library below it, isn't built as it stands") for edit in batch.edits}
    found, left = {}, batch.edits
    # Of a text that must not compile the prover sees nothing, and the compiler has to see it all.
    if as_they_stand or not any(it.compiler for it in left):
        found = check(batch, left, [*words, "--allow-holes"], checks, as_they_stand)
        # One that doesn't compile keeps the others from the prover.
        for edit in left if len(left) > 1 else []:
            if edit not in found or found[edit][0] in (BAD, UNTRIED):
                found.update(check(batch, [edit], [*words, "--allow-holes"], checks, as_they_stand))
        left = [] if as_they_stand else [it for it in left if it not in found or found[it][0] != REFUSED]
    if left:
        found.update(check(batch, left, words, checks))
    for edit in left:
        if edit not in found or found[edit][0] in (BAD, UNTRIED) and len(left) > 1:
            found.update(check(batch, [edit], words, checks))
    return found


def asked_for():
    parser = argparse.ArgumentParser("edits.py", description="Tries the must-fail edits of tests/edits.")
    parser.add_argument("--anew", action="store_true", help="try those too whose result is kept")
    parser.add_argument("--as-they-stand", action="store_true", help="leave the edits out: each function has to be proved")
    parser.add_argument("--beside", type=Path, metavar="FILE", help="go along with an rt ci that runs for as long as FILE is there")
    parser.add_argument("--by-search", action="store_true", help="leave the edits' own answers out")
    parser.add_argument("--lanes", type=int, help="how many checks go side by side")
    parser.add_argument("--only", help="edits whose names have these letters")
    parser.add_argument("crates", nargs="*", metavar="CRATE")
    return parser.parse_args()


def try_all(batches, libraries, sources, asked, tell):
    """Tries the batches of all crates, the crates side by side, tells what each edit comes to, and gives the checks that it took."""
    checks, telling = Checks(asked.beside), threading.Lock()

    def work(crate):
        for batch in batches[crate]:
            found = tried(batch, libraries, checks, asked.as_they_stand)
            with telling:
                for edit, (kind, text) in found.items():
                    tell(edit, kind, text)

    # The longest checks first, of those whose libraries are there.
    left, running, lanes = sorted(batches, key=lambda it: -sources.size_below(it)), set(), max(1, asked.lanes or kit.lanes())
    with ThreadPoolExecutor(lanes) as pool:
        try:
            is_whole = False
            while left or running:
                if not is_whole:
                    is_whole = not checks.is_beside()
                    (libraries.take_all if is_whole else libraries.take_proved)(left)
                ready = [it for it in left if is_whole or it in libraries.at]
                for crate in ready[: lanes - len(running)]:
                    left.remove(crate)
                    running.add(pool.submit(work, crate))
                if not running:
                    time.sleep(TURN)
                done, running = wait(running, TURN, FIRST_COMPLETED)
                for it in done:
                    it.result()
        finally:
            checks.end()
            libraries.close()
    return checks


def main():
    # Who is told to end ends the checks too.
    signal.signal(signal.SIGTERM, lambda *_: sys.exit(128 + signal.SIGTERM))
    asked, sources = asked_for(), Sources()
    # What stands in out/ counts as it stood before an `rt ci` beside this makes anything.
    libraries = kit.Libraries(sources)
    crates = asked.crates or sorted({*(it.name for it in EDITS.iterdir()), *(it for it in sources.uses if files_of(it))})
    for it in crates:
        if it not in sources.uses or not files_of(it):
            print(f"edits: no edits of a crate {it} stand in tests/edits or in its must-fail", file=sys.stderr)
            return 2
    edits = [Edit(crate, file) for crate in crates for file in files_of(crate)]
    edits = [it for it in edits if not asked.only or asked.only in it.name]
    for edit in edits if asked.by_search else ():
        edit.answers = []
    results, start = Results(sources, asked), time.monotonic()
    told = {edit: found for edit in edits for found in [results.known(edit)] if found}
    old = len(told)
    if old:
        print(f"edits: {old} of {len(edits)} were tried by an earlier run on this machine, and nothing that they stand on has changed", flush=True)
    batches = {}
    for crate in crates:
        made, faults = batches_of(crate, [it for it in edits if it.crate == crate and it not in told])
        if made:
            batches[crate] = made
        told.update({edit: (BAD, why) for edit, why in faults.items()})

    def tell(edit, kind, text):
        told[edit] = kind, text
        results.keep(edit, kind, text)
        print(f"edits: {edit.label}: {kind}: {text}", flush=True)

    checks = try_all(batches, libraries, sources, asked, tell)
    for crate, seconds in checks.seconds.most_common():
        print(f"edits: {crate}: {sum(len(it.edits) for it in batches[crate])} edits took {checks.counts[crate]} checks and {seconds:.0f} s of a processor")
    wanted, word = (MISSED, "proved as they stand") if asked.as_they_stand else (REFUSED, "refused")
    for edit in edits:
        if told[edit][0] != wanted:
            print(f"edits: {edit.label}: {told[edit][0]}: {told[edit][1]}")
    well = sum(told[it][0] == wanted for it in edits)
    print(f"edits: {len(edits) - old} of {len(edits)} were tried in this run, in {sum(checks.counts.values())} checks and {time.monotonic() - start:.0f} s; the others are kept")
    print(f"{well} {word}, {len(edits) - well} not")
    return 1 if well < len(edits) or not edits else 0


if __name__ == "__main__":
    sys.exit(main())
