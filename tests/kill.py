#!/usr/bin/env python3
"""Kills the program again and again in the middle of its work, and holds what opens against a plain model.

kill.py [PROGRAM] [--times 30] [--seed N] [--seconds 1.0] [--patience 60]

A stream of writes, deletes, refreshes, commits, merges, snapshots and sweeps goes to `PROGRAM run FOLDER` until a SIGKILL. What
opens next has to be the last commit that was answered OK, or a later one that was sent: its token, its text, its items in order
and the text of each. The next life goes on from there, over the same folder. Where opening answers 31, the newest commit file
goes while a lower one is there (docs/OPERATIONS.md). After a kill within a COMMIT that leaves its file, that file is also cut
short in a copy of the folder, as a loss of power may leave it, and the copy has to come back the same way.

A kill loses nothing that the program has handed to the system. What a loss of power does to a disk isn't tried here.
"""

import argparse
import json
import os
import queue
import random
import re
import shutil
import signal
import subprocess
import sys
import tempfile
import threading
import time
from dataclasses import dataclass, field
from pathlib import Path

# Small segments and few at once, so that merges are under way most of the time.
SCHEMA = 'SCHEMA 3 40 {"brand":"keyword","color":"facet","price":"number","title":"text"}'
BRANDS = ("acme", "zed", "Nord & Söhne", "ox")
COLORS = ("red", "blue", "grey", "night blue")
WORDS = ("shoe", "boot", "sock", "wool", "running", "hiking", "éclair", "red")
IDS = 1500
COMMIT_FILE = re.compile(r"segments_([1-9][0-9]*)\Z")


class Mismatch(Exception):
    """What the program did isn't what the model says."""


class Killed(Exception):
    """The program's output has ended."""


# The model: a catalogue as a list of items in order of addition, and what was committed of it.


@dataclass
class Shop:
    """The table after so many writes: of each id the number of the write that put it, the item and its text."""

    writes: int = 0
    items: dict = field(default_factory=dict)

    def put(self, item, text):
        self.writes += 1
        self.items.pop(item["id"], None)
        self.items[item["id"]] = (self.writes, item, text)

    def delete(self, name):
        self.writes += 1
        self.items.pop(name, None)

    def delete_where(self, accepts):
        self.writes += 1
        self.items = {name: row for name, row in self.items.items() if not accepts(row[1])}

    def count(self, accepts):
        return sum(1 for _, item, _ in self.items.values() if accepts(item))

    def copy(self):
        return Shop(self.writes, dict(self.items))


@dataclass
class Commit:
    """A commit that was sent: its text, and the table that it holds. Its generation is known once it was answered or found."""

    text: str
    shop: Shop
    generation: int = 0


NEVER_COMMITTED = "(nothing was committed yet)"


@dataclass
class Counts:
    """What the runs came to, for the closing line."""

    kills: int = 0
    in_commit: int = 0
    in_batch: int = 0
    while_opening: int = 0
    answered: int = 0
    later: int = 0
    torn: int = 0
    cut: int = 0
    lines: int = 0
    commits: int = 0
    items: int = 0


# The program as a child.


class Child:
    """The program over a folder. Its replies are read by a thread, line by line."""

    def __init__(self, program, folder, patience):
        self.patience = patience
        self.process = subprocess.Popen(
            [program, "run", str(folder)],
            stdin=subprocess.PIPE,
            stdout=subprocess.PIPE,
            stderr=subprocess.DEVNULL,
            bufsize=0,
            start_new_session=True,
        )
        self.replies = queue.SimpleQueue()
        self.reader = threading.Thread(target=self.read, daemon=True)
        self.reader.start()

    def read(self):
        rest = b""
        while True:
            data = os.read(self.process.stdout.fileno(), 1 << 16)
            if not data:
                break
            *whole, rest = (rest + data).split(b"\n")
            for line in whole:
                self.replies.put(line.decode())
        # A reply that was cut off is none.
        self.replies.put(None)

    def send(self, lines):
        data = memoryview("".join(line + "\n" for line in lines).encode())
        try:
            while data:
                data = data[os.write(self.process.stdin.fileno(), data) :]
        except BrokenPipeError:
            pass

    def reply(self):
        try:
            line = self.replies.get(timeout=self.patience)
        except queue.Empty:
            raise Mismatch(f"no reply came for {self.patience} s") from None
        if line is None:
            self.replies.put(None)
            raise Killed
        return line

    def ask(self, line):
        """The reply to the line: what stands behind the session's number, and the further lines of a page or a list."""
        self.send([line])
        first = self.after_session(line)
        more = 0
        if first.startswith("OK ") and line.split(" ", 2)[1] in ("FIND", "FILES"):
            more = int(first.split(" ")[1])
        return [first] + [self.after_session(line) for _ in range(more)]

    def after_session(self, line):
        session = line.split(" ", 1)[0] + " "
        reply = self.reply()
        if not reply.startswith(session):
            raise Mismatch(f"to '{line}' came '{reply}'")
        return reply[len(session) :]

    def kill(self):
        # The whole session, so that a program that is started by a script ends too.
        if self.process.poll() is None:
            os.killpg(self.process.pid, signal.SIGKILL)

    def end(self):
        """Waits for the end, lets go of the pipes, and tells the status."""
        status = self.process.wait(self.patience)
        self.reader.join(self.patience)
        self.process.stdin.close()
        self.process.stdout.close()
        return status

    def finish(self):
        """Ends the input, and waits for the program to end by itself."""
        self.process.stdin.close()
        status = self.process.wait(self.patience)
        self.reader.join(self.patience)
        self.process.stdout.close()
        if status != 0:
            raise Mismatch(f"the program ended with status {status} at the end of its input")


def commit_files(folder):
    """The generations whose commit files are in the folder, rising."""
    found = (COMMIT_FILE.match(name) for name in os.listdir(folder))
    return sorted(int(match.group(1)) for match in found if match)


# What a stream says.


def make_item(rng, name):
    item = {"id": name, "title": " ".join(rng.choices(WORDS, k=rng.randint(1, 6)))}
    if rng.random() < 0.9:
        item["brand"] = rng.choice(BRANDS)
    if rng.random() < 0.9:
        item["price"] = rng.randint(-5, 500)
    item["color"] = sorted(rng.sample(COLORS, rng.randint(0, 3)))
    return item


def make_query(rng):
    """A query, and which items it accepts."""
    brand, color, word = rng.choice(BRANDS), rng.choice(COLORS), rng.choice(WORDS)
    low = rng.randint(0, 490)
    kinds = (
        (f'brand:"{brand}"', lambda item: item.get("brand") == brand),
        (f'color:"{color}"', lambda item: color in item["color"]),
        (f"title:{word}", lambda item: word in item["title"].split(" ")),
        (f"price:[{low} TO {low + 9}]", lambda item: "price" in item and low <= item["price"] <= low + 9),
        (f'+title:{word} -color:"{color}"', lambda item: word in item["title"].split(" ") and color not in item["color"]),
        ("*:*", lambda item: True),
    )
    return rng.choice(kinds)


def is_told(*texts):
    """Accepts one of these replies."""
    return lambda reply: reply in texts


def is_like(pattern):
    form = re.compile(pattern + r"\Z")
    return lambda reply: form.match(reply) is not None


class Stream:
    """A life's lines: each with what accepts its reply, and the commit that it sends, if it sends one. The model goes along."""

    def __init__(self, rng, shop, life, generation):
        self.rng, self.shop, self.life, self.generation = rng, shop, life, generation
        self.commits = 0
        self.recorded = shop.copy()
        self.held = None
        self.snapshots = []
        kinds = {
            self.put: 70,
            self.delete: 8,
            self.delete_where: 0.5,
            self.refresh: 4,
            self.view: 4,
            self.commit: 2,
            self.merge: 14,
            self.sweep: 1.5,
            self.force: 0.3,
            self.prune: 1,
            self.snapshot: 0.6,
        }
        self.kinds, self.weights = list(kinds), list(kinds.values())

    def next(self):
        kind = self.rng.choices(self.kinds, self.weights)[0]
        return kind()

    def name(self):
        return f"item-{self.rng.randrange(IDS)}"

    def put(self):
        item = make_item(self.rng, self.name())
        # Spaces and letters past ASCII are kept as they come.
        text = json.dumps(item, ensure_ascii=self.rng.random() < 0.5, indent=self.rng.choice((None, None, 0)))
        text = text.replace("\n", " ")
        self.shop.put(item, text)
        return f"1 PUT {text}", is_told(f"1 OK {self.shop.writes}"), None

    def delete(self):
        name = self.name()
        self.shop.delete(name)
        return f"1 DEL {name}", is_told(f"1 OK {self.shop.writes}"), None

    def delete_where(self):
        query, accepts = make_query(self.rng)
        if query == "*:*" and self.rng.random() < 0.9:
            return self.delete()
        self.shop.delete_where(accepts)
        return f"1 DELW {query}", is_told(f"1 OK {self.shop.writes}"), None

    def refresh(self):
        self.recorded = self.shop.copy()
        return "1 REFRESH", is_told(f"1 OK {self.shop.writes}"), None

    def view(self):
        """Opens the newest view, asks for a total under the one that is held, or closes it."""
        if self.held is None:
            self.held = self.recorded
            return "2 OPEN", is_told(f"2 OK {self.held.writes}"), None
        if self.rng.random() < 0.3:
            token, self.held = self.held.writes, None
            return f"2 CLOSE {token}", is_told(f"2 OK {token}"), None
        query, accepts = make_query(self.rng)
        total = self.held.count(accepts)
        return f"2 FIND {self.held.writes} 0 . . {query}", is_told(f"2 OK 0 {total}"), None

    def commit(self):
        self.commits += 1
        sent = Commit(f"life {self.life}, commit {self.commits}, résumé {self.rng.randrange(10**9)}", self.shop.copy())

        def accepts(reply):
            if not re.match(r"1 OK [1-9][0-9]*\Z", reply):
                return False
            sent.generation = int(reply.split(" ")[2])
            is_above = sent.generation > self.generation
            self.generation = sent.generation
            return is_above

        return f"1 COMMIT {sent.text}", accepts, sent

    def merge(self):
        return "0 MERGE", is_like(r"0 OK (idle|begun \d+|copied \d+|done)"), None

    def force(self):
        return "0 FORCE", is_like(r"0 OK (idle|begun \d+|busy)"), None

    def sweep(self):
        return "0 SWEEP", is_like(r"0 OK \d+"), None

    def prune(self):
        return f"1 PRUNE {self.rng.randint(1, 4)}", is_like(r"1 OK \d+"), None

    def snapshot(self):
        """Takes a snapshot, or gives one back."""
        if self.snapshots and self.rng.random() < 0.5:
            return f"1 UNSNAP {self.snapshots.pop()}", is_like(r"1 OK \d+"), None

        def accepts(reply):
            # A life begins with a commit or without one: there may be none yet.
            if reply == "1 NO 26":
                return self.generation == 0
            if reply != f"1 OK {self.generation}":
                return False
            self.snapshots.append(self.generation)
            return True

        return "1 SNAP", accepts, None


# What opens.


def check_items(child, shop, counts):
    """Holds every item under the token that opened against the model: the order, the numbers, the ids and the texts."""
    token = shop.writes
    if child.ask("1 OPEN") != [f"OK {token}"]:
        raise Mismatch(f"token {token} can't be opened")
    after, found = ".", []
    while True:
        page = child.ask(f"1 FIND {token} 1000 . {after} *:*")
        if page[0].split(" ")[2:] != [str(len(shop.items))]:
            raise Mismatch(f"'{page[0]}' where the commit has {len(shop.items)} items")
        if len(page) == 1:
            break
        found += page[1:]
        after = page[-1].split(" ")[0]
    wanted = [f"{number} {name} ." for name, (number, _, _) in shop.items.items()]
    if found != wanted:
        raise Mismatch(f"the items under token {token} aren't those of the commit: {first_difference(found, wanted)}")
    check_texts(child, shop)
    counts.items += len(wanted)
    if child.ask(f"1 CLOSE {token}") != [f"OK {token}"]:
        raise Mismatch(f"token {token} can't be closed")


def first_difference(found, wanted):
    for place, (one, other) in enumerate(zip(found, wanted)):
        if one != other:
            return f"'{one}' at {place}, wanted '{other}'"
    return f"{len(found)} items, wanted {len(wanted)}"


def check_texts(child, shop):
    """Holds the stored text of each id that an item may have, there or not, against the model."""
    names = [f"item-{number}" for number in range(IDS)]
    for begin in range(0, IDS, 100):
        some = names[begin : begin + 100]
        child.send([f"1 GET {shop.writes} {name}" for name in some])
        for name in some:
            wanted = shop.items[name][2] if name in shop.items else "."
            reply = child.reply()
            if reply != f"1 OK {wanted}":
                raise Mismatch(f"the text of {name} is '{reply}', wanted '1 OK {wanted}'")


def check_files(child, folder, generation):
    names = child.ask(f"1 FILES g {generation}")[1:]
    missing = [name for name in names if not (Path(folder) / name).is_file()]
    if not names or missing:
        raise Mismatch(f"commit {generation} needs {names}, and {missing} are missing")


def find_commit(child, folder, token, candidates, counts):
    """Which of the candidates has opened; and whether all of it is there."""
    try:
        return name_commit(child, folder, token, candidates, counts)
    except Killed:
        raise Mismatch(f"the program ended while it was looked at, with status {child.end()}") from None


def name_commit(child, folder, token, candidates, counts):
    standing = commit_files(folder)
    if not standing:
        if candidates[0].text != NEVER_COMMITTED or token != 0:
            raise Mismatch(f"no commit file is there, and the commit '{candidates[0].text}' was answered OK")
        check_items(child, candidates[0].shop, counts)
        return candidates[0]
    generation = standing[-1]
    reply = child.ask(f"1 NOTE {generation}")[0]
    found = next((commit for commit in candidates if reply == f"OK ={commit.text}"), None)
    if found is None:
        raise Mismatch(f"commit {generation} opened, with '{reply}'; wanted one of {[c.text for c in candidates]}")
    if found.generation not in (0, generation):
        raise Mismatch(f"commit {generation} has the text of commit {found.generation}")
    if token != found.shop.writes:
        raise Mismatch(f"it opened after {token} writes, and the commit '{found.text}' is after {found.shop.writes}")
    check_items(child, found.shop, counts)
    check_files(child, folder, generation)
    found.generation = generation
    return found


def open_folder(program, folder, patience):
    """Starts the program, and says the token, or that opening answered 31."""
    child = Child(program, folder, patience)
    child.send([SCHEMA])
    try:
        reply = child.reply()
    except Killed:
        raise Mismatch(f"the program ended before the schema line was answered, with status {child.end()}") from None
    if reply == "NO 31":
        if child.end() != 2:
            raise Mismatch("the schema line was refused, and the status wasn't 2")
        return None, None
    if not re.match(r"OK \d+\Z", reply):
        child.kill()
        raise Mismatch(f"the schema line was answered '{reply}'")
    return child, int(reply[3:])


def come_back(program, folder, candidates, patience):
    """Opens the folder; where that answers 31, the newest commit file goes while a lower one is there. Says how many went."""
    gone = 0
    while True:
        child, token = open_folder(program, folder, patience)
        if child is not None:
            return child, token, gone
        standing = commit_files(folder)
        if not standing or standing[-1] <= candidates[0].generation:
            raise Mismatch(f"31 though commit {candidates[0].generation} was answered OK; commit files: {standing}")
        if len(standing) == 1 and candidates[0].text != NEVER_COMMITTED:
            raise Mismatch(f"31, and no commit file is there but {standing}")
        (Path(folder) / f"segments_{standing[-1]}").unlink()
        gone += 1


def try_cut(program, folder, candidates, rng, patience, counts):
    """Cuts the file of the commit that was under way short in a copy of the folder, and has the copy come back."""
    standing = commit_files(folder)
    if not standing or standing[-1] <= candidates[0].generation:
        return
    copy = Path(f"{folder}-cut")
    shutil.copytree(folder, copy)
    torn = copy / f"segments_{standing[-1]}"
    size = torn.stat().st_size
    os.truncate(torn, rng.randrange(size) if size else 0)
    child, token, gone = come_back(program, copy, candidates, patience)
    if gone == 0:
        child.kill()
        raise Mismatch(f"a commit file of {size} bytes that was cut short opened")
    find_commit(child, copy, token, candidates, counts)
    child.finish()
    counts.cut += 1
    shutil.rmtree(copy)


# Lives.


def wait_until(moment):
    """Waits without sleeping: where nothing waits for a disk, a commit is over before a sleep is."""
    while time.monotonic() < moment:
        pass


class Run:
    """Lives of the program over one folder, one after the other."""

    def __init__(self, arguments, folder):
        self.arguments, self.folder = arguments, folder
        self.rng = random.Random(arguments.seed)
        self.counts = Counts()
        # The last commit that was answered OK, and those that were sent since.
        self.candidates = [Commit(NEVER_COMMITTED, Shop())]
        # How long a commit takes here, from what was seen.
        self.commit_time = 0.01
        # Whether the last kill came within a commit that was sent alone, so that no line behind it was begun. One of several
        # lines may be done though its reply isn't out, and a sweep behind it may have taken what only the commit before needs.
        self.was_in_commit = False

    def live(self, life):
        """Opens, checks what opened, and goes on until the kill."""
        arguments, counts = self.arguments, self.counts
        child, token, gone = come_back(arguments.program, self.folder, self.candidates, arguments.patience)
        try:
            counts.torn += 1 if gone else 0
            found = find_commit(child, self.folder, token, self.candidates, counts)
            self.note_found(found, life)
            self.candidates = [found]
            self.stream(child, Stream(self.rng, found.shop.copy(), life, found.generation))
        finally:
            child.kill()
            child.end()
        if self.was_in_commit:
            try_cut(arguments.program, self.folder, self.candidates, self.rng, arguments.patience, counts)

    def note_found(self, found, life):
        if life == 1:
            return
        if found is self.candidates[0]:
            self.counts.answered += 1
        else:
            self.counts.later += 1

    def stream(self, child, stream):
        """Says lines until the program is gone: at any moment, or in every other life a moment after a COMMIT was sent alone."""
        turns_left = self.rng.randint(1, 400) if self.rng.random() < 0.5 else None
        timer = threading.Timer(self.rng.uniform(0, self.arguments.seconds), child.kill)
        if turns_left is None:
            timer.start()
        batch, is_alone = [], True
        try:
            while turns_left != 0:
                batch = [stream.next() for _ in range(self.batch_size())]
                is_alone = len(batch) == 1
                self.say(child, batch)
                if turns_left is not None:
                    turns_left -= 1
            batch, is_alone = [stream.commit()], True
            self.say(child, batch, is_last=True)
        except Killed:
            self.note_kill(batch, is_alone)
        finally:
            timer.cancel()
        status = child.end()
        if status != -signal.SIGKILL:
            raise Mismatch(f"the program ended by itself, with status {status}")

    def batch_size(self):
        return 1 if self.rng.random() < 0.9 else self.rng.randint(2, 40)

    def wait_in_commit(self, before):
        """Waits for some moment within the commit that was just sent, or a little behind it: any, or once its file is there
        beside those before."""
        if self.rng.random() < 0.5:
            wait_until(time.monotonic() + self.rng.uniform(0, 1.3 * self.commit_time))
            return
        deadline = time.monotonic() + 1
        while commit_files(self.folder) == before and time.monotonic() < deadline:
            pass
        wait_until(time.monotonic() + self.rng.choice((0, self.rng.uniform(0, 0.2 * self.commit_time))))

    def say(self, child, batch, is_last=False):
        """Sends the lines and takes their replies, up to the kill if they are the last. What is answered leaves the batch."""
        sent = [commit for _, _, commit in batch if commit]
        self.candidates += sent
        self.counts.commits += len(sent)
        begun, before = time.monotonic(), commit_files(self.folder) if is_last else []
        child.send([line for line, _, _ in batch])
        if is_last:
            self.wait_in_commit(before)
            child.kill()
        is_commit = len(batch) == 1 and batch[0][2] is not None
        while batch:
            line, accepts, commit = batch[0]
            reply = child.reply()
            if not accepts(reply):
                raise Mismatch(f"to '{line}' came '{reply}'")
            batch.pop(0)
            self.counts.lines += 1
            if commit:
                self.candidates = self.candidates[self.candidates.index(commit) :]
        if is_commit:
            self.commit_time += 0.2 * (time.monotonic() - begun - self.commit_time)
        if is_last:
            # The kill came behind the reply.
            raise Killed

    def note_kill(self, unanswered, is_alone):
        has_commit = any(commit for _, _, commit in unanswered)
        self.was_in_commit = has_commit and is_alone
        self.counts.kills += 1
        self.counts.in_commit += 1 if self.was_in_commit else 0
        self.counts.in_batch += 1 if has_commit and not is_alone else 0

    def kill_while_opening(self):
        """Starts the program and kills it before, while or just after it opens, which deletes files that nobody needs."""
        child = Child(self.arguments.program, self.folder, self.arguments.patience)
        child.send([SCHEMA])
        time.sleep(self.rng.uniform(0, 0.03))
        child.kill()
        child.end()
        self.counts.while_opening += 1


def closing_line(counts):
    return (
        f"{counts.kills} kills after {counts.lines} answered lines and {counts.commits} commits sent: "
        f"{counts.in_commit} within a commit, {counts.in_batch} more with one among several lines. "
        f"What opened was {counts.answered} times the last commit answered OK, {counts.later} times a later one; "
        f"{counts.items} items compared. 31 came {counts.torn} times by a kill, and for each of {counts.cut} commit files "
        f"that were cut short in a copy. {counts.while_opening} further kills while it opened"
    )


def read_arguments():
    parser = argparse.ArgumentParser(description=__doc__.split("\n\n")[0])
    parser.add_argument("program", nargs="?", help="the program; else the one that ./run would run")
    parser.add_argument("--times", type=int, default=30, help="how many kills (30)")
    parser.add_argument("--seed", type=int, help="the seed of the lines; the moments of kills are by the clock too")
    parser.add_argument("--seconds", type=float, default=1.0, help="the longest life of those that end at any moment (1)")
    parser.add_argument("--patience", type=float, default=60, help="how long a reply may take, in seconds (60)")
    arguments = parser.parse_args()
    if arguments.times < 1:
        parser.error("--times is at least 1")
    if arguments.program is None:
        run = Path(__file__).resolve().parent.parent / "run"
        told = subprocess.run([run, "--path"], stdout=subprocess.PIPE, text=True)
        if told.returncode:
            sys.exit(2)
        arguments.program = told.stdout.rstrip("\n")
    if arguments.seed is None:
        arguments.seed = random.SystemRandom().randrange(2**32)
    return arguments


def main():
    arguments = read_arguments()
    if not os.access(arguments.program, os.X_OK):
        print(f"kill.py: {arguments.program} isn't built (./run builds it)", file=sys.stderr)
        return 1
    folder = Path(tempfile.mkdtemp(prefix="kill-")) / "shop"
    folder.mkdir()
    run = Run(arguments, folder)
    life = 0
    try:
        while run.counts.kills < arguments.times:
            life += 1
            run.live(life)
            if run.rng.random() < 0.3:
                run.kill_while_opening()
        last_look(run, life + 1)
    except Mismatch as mismatch:
        print(f"kill.py: FAILED in life {life}, seed {arguments.seed}: {mismatch}", file=sys.stderr)
        print(f"kill.py: the folder is left as it is: {folder}", file=sys.stderr)
        return 1
    print(f"kill.py: {closing_line(run.counts)} (seed {arguments.seed})")
    shutil.rmtree(folder.parent)
    if arguments.times >= 10 and run.counts.in_commit == 0:
        print("kill.py: FAILED: no kill came within a commit, so nothing was tried", file=sys.stderr)
        return 1
    return 0


def last_look(run, life):
    """What the last kill left."""
    arguments = run.arguments
    child, token, gone = come_back(arguments.program, run.folder, run.candidates, arguments.patience)
    run.counts.torn += 1 if gone else 0
    run.note_found(find_commit(child, run.folder, token, run.candidates, run.counts), life)
    child.finish()


if __name__ == "__main__":
    sys.exit(main())
