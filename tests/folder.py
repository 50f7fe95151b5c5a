#!/usr/bin/env python3
"""Tries that one program at a time works over a folder, and what a second one is told.

folder.py [PROGRAM] [CHECK] [--patience 60]

PROGRAM is the built catalogue and CHECK the built catalogue_check. Each test has a folder of its own. The last line is
'N passed, M failed', and the status 0 where M is.
"""

import argparse
import multiprocessing
import os
import selectors
import shutil
import signal
import subprocess
import sys
import tempfile
import time
from pathlib import Path

SCHEMA = 'SCHEMA 10 1024 {"price":"number","title":"text"}'
IN_USE = "[ERROR catalogue] folder in use\n"
CHECK_IN_USE = "catalogue_check: folder in use\n"

# What a process does that starts the program and is killed: the program's input and output are descriptors that it was given.
PARENT = """
import subprocess, sys, time
program, folder, reads, writes = sys.argv[1:]
subprocess.Popen([program, "run", folder], stdin=int(reads), stdout=int(writes))
time.sleep(600)
"""


class Wrong(Exception):
    """Something isn't as it has to be."""


def expect(what, got, wanted):
    if got != wanted:
        raise Wrong(f"{what}: {got!r}, wanted {wanted!r}")


def read_line(descriptor, patience):
    """The next line of the descriptor, without its end; '' where there is none."""
    line = b""
    with selectors.DefaultSelector() as selector:
        selector.register(descriptor, selectors.EVENT_READ)
        deadline = time.monotonic() + patience
        while not line.endswith(b"\n"):
            if not selector.select(max(0, deadline - time.monotonic())):
                raise Wrong(f"no reply came for {patience} s")
            byte = os.read(descriptor, 1)
            if not byte:
                break
            line += byte
    return line.decode().rstrip("\n")


class Running:
    """The program over a folder, as long as it runs."""

    def __init__(self, try_, folder):
        self.patience = try_.patience
        self.process = subprocess.Popen(
            [try_.program, "run", str(folder)],
            stdin=subprocess.PIPE,
            stdout=subprocess.PIPE,
            stderr=subprocess.PIPE,
            bufsize=0,
        )
        try_.started.append(self.process)

    def ask(self, line):
        """The first line of the reply to the line."""
        try:
            self.process.stdin.write((line + "\n").encode())
        except BrokenPipeError:
            raise Wrong(f"the program ended before '{line}': {self.process.stderr.read().decode()!r}") from None
        return read_line(self.process.stdout.fileno(), self.patience)

    def expect(self, line, reply):
        expect(f"the reply to '{line}'", self.ask(line), reply)

    def open(self, reply):
        self.expect(SCHEMA, reply)

    def end(self):
        """Ends the input, and waits for the program."""
        self.process.stdin.close()
        expect("the status at the end of input", self.process.wait(self.patience), 0)
        expect("what was said", self.process.stderr.read().decode(), "")

    def kill(self):
        """Kills the program, and waits until it is gone."""
        self.process.kill()
        self.process.wait(self.patience)


class Try:
    """What a test has: the programs, a room for its folders, and what it started."""

    def __init__(self, arguments, room):
        self.program = arguments.program
        self.checker = arguments.check
        self.patience = arguments.patience
        self.room = room
        self.started = []

    def folder(self, name="shop"):
        folder = self.room / name
        folder.mkdir()
        return folder

    def run(self, folder):
        return Running(self, folder)

    def once(self, folder, lines, out=subprocess.PIPE):
        """The program over the folder for these lines alone: its status, what it wrote and what it said."""
        done = subprocess.run(
            [self.program, "run", str(folder)],
            input="".join(line + "\n" for line in lines).encode(),
            stdout=out,
            stderr=subprocess.PIPE,
            timeout=self.patience,
        )
        return done.returncode, (done.stdout or b"").decode(), done.stderr.decode()

    def check(self, folder, *words):
        """The check of the folder: its status, what it wrote and what it said."""
        done = subprocess.run(
            [self.checker, *words, str(folder)], stdin=subprocess.DEVNULL, capture_output=True, timeout=self.patience
        )
        return done.returncode, done.stdout.decode(), done.stderr.decode()

    def until_opened(self, folder, reply):
        """Opens the folder until nobody else has it, and asks for the reply to the schema line."""
        deadline = time.monotonic() + self.patience
        while True:
            status, out, said = self.once(folder, [SCHEMA])
            if said != IN_USE or time.monotonic() > deadline:
                expect("the program that opens at last", (status, out, said), (0, reply + "\n", ""))
                return
            time.sleep(0.02)

    def end(self):
        for process in self.started:
            if process.poll() is None:
                process.kill()
                process.wait()
            for stream in (process.stdin, process.stdout, process.stderr):
                if stream and not stream.closed:
                    stream.close()


def state(folder):
    """What lies in the folder: names, bytes, and when each was made and changed."""
    files = {}
    for entry in sorted(folder.iterdir()):
        told = entry.stat()
        files[entry.name] = (told.st_ino, told.st_mtime_ns, told.st_ctime_ns, entry.read_bytes())
    return files


def put(running, id_, reply):
    running.expect(f'1 PUT {{"id":"{id_}","title":"red","price":5}}', reply)


def count(try_, folder, token):
    """How many items the next program finds in the folder, which it opens at the token."""
    status, out, said = try_.once(folder, [SCHEMA, "1 OPEN", f"1 FIND {token} 0 . . *:*"])
    expect("the program that counts", (status, said), (0, ""))
    lines = out.splitlines()
    expect("what it opened", lines[:2], [f"OK {token}", f"1 OK {token}"])
    return int(lines[2].rsplit(" ", 1)[1])


def a_second_program_is_refused_and_touches_nothing(try_):
    folder = try_.folder()
    first = try_.run(folder)
    first.open("OK 0")
    put(first, "a", "1 OK 1")
    first.expect("1 COMMIT one", "1 OK 1")
    put(first, "b", "1 OK 2")
    first.expect("1 REFRESH", "1 OK 2")
    before = state(folder)
    for _ in range(3):
        expect("the second program", try_.once(folder, [SCHEMA, "1 OPEN"]), (2, "NO 30\n", IN_USE))
    expect("the folder", state(folder), before)
    first.expect("1 OPEN", "1 OK 2")
    first.expect("1 GET 2 b", '1 OK {"id":"b","title":"red","price":5}')
    first.end()


def a_look_takes_nothing_that_is_not_committed(try_):
    folder = try_.folder()
    first = try_.run(folder)
    first.open("OK 0")
    for number in range(1, 51):
        put(first, f"a{number}", f"1 OK {number}")
    first.expect("1 REFRESH", "1 OK 50")
    first.expect("1 COMMIT minute 1", "1 OK 1")
    for number in range(51, 101):
        put(first, f"a{number}", f"1 OK {number}")
    first.expect("1 REFRESH", "1 OK 100")
    first.expect("7 OPEN", "7 OK 100")
    expect("the look", try_.once(folder, [SCHEMA]), (2, "NO 30\n", IN_USE))
    first.expect("7 GET 100 a70", '7 OK {"id":"a70","title":"red","price":5}')
    first.expect("1 COMMIT minute 2", "1 OK 2")
    first.end()
    expect("the items that are committed", count(try_, folder, 100), 100)


def a_second_program_is_told_of_its_schema_line_first(try_):
    folder = try_.folder()
    first = try_.run(folder)
    first.open("OK 0")
    for line, reply in (("SCHEMA 2 1 []", "NO 13\n"), ("SCHEMA 2 1", "NO 10\n"), ("SCHEMA 2 1 {", "NO 11\n")):
        expect(f"the second program's '{line}'", try_.once(folder, [line]), (2, reply, IN_USE))
    expect("the second program without input", try_.once(folder, []), (2, "NO 10\n", IN_USE))
    first.end()


def a_second_program_that_cannot_write_says_so(try_):
    folder = try_.folder()
    first = try_.run(folder)
    first.open("OK 0")
    with open("/dev/full", "wb") as full:
        expect("the second program", try_.once(folder, [SCHEMA], full), (3, "", "[ERROR catalogue] write fault\n"))
    first.end()


def every_path_to_a_folder_leads_to_its_lock(try_):
    folder = try_.folder()
    (try_.room / "link").symlink_to(folder)
    first = try_.run(folder)
    first.open("OK 0")
    for path in (f"{folder}/", try_.room / "link", f"{try_.room}/link/", f"{folder}/../shop"):
        expect(f"the second program over {path}", try_.once(path, [SCHEMA]), (2, "NO 30\n", IN_USE))
    first.end()


def folders_and_memory_are_independent(try_):
    first, second = try_.run(try_.folder("one")), try_.run(try_.folder("two"))
    first.open("OK 0")
    second.open("OK 0")
    done = subprocess.run([try_.program], input=(SCHEMA + "\n").encode(), capture_output=True, timeout=try_.patience)
    expect("the program in memory", (done.returncode, done.stdout, done.stderr), (0, b"OK 0\n", b""))
    first.end()
    second.end()


def the_next_program_opens_once_the_first_has_ended(try_):
    folder = try_.folder()
    for life in range(10):
        running = try_.run(folder)
        running.open(f"OK {life}")
        put(running, f"a{life}", f"1 OK {life + 1}")
        running.expect("1 COMMIT", f"1 OK {life + 1}")
        running.end()
    expect("the items that are committed", count(try_, folder, 10), 10)


def a_killed_programs_lock_goes_with_it(try_):
    folder = try_.folder()
    for life in range(20):
        running = try_.run(folder)
        running.open(f"OK {life}")
        put(running, f"a{life}", f"1 OK {life + 1}")
        running.expect("1 COMMIT", f"1 OK {life + 1}")
        put(running, f"lost{life}", f"1 OK {life + 2}")
        running.kill()
    expect("the items that are committed", count(try_, folder, 20), 20)


def started_by_a_parent(try_, folder):
    """The program, started by another process: that process, and the ends of the pipes to the program."""
    reads, lines = os.pipe()
    replies, writes = os.pipe()
    parent = subprocess.Popen(
        [sys.executable, "-c", PARENT, try_.program, str(folder), str(reads), str(writes)], pass_fds=(reads, writes)
    )
    try_.started.append(parent)
    os.close(reads)
    os.close(writes)
    os.write(lines, (SCHEMA + "\n").encode())
    expect("the reply to the schema line", read_line(replies, try_.patience), "OK 0")
    return parent, lines, replies


def an_orphan_that_still_reads_keeps_its_folder(try_):
    folder = try_.folder()
    parent, lines, replies = started_by_a_parent(try_, folder)
    parent.kill()
    parent.wait(try_.patience)
    expect("a second program beside the orphan", try_.once(folder, [SCHEMA]), (2, "NO 30\n", IN_USE))
    os.write(lines, b'1 PUT {"id":"a"}\n1 COMMIT by an orphan\n')
    expect("the orphan's write", read_line(replies, try_.patience), "1 OK 1")
    expect("the orphan's commit", read_line(replies, try_.patience), "1 OK 1")
    os.close(lines)
    expect("the end of the orphan's replies", read_line(replies, try_.patience), "")
    os.close(replies)
    try_.until_opened(folder, "OK 1")


def an_orphan_whose_input_ends_gives_its_folder_back(try_):
    folder = try_.folder()
    parent, lines, replies = started_by_a_parent(try_, folder)
    os.close(lines)
    parent.kill()
    parent.wait(try_.patience)
    expect("the end of the orphan's replies", read_line(replies, try_.patience), "")
    os.close(replies)
    try_.until_opened(folder, "OK 0")


def no_program_inherits_the_lock(try_):
    folder = try_.folder()
    running = try_.run(folder)
    running.open("OK 0")
    process = Path(f"/proc/{running.process.pid}")
    if not process.is_dir():
        print("folder.py: left out for want of /proc: whether the lock is closed where a program is started", file=sys.stderr)
        running.end()
        return
    held = [fd.name for fd in (process / "fd").iterdir() if os.path.realpath(fd) == os.path.realpath(folder)]
    told = [(process / "fdinfo" / fd).read_text().splitlines() for fd in held]
    flags = [int(line.split()[1], 8) for lines in told for line in lines if line.startswith("flags:")]
    expect("how many descriptors of the folder are open", len(flags), 1)
    expect("whether it is closed where a program is started", bool(flags[0] & os.O_CLOEXEC), True)
    locks = [line for line in told[0] if line.startswith("lock:")]
    expect("how many locks it has", len(locks), 1)
    running.end()


def work(try_, folder, worker):
    """What one of several workers over the folder does: as soon as it is let in, it writes 100 items, and commits every 10."""
    deadline = time.monotonic() + try_.patience
    while time.monotonic() < deadline:
        running = try_.run(folder)
        reply = running.ask(SCHEMA)
        if reply == "NO 30":
            expect("the refused worker's status", running.process.wait(try_.patience), 2)
            expect("what it said", running.process.stderr.read().decode(), IN_USE)
            time.sleep(0.01)
            continue
        before = int(reply.split(" ")[1])
        for number in range(1, 101):
            put(running, f"w{worker}-{number}", f"1 OK {before + number}")
            if number % 10 == 0 and not running.ask(f"1 COMMIT {worker} {number}").startswith("1 OK "):
                raise Wrong(f"worker {worker} was refused a commit")
        running.end()
        return
    raise Wrong(f"worker {worker} was never let in")


def worker_of(arguments, folder, worker, told):
    """A worker in a process of its own. It tells what is wrong, or nothing."""
    try_ = Try(arguments, folder.parent)
    try:
        work(try_, folder, worker)
        told.put("")
    except Exception as wrong:
        told.put(f"worker {worker}: {wrong}")
    finally:
        try_.end()


def four_workers_lose_nothing(try_):
    folder = try_.folder()
    arguments = argparse.Namespace(program=try_.program, check=try_.checker, patience=try_.patience)
    context = multiprocessing.get_context("fork")
    told = context.Queue()
    workers = [context.Process(target=worker_of, args=(arguments, folder, worker, told)) for worker in range(4)]
    for worker in workers:
        worker.start()
    wrongs = [told.get(timeout=4 * try_.patience) for _ in workers]
    for worker in workers:
        worker.join(try_.patience)
    expect("what the workers found wrong", [wrong for wrong in wrongs if wrong], [])
    expect("the items that are committed", count(try_, folder, 400), 400)


def a_file_of_another_hand_is_not_overwritten(try_):
    folder = try_.folder()
    running = try_.run(folder)
    running.open("OK 0")
    (folder / "_1.seg").write_bytes(b"not ours")
    put(running, "a", "1 OK 1")
    running.expect("1 REFRESH", "1 NO 30")
    expect("the file", (folder / "_1.seg").read_bytes(), b"not ours")
    running.expect("1 REFRESH", "1 OK 1")
    running.expect("1 COMMIT", "1 OK 1")
    running.end()
    expect("the items that are committed", count(try_, folder, 1), 1)


WHOLE = 'commit 1: whole; token 1, segments 1, rows 1, live rows 1; bytes '


def the_check_says_that_a_folder_is_in_use_and_judges_it(try_):
    folder = try_.folder()
    running = try_.run(folder)
    running.open("OK 0")
    put(running, "a", "1 OK 1")
    running.expect("1 COMMIT one", "1 OK 1")
    before = state(folder)
    status, out, said = try_.check(folder)
    expect("the check beside the program", (status, out.startswith(WHOLE), said), (0, True, CHECK_IN_USE))
    expect("the folder", state(folder), before)
    put(running, "b", "1 OK 2")
    running.expect("1 COMMIT two", "1 OK 2")
    running.end()
    status, out, said = try_.check(folder)
    expect("the check alone", (status, out.startswith("commit 2: whole; token 2, "), said), (0, True, ""))
    expect("the program behind the check", try_.once(folder, [SCHEMA]), (0, "OK 2\n", ""))


def the_check_drops_nothing_of_a_folder_in_use(try_):
    folder = try_.folder()
    running = try_.run(folder)
    running.open("OK 0")
    put(running, "a", "1 OK 1")
    running.expect("1 COMMIT one", "1 OK 1")
    (folder / "segments_2").write_bytes((folder / "segments_1").read_bytes()[:20])
    before = state(folder)
    status, out, said = try_.check(folder, "--drop-torn")
    first, second = out.splitlines()[:2]
    expect("its first line", first, "dropped nothing: a program works over the folder")
    expect("its second line", second.startswith("commit 2: damaged; "), True)
    expect("its end", (status, said), (1, CHECK_IN_USE))
    expect("the folder", state(folder), before)
    running.end()
    status, out, said = try_.check(folder, "--drop-torn")
    first, second = out.splitlines()[:2]
    expect("its first line", first, "dropped commit 2, which was torn: commit 1 is the newest now")
    expect("its second line", second.startswith(WHOLE), True)
    expect("its end", (status, said), (0, ""))
    expect("the torn file", (folder / "segments_2").exists(), False)


def the_check_judges_nothing_where_its_words_are_wrong(try_):
    folder = try_.folder()
    (folder / "segments_2").write_bytes(b"torn")
    before = state(folder)
    called = "usage: catalogue_check [--drop-torn] FOLDER\n"
    for words in (("here",), ("--drop-torn", "here"), ("--version",)):
        expect(f"the check with {words} before the path", try_.check(folder, *words), (2, "", called))
    expect("the check of --drop-torn", try_.check("--drop-torn"), (2, "", called))
    expect("the folder", state(folder), before)


TESTS = (
    a_second_program_is_refused_and_touches_nothing,
    a_look_takes_nothing_that_is_not_committed,
    a_second_program_is_told_of_its_schema_line_first,
    a_second_program_that_cannot_write_says_so,
    every_path_to_a_folder_leads_to_its_lock,
    folders_and_memory_are_independent,
    the_next_program_opens_once_the_first_has_ended,
    a_killed_programs_lock_goes_with_it,
    an_orphan_that_still_reads_keeps_its_folder,
    an_orphan_whose_input_ends_gives_its_folder_back,
    no_program_inherits_the_lock,
    four_workers_lose_nothing,
    a_file_of_another_hand_is_not_overwritten,
    the_check_says_that_a_folder_is_in_use_and_judges_it,
    the_check_drops_nothing_of_a_folder_in_use,
    the_check_judges_nothing_where_its_words_are_wrong,
)


def passes(test, arguments):
    """Runs the test in a room of its own, and says whether it passed."""
    room = Path(tempfile.mkdtemp(prefix="folder-"))
    try_ = Try(arguments, room)
    try:
        test(try_)
        return True
    except (Wrong, OSError, ValueError, IndexError, subprocess.TimeoutExpired) as wrong:
        print(f"folder.py: {test.__name__} FAILED: {wrong}", file=sys.stderr)
        return False
    finally:
        try_.end()
        shutil.rmtree(room, ignore_errors=True)


def read_arguments():
    crates = Path(__file__).resolve().parent.parent / "crates"
    parser = argparse.ArgumentParser(description=__doc__.split("\n\n")[0])
    parser.add_argument("program", nargs="?", default=str(crates / "catalogue/out/catalogue"))
    parser.add_argument("check", nargs="?", default=str(crates / "catalogue_check/out/catalogue_check"))
    parser.add_argument("--patience", type=float, default=60, help="how long a reply may take, in seconds (60)")
    return parser.parse_args()


def main():
    signal.signal(signal.SIGPIPE, signal.SIG_IGN)
    arguments = read_arguments()
    for built in (arguments.program, arguments.check):
        if not os.access(built, os.X_OK):
            print(f"folder.py: {built} isn't built", file=sys.stderr)
            return 1
    arguments.program, arguments.check = os.path.abspath(arguments.program), os.path.abspath(arguments.check)
    results = [passes(test, arguments) for test in TESTS]
    print(f"{results.count(True)} passed, {results.count(False)} failed")
    return 0 if all(results) else 1


if __name__ == "__main__":
    sys.exit(main())
