#!/usr/bin/env python3
"""Runs the program over real folders: which names are its files and which are left alone, what it asks of the system and in which
order, files that stay open, and files that another hand cut short, took away or put there.

usage: tests/folders.py PROGRAM

Calls of the system are watched and cut into parts by tests/faulty.py; those that fail are tried by tests/failing_folders.py. The last
line is `N passed, M failed`.
"""

import fcntl
import os
import resource
import subprocess
import sys
from contextlib import contextmanager
from pathlib import Path

from commits import LAST, PRICE, commit, live, segment
from faulty import Faulty, can_stop_calls
from limits import Child
from tries import expect, run, state

SCHEMA = 'SCHEMA 2 10 {"price":"number"}'
REFUSED = b"[ERROR catalogue] schema refused\n"
IN_USE = b"[ERROR catalogue] folder in use\n"
# A sync of the folder itself, and the making of a file.
SYNC_FOLDER = [("open", ""), ("sync", "")]


def written(name):
    return [("create", name), ("open", name), ("write", name)]


def synced(name):
    return [("open", name), ("sync", name)]


def read_anew(name):
    return [("open", name), ("size", name), ("seek", name), ("read", name)]


def read_again(name):
    return [("seek", name), ("read", name)]


def text_of(id):
    return f'{{"id":"{id}","price":1}}'


def put(id):
    return f"1 PUT {text_of(id)}"


class Try:
    """The program, and a room for folders."""

    def __init__(self, room, program):
        self.program, self.folder = program, room.folder

    @contextmanager
    def watched(self, folder, opened="OK 0", **more):
        """The program over the folder, which it opens so, with its calls told."""
        child = Faulty(folder, self.program, "run", str(folder), **more)
        try:
            expect("the opening", child.ask(SCHEMA), opened)
            yield child
        finally:
            child.kill()

    @contextmanager
    def running(self, folder, opened="OK 0", words=("run",)):
        """The same, with its calls let alone."""
        child = Child(self.program, *words, str(folder))
        try:
            expect("the opening", child.ask(SCHEMA), opened)
            yield child
        finally:
            child.kill()

    def refused(self, path):
        """The reply, the status and what is said where the program is run over the path."""
        done = subprocess.run([self.program, "run", str(path)], input=f"{SCHEMA}\n".encode(), capture_output=True, timeout=60)
        return done.stdout, done.returncode, done.stderr


def tell(child, *lines):
    """Says the lines, each of which has to be answered so."""
    for line, wanted in lines:
        expect(f"the reply to '{line}'", child.ask(line), wanted)


def kept(path):
    """What can be seen of a file, or of what stands in the place of one: whether it was touched."""
    told = os.lstat(path)
    return told.st_ino, told.st_mode, told.st_size, told.st_mtime_ns, told.st_ctime_ns


# Names.

# Texts that are nearly the name of a file. The empty text is no file's name in any folder.
NO_NAMES = (
    "notes.txt", "_", "_.seg", ".seg", "1.seg", "_0.seg", "_01.seg", "_+1.seg", "_-1.seg", "_1.SEG", "_1.seg ", " _1.seg", "_1.seg.seg",
    "_1.seg.tmp", "_1.seg~", "_1_2.seg", "_1_2.sto", "_1seg", "__1.seg", "_1_.seg", "_1.5.seg", "_1e2.seg", "_0x1.seg", "_\uff11.seg",
    "_1.liv", "_1_.liv", "__1.liv", "_1_2_3.liv", "_1__2.liv", "_1_0.liv", "_0_1.liv", "_1_01.liv", "_01_1.liv",
    "_1_9223372036854775808.liv", "_9223372036854775808_1.liv", "_9223372036854775808.sto", "_9223372036854775808.seg",
    "_18446744073709551617.seg", "segments", "segments_", "segments_0",
    "segments_01", "segments_1.seg", "segments_ 1", "Segments_1", "segment_1", "_segments_1", "segments_1_2",
    "segments_9223372036854775808", "segments_18446744073709551617", "_1.seg\n", "\x01",
    # Texts that aren't UTF-8.
    b"\xff\xfe", b"_1.seg\xff", b"segments_1\x80", b"_1.s\xe9g",
)  # fmt: skip


def what_is_no_name_is_left_alone(try_):
    """No number is taken above it, no sweep takes it, and it stays to the byte and to the moment of its last change."""
    for name in NO_NAMES:
        folder = try_.folder()
        path = os.path.join(os.fsencode(folder), os.fsencode(name))
        Path(os.fsdecode(path)).write_bytes(b"kept")
        before = kept(path)
        with try_.running(folder) as child:
            told = [put("a"), "1 REFRESH", "1 OPEN", "1 FILES t 1", "1 COMMIT", "0 SWEEP"]
            expect(f"beside {name!r}", child.say(told), ["OK 1", "OK 1", "OK 1", "OK 2\n_1.seg\n_1.sto", "OK 1", "OK 0"])
            expect("the end", child.end(), "status 0")
        with try_.running(folder, "OK 1") as child:
            tell(child, ("0 SWEEP", "OK 0"), ("1 SNAP", "OK 1"))
        expect(f"whether {name!r} was touched", kept(path), before)
        expect(f"how many files lie beside {name!r}", len(os.listdir(os.fsencode(folder))), 4)


# Names of files that no commit needs, the next number of a segment, or none, and of a commit, and whether a sweep at the opening takes
# the file.
NAMES = (
    ("_1.seg", 2, 1, True),
    ("_7.sto", 8, 1, True),
    ("_12_3.liv", 13, 4, True),
    ("_3_12.liv", 4, 13, True),
    (f"_{LAST - 1}.seg", LAST, 1, True),
    (f"_{LAST}.seg", None, 1, True),
    (f"_{LAST}.sto", None, 1, True),
    (f"_{LAST}_1.liv", None, 2, True),
    (f"_1_{LAST}.liv", 2, None, True),
    ("segments_10", 1, 11, False),
    (f"segments_{LAST - 1}", 1, LAST, False),
    (f"segments_{LAST}", 1, None, False),
)


def names_are_read_to_their_limits(try_):
    for name, number, generation, is_swept in NAMES:
        said = b"" if is_swept else commit(int(name[9:]), 0, 1, (), fields=PRICE)
        folder = try_.folder({name: said})
        with try_.running(folder) as child:
            expect(f"whether {name} is there behind the opening", (folder / name).exists(), not is_swept)
            generations = [f"OK {generation}" if generation else "NO 16"]
            expect(f"the commit beside {name}", child.say(["1 COMMIT"]), generations)
            told = child.say([put("a"), "1 REFRESH", "1 OPEN", "1 FILES t 1"])
            files = [f"OK 2\n_{number}.seg\n_{number}.sto"]
            expect(f"the segment beside {name}", told, ["OK 1", "OK 1", "OK 1", *files] if number else ["OK 1", "NO 16", "OK 0", "NO 20"])


def files_have_the_last_numbers(try_):
    """All four kinds of names, each with the last number."""
    names = (f"_{LAST}.seg", f"_{LAST}.sto", f"_{LAST}_{LAST}.liv", f"segments_{LAST}")
    # Two rows without a price, of which the second is live.
    rows = segment(LAST, ((1, b"a", 10), (2, b"b", 10)), PRICE)[:-12] + b"\0\0"
    parts = (rows, b'{"id":"a"}{"id":"b"}', live(LAST, LAST), commit(LAST, 2, LAST + 1, ((LAST, LAST),), fields=PRICE))
    folder = try_.folder(dict(zip(names, parts)))
    before = state(folder)
    with try_.running(folder, "OK 2") as child:
        tell(child, ("1 OPEN", "OK 2"), ("1 GET 2 b", 'OK {"id":"b"}'), ("1 GET 2 a", "OK ."))
        tell(child, (f"1 FILES g {LAST}", "\n".join(["OK 4", *names])))
        tell(child, ("1 FILES t 2", "\n".join(["OK 2", *names[:2]])), ("0 SWEEP", "OK 0"))
    expect("the files", state(folder), before)


def names_go_in_the_order_of_their_bytes(try_):
    """A full stop comes before digits, digits before a line below, and that before small letters."""
    swept = ["_1.seg", "_1.sto", "_10.sto", "_10_2.liv", "_2.sto", "_20.seg", "_2_1.liv", "_2_10.liv", "_2_9.liv", "_3.seg"]
    swept += ["segments_1", "segments_2"]
    newest = commit(10, 0, 1, (), fields=PRICE)
    folder = try_.folder({**{name: b"" for name in reversed(swept)}, "segments_10": newest})
    with try_.watched(folder) as child:
        expect("what is swept, in turn", [name for kind, name in child.calls if kind == "delete"], swept)
    expect("what is left", state(folder), {"segments_10": newest})
    # So are the names that a line tells.
    folder = try_.folder()
    with try_.running(folder) as child:
        for number in range(1, 12):
            tell(child, (put(f"a{number}"), f"OK {number}"), ("1 REFRESH", f"OK {number}"))
        tell(child, ("1 DEL a0", "OK 12"), ("1 COMMIT", "OK 1"))
        names = sorted([f"_{number}.{end}" for number in range(1, 12) for end in ("seg", "sto")] + ["segments_1"], key=str.encode)
        expect("how it begins", names[:5], ["_1.seg", "_1.sto", "_10.seg", "_10.sto", "_11.seg"])
        tell(child, ("1 FILES g 1", "\n".join(["OK 23", *names])))


# What stands in a file's place.


def a_folder_in_a_files_place_is_no_file(try_):
    folder = try_.folder()
    for name in ("_1.seg", "_7.sto", "_9_9.liv", "segments_5"):
        (folder / name).mkdir()
        (folder / name / "inner").write_bytes(b"kept")
    before = {it.name: kept(it) for it in folder.iterdir()}
    with try_.running(folder) as child:
        # It isn't listed, so the first number is given out, and can't be had. It counts as begun, but no folder is taken away.
        tell(child, (put("a"), "OK 1"), ("1 REFRESH", "NO 30"), ("1 REFRESH", "OK 1"), ("1 OPEN", "OK 1"))
        tell(child, ("1 FILES t 1", "OK 2\n_2.seg\n_2.sto"), ("0 SWEEP", "NO 30"), ("1 COMMIT", "OK 1"))
        tell(child, ("1 GET 1 a", f"OK {text_of('a')}"))
    expect("the folders", {name: kept(folder / name) for name in before}, before)


def a_folder_in_place_of_a_commits_file_is_as_if_absent(try_):
    for name, opened in (("_1.seg", "NO 31"), ("_1.sto", "NO 31"), ("_1_2.liv", "NO 31"), ("segments_2", "OK 0")):
        folder = try_.folder()
        with try_.running(folder) as child:
            tell(child, (put("a"), "OK 1"), (put("b"), "OK 2"), ("1 COMMIT", "OK 1"), ("1 DEL a", "OK 3"), ("1 COMMIT", "OK 2"))
            tell(child, ("0 SWEEP", "OK 1"))
        (folder / name).unlink()
        (folder / name).mkdir()
        expect(f"with a folder in place of {name}", try_.refused(folder)[0].decode(), f"{opened}\n")
    # One that was a file as it was opened, and isn't when it is read.
    folder = try_.folder()
    with try_.running(folder) as child:
        tell(child, (put("a"), "OK 1"), ("1 REFRESH", "OK 1"), ("1 OPEN", "OK 1"))
        (folder / "_1.sto").unlink()
        (folder / "_1.sto").mkdir()
        tell(child, ("1 GET 1 a", "NO 31"), ("1 COMMIT", "OK 1"))


def links_are_files_and_what_they_lead_to_is_left(try_):
    beyond = try_.folder({"file": b"kept"})
    (beyond / "inner").mkdir()
    before = {it: kept(it) for it in (beyond / "file", beyond / "inner")}
    folder = try_.folder()
    for name, target in (("_4.seg", "file"), ("_5.sto", "inner"), ("_6_2.liv", "nowhere"), ("_0.seg", "file"), ("beside", "inner")):
        (folder / name).symlink_to(beyond / target)
    with try_.running(folder) as child:
        # Those that have names of files are swept, and numbers are taken above theirs.
        expect("what is left", sorted(it.name for it in folder.iterdir()), ["_0.seg", "beside"])
        tell(child, (put("a"), "OK 1"), ("1 REFRESH", "OK 1"), ("1 COMMIT", "OK 3"), ("1 FILES g 3", "OK 3\n_7.seg\n_7.sto\nsegments_3"))
        # A file isn't made through a link.
        (folder / "_8.seg").symlink_to(beyond / "file")
        (folder / "_9.seg").symlink_to(beyond / "made")
        tell(child, (put("b"), "OK 2"), ("1 REFRESH", "NO 30"), ("1 REFRESH", "NO 30"), ("1 REFRESH", "OK 2"))
        # Both names of each number that was refused go.
        tell(child, ("0 SWEEP", "OK 4"))
        expect("whether a link is left", [os.path.lexists(folder / name) for name in ("_8.seg", "_9.seg")], [False, False])
        expect("the end", child.end(), "status 0")
    expect("what they lead to", ({it: kept(it) for it in before}, sorted(os.listdir(beyond))), (before, ["file", "inner"]))
    # A commit whose files are links is opened.
    linked = try_.folder()
    for it in folder.iterdir():
        if it.name not in ("_0.seg", "beside"):
            (linked / it.name).symlink_to(it)
    with try_.running(linked, "OK 1") as child:
        tell(child, ("1 OPEN", "OK 1"), ("1 GET 1 a", f"OK {text_of('a')}"))


# What comes before a merge of two segments.
MERGING = (("1 REFRESH", "OK 1"), (put("b"), "OK 2"), ("1 REFRESH", "OK 2"))
# Each name that is begun, the lines before, the line that begins it, and what that is answered when it is said once more.
BEGUN = (
    ("_1.seg", (), "1 REFRESH", "OK 1"),
    ("_1.sto", (), "1 REFRESH", "OK 1"),
    ("segments_1", (), "1 COMMIT", "OK 2"),
    ("_1_1.liv", (("1 REFRESH", "OK 1"), ("1 DEL a", "OK 2")), "1 COMMIT", "OK 2"),
    ("_3.sto", MERGING, "0 MERGE", "OK begun 2"),
    ("_3.seg", (*MERGING, ("0 MERGE", "OK begun 2"), ("0 MERGE", "OK copied 2")), "0 MERGE", "OK begun 2"),
)


def no_file_is_made_anew(try_):
    for name, before, line, again in BEGUN:
        folder = try_.folder()
        with try_.running(folder) as child:
            tell(child, (put("a"), "OK 1"), *before)
            (folder / name).write_bytes(b"another's")
            there = kept(folder / name)
            tell(child, (line, "NO 30"))
            expect(f"whether {name} was touched", kept(folder / name), there)
            tell(child, (line, again))
            expect(f"whether {name} was touched once more", kept(folder / name), there)
            # It counts as one that was begun.
            expect(f"a sweep behind {name}", (child.ask("0 SWEEP")[:3], (folder / name).exists()), ("OK ", False))


def no_folder_is_no_catalogue(try_):
    room = try_.folder({"file": b"kept"})
    (room / "hole").symlink_to(room / "nowhere")
    (room / "link").symlink_to(room / "file")
    before = kept(room / "file")
    for path in (room / "file", f"{room}/file/", room / "absent", room / "hole", room / "link", f"{room}/file/inner", "", "x" * 300):
        expect(f"over '{str(path)[-20:]}'", try_.refused(path), (b"NO 30\n", 2, REFUSED))
    expect("the room", (sorted(os.listdir(room)), kept(room / "file")), (["file", "hole", "link"], before))


# What is asked of the system.


def calls_of(child, line, wanted):
    """The calls of the line, which is answered so."""
    child.meet()
    tell(child, (line, wanted))
    return child.calls


def files_are_synced_before_what_leads_to_them(try_):
    """Each file of a commit, and the folder, is synced before the commit's own file is made; and that, and the folder once more, before
    the reply: a failure of any is told by it, which tests/failing_folders.py tries."""
    folder = try_.folder()
    with try_.watched(folder) as child:
        own = lambda name: [*written(name), *synced(name), *SYNC_FOLDER]
        expect("the calls of a PUT", calls_of(child, put("a"), "OK 1"), [])
        expect("the calls of a REFRESH", calls_of(child, "1 REFRESH", "OK 1"), [*written("_1.seg"), *written("_1.sto")])
        first = calls_of(child, "1 COMMIT", "OK 1")
        expect("the first commit", first, [*synced("_1.seg"), *synced("_1.sto"), *SYNC_FOLDER, *own("segments_1")])
        tell(child, (put("b"), "OK 2"), ("1 DEL a", "OK 3"))
        second = calls_of(child, "1 COMMIT", "OK 2")
        made = [*written("_2.seg"), *written("_2.sto"), *written("_1_2.liv")]
        expect("what the second writes", second[:9], made)
        # Those of the first last already.
        files = sorted(name for kind, name in second[9:15] if kind == "sync")
        expect("what it syncs", (files, second[15:]), (["_1_2.liv", "_2.seg", "_2.sto"], [*SYNC_FOLDER, *own("segments_2")]))
        # Nothing is new, but that the first commit's file may go.
        expect("a commit of nothing new", calls_of(child, "1 COMMIT", "OK 3"), [*SYNC_FOLDER, *own("segments_3")])
        expect("a sweep", calls_of(child, "0 SWEEP", "OK 2"), [("delete", "segments_1"), ("delete", "segments_2")])
        expect("the calls of a refused line", calls_of(child, "1 COMMIT \t", "NO 13"), [])


def an_opening_syncs_what_it_found_before_it_deletes(try_):
    """What it finds may not last yet: the program before it may have ended before a sync."""
    folder = try_.folder({"_9.sto": b"", "_9_3.liv": b""})
    with try_.running(folder) as child:
        tell(child, (put("a"), "OK 1"), (put("b"), "OK 2"), ("1 COMMIT", "OK 4"), ("1 DEL a", "OK 3"), ("1 COMMIT", "OK 5"))
    (folder / "_9.sto").write_bytes(b"")
    with try_.watched(folder, "OK 3") as child:
        calls = child.calls
    swept = [("delete", "_9.sto"), ("delete", "segments_4")]
    expect("the last calls", calls[-4:], [*SYNC_FOLDER, *swept])
    files = ["_10.seg", "_10.sto", "_10_5.liv", "segments_5"]
    expect("what is synced", sorted(name for kind, name in calls if kind == "sync" and name), files)
    # A new folder is synced too, since it has to last before a commit does.
    with try_.watched(try_.folder()) as child:
        expect("over a new folder", child.calls, [("open", ""), ("lock", ""), ("open", ""), ("list", ""), ("list", ""), *SYNC_FOLDER])


# A day that writes and reads files of all kinds.
DAY = (
    (put("a"), "OK 1"),
    (put("b"), "OK 2"),
    ("1 REFRESH", "OK 2"),
    (put("c"), "OK 3"),
    ("1 COMMIT one", "OK 1"),
    ("1 DEL b", "OK 4"),
    ("1 REFRESH", "OK 4"),
    ("1 OPEN", "OK 4"),
    ("1 GET 4 a", f"OK {text_of('a')}"),
    ("1 GET 4 c", f"OK {text_of('c')}"),
    ("1 GET 4 b", "OK ."),
    ("1 COMMIT two", "OK 2"),
    (put("d"), "OK 5"),
    ("1 REFRESH", "OK 5"),
    ("0 FORCE", "OK begun 3"),
    # The dead row among them.
    ("0 MERGE", "OK copied 4"),
    ("0 MERGE", "OK done"),
    ("1 COMMIT three", "OK 3"),
    ("1 OPEN", "OK 5"),
    ("1 GET 5 d", f"OK {text_of('d')}"),
    ("1 GET 4 c", f"OK {text_of('c')}"),
)
NEXT_DAY = (("1 NOTE 3", "OK =three"), ("1 OPEN", "OK 5"), *((f"1 GET 5 {id}", f"OK {text_of(id)}") for id in "acd"), ("0 SWEEP", "OK 0"))


def reads_and_writes_of_few_bytes_go_on(try_):
    """The system may do less than it is asked for. Nothing differs then but the number of calls."""
    left = None
    for count in (None, 1, 2, 7):
        folder = try_.folder()
        with try_.watched(folder, bytes_at_once=count) as child:
            tell(child, *DAY)
            calls = calls_of(child, put("long"), "OK 6") + calls_of(child, "1 REFRESH", "OK 6")
            # The text of the item has 23 bytes, which take so many writes.
            writes = sum(call == ("write", "_5.sto") for call in calls)
            expect(f"how often {count} bytes are written", writes, 1 if count is None else -(-23 // count))
            tell(child, ("1 OPEN", "OK 6"), ("1 GET 6 long", f"OK {text_of('long')}"))
            expect("the end", child.end(), "status 0")
        with try_.watched(folder, "OK 5", bytes_at_once=count) as child:
            tell(child, *NEXT_DAY)
            reads, size = sum(call == ("read", "segments_3") for call in child.calls), (folder / "segments_3").stat().st_size
            expect(f"how often {count} bytes are read", reads, 1 if count is None else -(-size // count))
        left = left or state(folder)
        expect(f"the files, written by {count} bytes", state(folder), left)


# Files that stay open.


def open_files(child, folder):
    """The names of the files of the folder that the program has open."""
    led = []
    for it in os.scandir(f"/proc/{child.process.pid}/fd"):
        path = os.readlink(it.path)
        if path.startswith(f"{folder}/"):
            led.append(path[len(str(folder)) + 1 :])
    return led


def a_file_stays_open_for_the_next_read(try_):
    folder = try_.folder()
    with try_.watched(folder) as child:
        tell(child, (put("a"), "OK 1"), (put("b"), "OK 2"), ("1 REFRESH", "OK 2"), ("1 OPEN", "OK 2"))
        expect("what is open before", open_files(child, folder), [])
        expect("the first read", calls_of(child, "1 GET 2 a", f"OK {text_of('a')}"), read_anew("_1.sto"))
        expect("the second", calls_of(child, "1 GET 2 a", f"OK {text_of('a')}"), read_again("_1.sto"))
        expect("one of another item", calls_of(child, "1 GET 2 b", f"OK {text_of('b')}"), read_again("_1.sto"))
        expect("of no item", calls_of(child, "1 GET 2 c", "OK ."), [])
        expect("what is open", open_files(child, folder), ["_1.sto"])
        # A sync opens a file by itself, and closes it.
        tell(child, ("1 COMMIT", "OK 1"))
        expect("what is open behind a commit", open_files(child, folder), ["_1.sto"])
        # A file that goes is closed first, so its room on the disk is free at once.
        tell(child, ("1 DELW *:*", "OK 3"), ("0 FORCE", "OK begun 1"), ("0 MERGE", "OK copied 2"), ("0 MERGE", "OK done"))
        tell(child, ("1 CLOSE 2", "OK 2"), ("1 REFRESH", "OK 3"), ("1 COMMIT", "OK 2"), ("1 PRUNE 1", "OK 2"))
        expect("a sweep", child.ask("0 SWEEP")[:2], "OK")
        expect("what is open behind the sweep", (open_files(child, folder), sorted(state(folder))), ([], ["segments_2"]))


def more_files_than_stay_open_are_read(try_):
    """64 stay open. The one that was opened first is closed first."""
    folder, most, count = try_.folder(), 64, 70
    with try_.watched(folder) as child:
        for number in range(1, count + 1):
            tell(child, (put(f"a{number}"), f"OK {number}"), ("1 REFRESH", f"OK {number}"))
        tell(child, ("1 OPEN", f"OK {count}"))
        read = lambda number: calls_of(child, f"1 GET {count} a{number}", f"OK {text_of(f'a{number}')}")
        for number in range(1, count + 1):
            expect(f"the first read of file {number}", read(number), read_anew(f"_{number}.sto"))
            expect(f"what is open behind file {number}", len(open_files(child, folder)), min(number, most))
        expect("what is open", sorted(open_files(child, folder)), sorted(f"_{it}.sto" for it in range(7, count + 1)))
        # A look is no opening: the seventh is the first to go, though it was read again.
        expect("a second read of file 7", read(7), read_again("_7.sto"))
        expect("a second read of file 1", read(1), read_anew("_1.sto"))
        expect("a third read of file 7", read(7), read_anew("_7.sto"))
        # Each that is read in turn from now on was closed just before, for the one before it, or for one of the last six.
        for number in (*range(8, count + 1), *range(1, 8)):
            expect(f"the last read of file {number}", read(number), read_anew(f"_{number}.sto"))
            expect("how many are open", len(open_files(child, folder)), most)


class Bounded(Child):
    """The program, which may have so many descriptors at once."""

    def __init__(self, most, *arguments):
        self.most = most
        super().__init__(*arguments)

    def prepare(self):
        super().prepare()
        # What it says of a refusal is tried elsewhere.
        os.dup2(os.open(os.devnull, os.O_WRONLY), 2)
        resource.setrlimit(resource.RLIMIT_NOFILE, (self.most, self.most))


def few_files_are_open_at_once(try_):
    """Beside the three streams and the lock there are 64 files that stay open, and one in hand. Where the system gives one less, the
    65th file of an opening can't be opened, which is a failure."""
    folder, count = try_.folder(), 66
    with try_.running(folder) as child:
        for number in range(1, count + 1):
            tell(child, (put(f"a{number}"), f"OK {number}"), ("1 REFRESH", f"OK {number}"))
        tell(child, ("1 COMMIT", "OK 1"))
    # What an opening reads stays open for a time: the files of segments, and the commit's.
    for most, is_enough in ((69, True), (68, False)):
        child = Bounded(most, try_.program, "run", str(folder))
        try:
            expect(f"the opening with {most} descriptors", child.ask(SCHEMA), f"OK {count}" if is_enough else "NO 30")
            if is_enough:
                tell(child, ("1 OPEN", f"OK {count}"), *((f"1 GET {count} a{it}", f"OK {text_of(f'a{it}')}") for it in range(1, count + 1)))
                expect("how many stay open", len(open_files(child, folder)), 64)
        finally:
            child.kill()


# Files that another hand changes.

THREE = (put("a"), "OK 1"), (put("bb"), "OK 2"), (put("ccc"), "OK 3"), ("1 REFRESH", "OK 3"), ("1 OPEN", "OK 3")
# Where the text of each item ends, of 20 bytes and one for each further letter of its id.
ENDS = {"a": 20, "bb": 41, "ccc": 63}


def a_file_that_is_cut_short_is_damaged_where_it_is_cut(try_):
    """The same where it was open already, and what is read next is what it has then."""
    for words in (("run",), ("run", "--threads", "2")):
        folder = try_.folder()
        with try_.running(folder, words=words) as child:
            tell(child, *THREE)
            whole = (folder / "_1.sto").read_bytes()
            expect("the texts", whole.decode(), "".join(text_of(id) for id in ENDS))
            for length in (*range(63, -1, -1), 63):
                os.truncate(folder / "_1.sto", length)
                (folder / "_1.sto").write_bytes(whole[:length])
                for id, end in reversed(ENDS.items()):
                    tell(child, (f"1 GET 3 {id}", f"OK {text_of(id)}" if end <= length else "NO 31"))
            expect("the end", child.end(), "status 0")


def a_file_that_is_taken_away_is_missed_once_it_is_opened(try_):
    folder = try_.folder()
    with try_.running(folder) as child:
        tell(child, *THREE, (put("d"), "OK 4"), ("1 REFRESH", "OK 4"), ("1 OPEN", "OK 4"), ("1 GET 4 a", f"OK {text_of('a')}"))
        for name in ("_1.sto", "_2.sto"):
            (folder / name).rename(folder / f"{name}.away")
        # The first is open, and the second isn't.
        tell(child, ("1 GET 4 bb", f"OK {text_of('bb')}"), ("1 GET 4 d", "NO 31"), ("1 GET 4 d", "NO 31"))
        # It is missed by a commit too, for this once.
        tell(child, ("1 COMMIT", "NO 30"))
        for name in ("_1.sto", "_2.sto"):
            (folder / f"{name}.away").rename(folder / name)
        tell(child, ("1 GET 4 d", f"OK {text_of('d')}"), ("1 COMMIT", "OK 2"))


def a_file_that_is_gone_can_be_swept(try_):
    folder = try_.folder()
    with try_.watched(folder) as child:
        tell(child, ("1 COMMIT", "OK 1"), ("1 COMMIT", "OK 2"), ("1 COMMIT", "OK 3"))
        (folder / "segments_1").unlink()
        expect("the sweep", calls_of(child, "0 SWEEP", "OK 2"), [("delete", "segments_1"), ("delete", "segments_2")])
        tell(child, ("0 SWEEP", "OK 0"))


def a_merge_misses_the_file_that_it_fills(try_):
    """It was made, and is gone when bytes are to stand behind its own: it isn't made again."""
    folder = try_.folder()
    with try_.running(folder) as child:
        tell(child, *THREE, (put("d"), "OK 4"), ("1 REFRESH", "OK 4"), ("0 MERGE", "OK begun 2"))
        (folder / "_3.sto").unlink()
        tell(child, ("0 MERGE", "NO 30"))
        expect("whether it is there", (folder / "_3.sto").exists(), False)
        tell(child, ("0 MERGE", "OK begun 2"), ("0 MERGE", "OK copied 4"), ("0 MERGE", "OK done"), ("1 COMMIT", "OK 1"))


def a_full_disk_is_a_failure(try_):
    folder = try_.folder()
    with try_.running(folder) as child:
        tell(child, *THREE, (put("d"), "OK 4"), ("1 REFRESH", "OK 4"), ("0 MERGE", "OK begun 2"))
        (folder / "_3.sto").unlink()
        (folder / "_3.sto").symlink_to("/dev/full")
        tell(child, ("0 MERGE", "NO 30"), ("0 MERGE", "OK begun 2"), ("0 MERGE", "OK copied 4"), ("0 MERGE", "OK done"))
        tell(child, ("1 GET 3 a", f"OK {text_of('a')}"))
        expect("the device", Path("/dev/full").is_char_device(), True)


def files_that_may_only_be_read_are_read_synced_and_deleted(try_):
    folder = try_.folder()
    with try_.running(folder) as child:
        tell(child, *THREE, (put("d"), "OK 4"), ("1 REFRESH", "OK 4"))
        for it in folder.iterdir():
            it.chmod(0o444)
        tell(child, ("1 GET 3 a", f"OK {text_of('a')}"), ("1 COMMIT", "OK 1"), ("0 MERGE", "OK begun 2"))
        (folder / "_3.sto").chmod(0o444)
        # No permission holds root back.
        tell(child, ("0 MERGE", "OK copied 4" if os.access(folder / "_3.sto", os.W_OK) else "NO 30"))
        (folder / "segments_1").chmod(0o444)
        tell(child, ("1 COMMIT", "OK 2"))
        expect("a sweep", (child.ask("0 SWEEP")[:3], (folder / "segments_1").exists()), ("OK ", False))


def a_folder_without_files_can_be_taken_away_while_it_is_locked(try_):
    """No file stands for the lock."""
    folder = try_.folder()
    with try_.running(folder) as child:
        expect("what lies in it", os.listdir(folder), [])
        folder.rmdir()
        tell(child, (put("a"), "OK 1"), ("1 REFRESH", "NO 30"), ("1 COMMIT", "NO 30"), ("0 SWEEP", "OK 4"))
        expect("the end", child.end(), "status 0")


def the_lock_is_the_systems(try_):
    """Whoever has it, or a share of it, keeps the program out, until it is given back."""
    folder = try_.folder()
    held = os.open(folder, os.O_RDONLY)
    try:
        used = (b"NO 30\n", 2, IN_USE)
        for how, wanted in ((fcntl.LOCK_EX, used), (fcntl.LOCK_SH, used), (fcntl.LOCK_UN, (b"OK 0\n", 0, b""))):
            fcntl.flock(held, how)
            for path in (folder, f"{folder}/"):
                expect(f"over {path}, where another has {how}", try_.refused(path), wanted)
        with try_.running(folder):
            for how in (fcntl.LOCK_EX, fcntl.LOCK_SH):
                try:
                    fcntl.flock(held, how | fcntl.LOCK_NB)
                    expect(f"the lock {how}", "had", "refused")
                except BlockingIOError:
                    pass
        fcntl.flock(held, fcntl.LOCK_EX | fcntl.LOCK_NB)
    finally:
        os.close(held)
    expect("what lies in the folder", os.listdir(folder), [])


TESTS = (
    what_is_no_name_is_left_alone,
    names_are_read_to_their_limits,
    files_have_the_last_numbers,
    names_go_in_the_order_of_their_bytes,
    a_folder_in_a_files_place_is_no_file,
    a_folder_in_place_of_a_commits_file_is_as_if_absent,
    links_are_files_and_what_they_lead_to_is_left,
    no_file_is_made_anew,
    no_folder_is_no_catalogue,
    files_are_synced_before_what_leads_to_them,
    an_opening_syncs_what_it_found_before_it_deletes,
    reads_and_writes_of_few_bytes_go_on,
    a_file_stays_open_for_the_next_read,
    more_files_than_stay_open_are_read,
    few_files_are_open_at_once,
    a_file_that_is_cut_short_is_damaged_where_it_is_cut,
    a_file_that_is_taken_away_is_missed_once_it_is_opened,
    a_file_that_is_gone_can_be_swept,
    a_merge_misses_the_file_that_it_fills,
    a_full_disk_is_a_failure,
    files_that_may_only_be_read_are_read_synced_and_deleted,
    a_folder_without_files_can_be_taken_away_while_it_is_locked,
    the_lock_is_the_systems,
)


if __name__ == "__main__":
    if not can_stop_calls():
        sys.exit("folders: this system lets no process stop the calls of its child, so nothing was tried")
    sys.exit(run("folders", "usage: tests/folders.py PROGRAM", Try, TESTS))
