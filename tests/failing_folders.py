#!/usr/bin/env python3
"""Fails each call of the system that the program makes on a folder, by itself and with all behind it, with several errors, and holds
what a line is told, and which files are left, against what a person wrote down.

usage: tests/failing_folders.py PROGRAM CHECK        (the catalogue, and catalogue_check)

A file that is absent or too short is told as 31 to a line that reads it, want of memory as 40 to one that takes some for what it
reads, and all else as 30. The last line is `N passed, M failed`.
"""

import fcntl
import os
import subprocess
import sys
import tempfile
from contextlib import contextmanager
from dataclasses import dataclass
from errno import EACCES, EAGAIN, EINTR, EIO, ENAMETOOLONG, ENOENT, ENOLCK, ENOMEM, ENOSPC, EOPNOTSUPP, EROFS, errorcode

from commits import PRICE, commit
from faulty import NEVER, Faults, Faulty, can_stop_calls
from folders import IN_USE, REFUSED, SCHEMA, SYNC_FOLDER, put, read_again, read_anew, synced, tell, text_of, written
from limits import Broken
from tries import Wrong, expect, run, state

# What a call is made for, which says what its failure is told as: to list the folder, to ask for a file's size or for bytes of it, to
# write or sync, to delete by a SWEEP, and to delete at an opening, which waits for the next SWEEP.
LISTS, SIZES, READS, WRITES, DELETES, TIDIES = range(6)
# Calls that a signal may interrupt are made once more, but for the one that opens a folder to list it.
RETRIED = ("open", "create", "read", "write", "sync", "lock")
# The errors by which each call fails, and more by which the first call of a kind does that is made for this.
ERRORS = {
    LISTS: (EIO, ENOMEM),
    SIZES: (EIO, ENOENT, ENOMEM),
    READS: (EIO, ENOENT, ENOMEM),
    WRITES: (EIO, EINTR),
    DELETES: (EIO, ENOENT),
    TIDIES: (EIO, ENOENT),
}
MORE_ERRORS = {
    LISTS: (EACCES, ENAMETOOLONG, ENOENT, EINTR),
    SIZES: (EACCES, EINTR),
    READS: (EACCES, EINTR),
    WRITES: (ENOSPC, EROFS, EACCES, ENOENT, ENOMEM),
    DELETES: (EACCES, ENOMEM, EINTR),
    TIDIES: (EACCES,),
}
# What some errors are told as; all others are 30.
TOLD = {(LISTS, ENOMEM): "NO 40", (READS, ENOMEM): "NO 40", (READS, ENOENT): "NO 31", (SIZES, ENOENT): "NO 31"}


@dataclass
class Scene:
    """A line that makes these calls, each with what it is made for, behind others; what it is answered where none fails, and what it
    is where it is said once more behind a failure."""

    name: str
    before: tuple
    line: str
    wanted: str
    again: str
    calls: list
    words: tuple = ("run",)


def made_for(role, calls):
    return [(role, *call) for call in calls]


ITEM = ((put("a"), "OK 1"), (put("bb"), "OK 2"), ("1 REFRESH", "OK 2"), ("1 OPEN", "OK 2"))
TWO_SEGMENTS = ((put("a"), "OK 1"), ("1 REFRESH", "OK 1"), (put("b"), "OK 2"), ("1 REFRESH", "OK 2"))
BEGUN = (*TWO_SEGMENTS, ("0 MERGE", "OK begun 2"))
GET = ("1 GET 2 bb", f"OK {text_of('bb')}", f"OK {text_of('bb')}")
COMMITTED = (("1 COMMIT", "OK 1"), ("1 COMMIT", "OK 2"), ("1 COMMIT", "OK 3"))
SCENES = (
    Scene("an item is read", ITEM, *GET, made_for(READS, read_anew("_1.sto"))),
    Scene("an item is read of an open file", (*ITEM, ("1 GET 2 a", f"OK {text_of('a')}")), *GET, made_for(READS, read_again("_1.sto"))),
    Scene("an item is read in a thread", ITEM, *GET, made_for(READS, read_anew("_1.sto")), ("run", "--threads", "2")),
    Scene(
        "a segment is written",
        ((put("a"), "OK 1"),),
        "1 REFRESH",
        "OK 1",
        "OK 1",
        made_for(WRITES, [*written("_1.seg"), *written("_1.sto")]),
    ),
    Scene(
        "a commit is made",
        ITEM[:3],
        "1 COMMIT",
        "OK 1",
        "OK 2",
        made_for(WRITES, [*synced("_1.seg"), *synced("_1.sto"), *SYNC_FOLDER, *written("segments_1"), *synced("segments_1"), *SYNC_FOLDER]),
    ),
    Scene("live rows are written", (*ITEM[:3], ("1 COMMIT", "OK 1"), ("1 DEL a", "OK 3")), "1 COMMIT", "OK 2", "OK 3", made_for(
        WRITES, [*written("_1_2.liv"), *synced("_1_2.liv"), *SYNC_FOLDER, *written("segments_2"), *synced("segments_2"), *SYNC_FOLDER]
    )),
    Scene("a merge begins", TWO_SEGMENTS, "0 MERGE", "OK begun 2", "OK begun 2", made_for(WRITES, [("create", "_3.sto")])),
    Scene("a merge reads and writes", BEGUN, "0 MERGE", "OK copied 2", "OK begun 2", [
        *made_for(READS, [*read_anew("_1.sto"), *read_anew("_2.sto")]), *made_for(WRITES, written("_3.sto")[1:])
    ]),
    Scene("a merge ends", (*BEGUN, ("0 MERGE", "OK copied 2")), "0 MERGE", "OK done", "OK begun 2", made_for(WRITES, written("_3.seg"))),
    Scene("files are swept", COMMITTED, "0 SWEEP", "OK 2", "", made_for(DELETES, [("delete", "segments_1"), ("delete", "segments_2")])),
)  # fmt: skip


def told_of(role, kind, error, wanted):
    """What the line is answered whose call fails so."""
    if error == EINTR and kind in RETRIED and role != LISTS:
        return wanted
    if role == TIDIES or (role, error) == (DELETES, ENOENT):
        return wanted
    return TOLD.get((role, error), "NO 30")


def left_behind(before, calls, whole):
    """The files that are left where just these calls were made, of which a write fills a file as it is in the end."""
    files = dict(before)
    for _, kind, name in calls:
        if kind == "create":
            files[name] = b""
        elif kind == "write":
            files[name] = whole[name]
        elif kind == "delete":
            files.pop(name, None)
    return files


class Telling(Faulty):
    """The program with what it says on standard error."""

    def __init__(self, *arguments, **more):
        self.errors = tempfile.TemporaryFile()
        super().__init__(*arguments, **more)

    def prepare(self):
        os.dup2(self.errors.fileno(), 2)
        super().prepare()

    def said(self):
        self.errors.seek(0)
        return self.errors.read()


class Try:
    """The programs, and a room for folders."""

    def __init__(self, room, program, check):
        self.program, self.checker, self.folder = program, check, room.folder

    @contextmanager
    def watched(self, folder, opened="OK 0", words=("run",)):
        """The program over the folder, which it opens so."""
        child = Faulty(folder, self.program, *words, str(folder))
        try:
            expect("the opening", child.ask(SCHEMA), opened)
            yield child
        finally:
            child.kill()

    def ended(self, folder, *command, faults=NEVER, asks=False):
        """What is written, the status, what is said and the calls, of a program that is told the schema line alone."""
        child = Telling(folder, *command, str(folder), faults=faults, asks=asks)
        try:
            try:
                child.process.stdin.write(f"{SCHEMA}\n".encode())
                child.process.stdin.close()
            except BrokenPipeError:
                pass
            told = child.process.stdout.read().decode()
            return told, child.process.wait(), child.said(), list(child.calls)
        finally:
            child.kill()

    def judged(self, *words):
        """What the check writes, its status, and what it says."""
        done = subprocess.run([self.checker, *words], capture_output=True, timeout=60)
        return done.stdout.decode(), done.returncode, done.stderr

    def opened(self, folder):
        """What the next run is told."""
        given = f"{SCHEMA}\n".encode()
        return subprocess.run([self.program, "run", str(folder)], input=given, capture_output=True, timeout=60).stdout.decode().strip()


def each_fault(calls, seen):
    """Each call with its number, and each error by which it fails."""
    for at, (role, kind, name) in enumerate(calls):
        errors = ERRORS[role] if (role, kind) in seen else ERRORS[role] + MORE_ERRORS[role]
        seen.add((role, kind))
        yield from ((at, role, kind, name, error) for error in errors)


@contextmanager
def named(scene, at, kind, name, error, all_behind=False):
    """Has what goes wrong tell of which call it was."""
    try:
        yield
    except (Wrong, Broken) as wrong:
        behind = " and all behind it" if all_behind else ""
        raise Wrong(f"{scene}, call {at} ({kind} of '{name}'){behind} failing by {errorcode[error]}: {wrong}") from None


# Lines over a folder that is open.


def played(try_, scene):
    """The files before the line and behind it where no call fails, and the calls: they have to be those of the scene."""
    folder = try_.folder()
    with try_.watched(folder, words=scene.words) as child:
        tell(child, *scene.before)
        before = state(folder)
        child.meet()
        tell(child, (scene.line, scene.wanted))
        expect(f"the calls as {scene.name}", child.calls, [call[1:] for call in scene.calls])
        return before, state(folder)


def fail_one(try_, scene, at, role, kind, error, before, whole):
    """The line's call fails. What it left, and the line once more."""
    folder = try_.folder()
    with try_.watched(folder, words=scene.words) as child:
        tell(child, *scene.before)
        child.meet(Faults(at, error=error))
        wanted = told_of(role, kind, error, scene.wanted)
        tell(child, (scene.line, wanted))
        expect("how often a call failed", child.taken > at, True)
        if wanted == scene.wanted:
            # A file that is gone needn't be deleted: here the system said so of one that is there.
            made = scene.calls if error == EINTR else scene.calls[:at] + scene.calls[at + 1 :]
            expect("the files", state(folder), left_behind(before, made, whole))
            return
        expect("the files", state(folder), left_behind(before, scene.calls[:at], whole))
        is_last(child.calls, at, [call[1:] for call in scene.calls], error)
        child.meet()
        if kind == "sync":
            is_never_synced(child, scene)
        else:
            # Of two files that are to be swept the first may have gone.
            tell(child, (scene.line, scene.again or f"OK {2 - at}"))
        expect("the end", child.end(), "status 0")


def is_last(calls, at, wanted, error):
    """Nothing is done behind the call that failed. But where memory is wanting, other files are looked at: a damaged one is told first."""
    expect("the calls up to the one that failed", calls[: at + 1], wanted[: at + 1])
    behind = [call for call in calls[at + 1 :] if error != ENOMEM or call[0] not in ("open", "size")]
    expect("the calls behind the one that failed", behind, [])


def is_never_synced(child, scene):
    """After a sync that failed no commit is made in this run, and nothing is asked of the system for one: it may have dropped what it
    couldn't write. All else goes on."""
    tell(child, (scene.line, "NO 30"), (scene.line, "NO 30"))
    expect("what is synced behind a failed sync", [name for kind, name in child.calls if kind == "sync"], [])
    token = 1 + sum(line.split()[1] in ("PUT", "DEL") for line, _ in scene.before)
    tell(child, *((line, f"OK {token}") for line in (put("c"), "1 REFRESH", "1 OPEN")), (f"1 GET {token} c", f"OK {text_of('c')}"))


def each_call_of_a_line_fails(try_):
    seen = set()
    for scene in SCENES:
        before, whole = played(try_, scene)
        for at, role, kind, name, error in each_fault(scene.calls, seen):
            with named(scene.name, at, kind, name, error):
                fail_one(try_, scene, at, role, kind, error, before, whole)


# Of a scene that commits, the commit's own file, and what the next run is told without it, and with it.
FOUND = {"a commit is made": ("segments_1", "OK 0", "OK 2"), "live rows are written": ("segments_2", "OK 2", "OK 3")}


def found_next(scene, left):
    """What the next run is told. A commit whose own file was made and not filled is torn."""
    name, without, found = FOUND[scene.name]
    return found if left.get(name) else "NO 31" if name in left else without


def all_calls_fail_from_one_on(try_):
    """What is left is what a crash before that call leaves, as far as the system keeps what was written."""
    for scene in SCENES:
        before, whole = played(try_, scene)
        for at, (_, kind, name) in enumerate(scene.calls):
            folder = try_.folder()
            with named(scene.name, at, kind, name, EIO, True), try_.watched(folder, words=scene.words) as child:
                tell(child, *scene.before)
                child.meet(Faults(at, all_behind=True))
                tell(child, (scene.line, "NO 30"), (scene.line, "NO 30"))
                expect("the files", state(folder), left_behind(before, scene.calls[:at], whole))
                child.kill()
                if scene.name in FOUND:
                    expect("the next run", try_.opened(folder), found_next(scene, state(folder)))


# The opening.

# A commit of one segment with a dead row, and files that nobody needs.
KEPT = ("_1.seg", "_1.sto", "_1_2.liv", "segments_2")
LISTED = [("open", ""), ("list", ""), ("ask", ""), ("list", "")]
SWEPT = ("_9.sto", "segments_1")


def committed(try_):
    """A folder in which an opening finds all that it can, and where what it lists is asked about in an order that the system gives."""
    folder = try_.folder()
    with try_.watched(folder) as child:
        tell(child, *ITEM[:3], ("1 COMMIT", "OK 1"), ("1 DEL a", "OK 3"), ("1 COMMIT", "OK 2"))
        expect("the end", child.end(), "status 0")
    (folder / "_9.sto").write_bytes(b"nobody's")
    (folder / "notes.txt").write_bytes(b"another's")
    return state(folder)


def sized(name):
    return made_for(SIZES, read_anew(name)[:2])


def opening_calls(asked):
    """The calls of an opening, behind those for the lock: a file's size is asked for before memory is taken to read it."""
    read = lambda name: [*sized(name), *made_for(READS, read_anew(name))]
    found = [*read("segments_2"), *read("_1.seg"), *read("_1_2.liv"), *sized("_1.sto")]
    lasts = [call for name in ("segments_2", "_1.seg", "_1.sto", "_1_2.liv") for call in synced(name)]
    listed = [("open", ""), ("list", ""), *(("ask", name) for name in asked), ("list", "")]
    swept = made_for(TIDIES, [("delete", name) for name in SWEPT])
    return [*made_for(LISTS, listed), *found, *made_for(WRITES, [*lasts, *SYNC_FOLDER]), *swept]


def each_call_of_an_opening_fails(try_):
    """A refused opening leaves all files as they are, and the next one finds them; where no file could be deleted, it is told nothing."""
    files = committed(try_)
    folder = try_.folder(files)
    told, status, said, calls = try_.ended(folder, try_.program, "run", asks=True)
    expect("the opening", (told, status, said, state(folder)), ("OK 3\n", 0, b"", {it: files[it] for it in (*KEPT, "notes.txt")}))
    asked = [name for kind, name in calls if kind == "ask"]
    expect("what is asked about", sorted(asked), sorted((*KEPT, *SWEPT)))
    wanted = opening_calls(asked)
    # How a folder lists its entries is the system's, so the order in which files are read is taken as it came.
    expect("the calls of an opening", calls[2:], [call[1:] for call in wanted])
    for at, role, kind, name, error in each_fault(wanted, set()):
        if error == EIO and role != TIDIES or kind == "list" and error == ENOENT:
            # The first is tried below. By the second the system says that the folder is gone, which is the end of its list.
            continue
        folder = try_.folder(files)
        with named("an opening", at, kind, name, error):
            reply = told_of(role, kind, error, "OK 3")
            told, status, said, calls = try_.ended(folder, try_.program, "run", faults=Faults(at + 2, error=error), asks=True)
            expect("what is told", (told, status, said), (f"{reply}\n", 0, b"") if reply == "OK 3" else (f"{reply}\n", 2, REFUSED))
            if reply != "OK 3":
                is_last(calls, at + 2, [("open", ""), ("lock", ""), *(call[1:] for call in wanted)], error)
                expect("the files", state(folder), files)


def all_calls_of_an_opening_fail_from_one_on(try_):
    files = committed(try_)
    _, _, _, calls = try_.ended(try_.folder(files), try_.program, "run", asks=True)
    wanted = opening_calls([name for kind, name in calls if kind == "ask"])
    for at, (role, kind, name) in enumerate(wanted):
        folder = try_.folder(files)
        with named("an opening", at, kind, name, EIO, True):
            told = try_.ended(folder, try_.program, "run", faults=Faults(at + 2, all_behind=True), asks=True)[:3]
            expect("what is told", told, ("OK 3\n", 0, b"") if role == TIDIES else ("NO 30\n", 2, REFUSED))
            expect("the files", state(folder), left_behind(files, wanted[:at], files))
            expect("the next opening", try_.opened(folder), "OK 3")


def a_file_that_an_opening_could_not_delete_is_swept(try_):
    """Numbers are taken above its own all the same."""
    folder = try_.folder({"_9.sto": b"nobody's", "_4_7.liv": b""})
    child = Faulty(folder, try_.program, "run", str(folder), faults=Faults(0, True, EACCES, ("delete",)))
    try:
        expect("the opening", child.ask(SCHEMA), "OK 0")
        expect("the files", sorted(state(folder)), ["_4_7.liv", "_9.sto"])
        tell(child, ("0 SWEEP", "NO 30"))
        child.meet()
        tell(child, ("0 SWEEP", "OK 2"), (put("a"), "OK 1"), ("1 COMMIT", "OK 8"), ("1 FILES g 8", "OK 3\n_10.seg\n_10.sto\nsegments_8"))
        expect("the files", sorted(state(folder)), ["_10.seg", "_10.sto", "segments_8"])
    finally:
        child.kill()


# The lock.

DEVICE = ("NO 30\n", 2, REFUSED)
USED = ("NO 30\n", 2, IN_USE)
OPENED = ("OK 0\n", 0, b"")
# Which call of the lock fails, by which error, and what the program tells then.
LOCKS = (
    ("lock", EAGAIN, USED),
    ("lock", EOPNOTSUPP, DEVICE),
    ("lock", ENOLCK, DEVICE),
    ("lock", EIO, DEVICE),
    ("lock", ENOMEM, DEVICE),
    ("lock", EINTR, OPENED),
    ("open", EACCES, DEVICE),
    ("open", EAGAIN, DEVICE),
    ("open", ENOENT, DEVICE),
    ("open", ENOMEM, DEVICE),
    ("open", EIO, DEVICE),
    ("open", EINTR, OPENED),
)
NONE = "there is no commit\n"
JUDGED, JUDGED_IN_USE = (NONE, 1, b""), (NONE, 1, b"catalogue_check: folder in use\n")
NO_DEVICE = ("", 2, b"catalogue_check: 30: the storage device failed\n")
KEPT_BACK = (f"dropped nothing: a program works over the folder\n{NONE}", 1, b"catalogue_check: folder in use\n")


def what_the_system_says_of_a_lock_is_told(try_):
    """A folder without its lock isn't listed, nor changed. The check asks for a share, without which it judges all the same, and for
    the lock to drop a commit."""
    for at, (kind, error, wanted) in enumerate(LOCKS):
        faults = Faults(0, error=error, kinds=(kind,))
        folder = try_.folder({"notes.txt": b"another's"})
        # In threads a lock is taken by the same function.
        for words in (("run",), *((("run", "--threads", "2"), ("threads",)) if at < 2 else ())):
            *told, calls = try_.ended(folder, try_.program, *words, faults=faults)
            expect(f"{words} where {kind} fails by {errorcode[error]}", tuple(told), wanted)
            made = [("open", ""), ("lock", "")] if kind == "lock" else [("open", "")]
            expect(f"the calls of {words} where {kind} fails by {errorcode[error]}", calls == made, wanted != OPENED)
        *told, _ = try_.ended(folder, try_.checker, faults=faults)
        expect(f"the check where {kind} fails by {errorcode[error]}", tuple(told), JUDGED_IN_USE if wanted == USED else JUDGED)
        *told, _ = try_.ended(folder, try_.checker, "--drop-torn", faults=faults)
        drops = {USED: KEPT_BACK, DEVICE: NO_DEVICE, OPENED: (f"dropped nothing: there is no commit\n{NONE}", 1, b"")}
        expect(f"a drop where {kind} fails by {errorcode[error]}", tuple(told), drops[wanted])
        expect(f"the folder behind fault {at}", state(folder), {"notes.txt": b"another's"})


def a_share_of_a_lock_leaves_shares_to_others(try_):
    """The check needs no more than a share, and a drop the whole."""
    folder = try_.folder()
    held = os.open(folder, os.O_RDONLY)
    try:
        nothing = (f"dropped nothing: there is no commit\n{NONE}", 1, b"")
        for how, judged, dropped in (
            (fcntl.LOCK_EX, JUDGED_IN_USE, KEPT_BACK),
            (fcntl.LOCK_SH, JUDGED, KEPT_BACK),
            (fcntl.LOCK_UN, JUDGED, nothing),
        ):
            fcntl.flock(held, how)
            for path in (folder, f"{folder}/"):
                expect(f"the check over {path} beside the lock {how}", try_.judged(path), judged)
                expect(f"a drop in {path} beside the lock {how}", try_.judged("--drop-torn", path), dropped)
    finally:
        os.close(held)


def what_is_no_folder_is_not_judged(try_):
    room = try_.folder({"file": b"kept"})
    for path in (room / "file", room / "absent", ""):
        for words in ((), ("--drop-torn",)):
            expect(f"{words} over '{path}'", try_.judged(*words, path), NO_DEVICE)
    expect("the room", state(room), {"file": b"kept"})


# What the check shows of a refusal.

LACKS_MEMORY = ("", 2, b"catalogue_check: 40: out of memory\n")


def the_check_shows_why_it_judges_nothing(try_):
    """It tells the number and the sentence of a refusal, where the folder can't be listed."""
    folder = try_.folder({"_1.seg": b"", "segments_2": commit(2, 0, 1, (), fields=PRICE)})
    for kind, passes in (("open", 1), ("list", 0), ("list", 1), ("ask", 0), ("ask", 1)):
        for error in (EIO, ENOMEM):
            *told, _ = try_.ended(folder, try_.checker, faults=Faults(passes, error=error, kinds=(kind,)), asks=True)
            expect(f"{kind} {passes} failing by {errorcode[error]}", tuple(told), LACKS_MEMORY if error == ENOMEM else NO_DEVICE)
    torn = try_.folder({"segments_1": commit(1, 0, 1, (), fields=PRICE), "segments_2": b""})
    files = state(torn)
    *told, _ = try_.ended(torn, try_.checker, "--drop-torn", faults=Faults(0, error=EACCES, kinds=("delete",)))
    expect("a drop whose delete fails", (tuple(told), state(torn)), (NO_DEVICE, files))


TESTS = (
    each_call_of_a_line_fails,
    all_calls_fail_from_one_on,
    each_call_of_an_opening_fails,
    all_calls_of_an_opening_fail_from_one_on,
    a_file_that_an_opening_could_not_delete_is_swept,
    what_the_system_says_of_a_lock_is_told,
    a_share_of_a_lock_leaves_shares_to_others,
    what_is_no_folder_is_not_judged,
    the_check_shows_why_it_judges_nothing,
)


if __name__ == "__main__":
    if not can_stop_calls():
        sys.exit("failing_folders: this system lets no process stop the calls of its child, so nothing was tried")
    sys.exit(run("failing_folders", "usage: tests/failing_folders.py PROGRAM CHECK", Try, TESTS))
