#!/usr/bin/env python3
"""Has calls of the system fail in turn while folders are opened, judged and swept, which are spelled byte by byte as docs/FORMATS.md
says, and while segments are written; and has openings find no memory. What is told then, and what stands in the folder, has to be
what a person wrote down.

usage: tests/failing_openings.py PROGRAM CHECK        (the catalogue, and catalogue_check)

Each try has a folder of its own. The last line is `N passed, M failed`.
"""

import errno
import os
import re
import sys
import tempfile

import commits
from commits import WHOLE, commit, live, segment
from faulty import NEVER, Faults, Faulty, Memory, can_stop_calls
from limits import counted, u32, u64
from tries import expect, run, state

SCHEMA = f"SCHEMA 2 10 {commits.SCHEMA}"
OPENED = commits.told_replies(3, 9, (commits.LEFT, commits.MIDDLE, commits.RIGHT), commits.TEXTS)
LOG, IN_USE = "[ERROR catalogue] schema refused\n", "[ERROR catalogue] folder in use\n"
DEVICE = "catalogue_check: 30: the storage device failed\n"
# What a signal may interrupt, and is done again then.
INTERRUPTED = ("open", "create", "lock", "read", "write", "sync")
# With what all calls fail from one on.
ERRORS = (errno.EIO, errno.ENOSPC, errno.EACCES, errno.EROFS, errno.EMFILE)


class Heard(Faulty):
    """A program whose standard error is kept."""

    def __init__(self, said, *words, **how):
        self.said = open(said, "w+b")
        super().__init__(*words, **how)

    def prepare(self):
        os.dup2(self.said.fileno(), 2)
        super().prepare()

    def complaint(self):
        self.said.seek(0)
        return self.said.read().decode()

    def kill(self):
        super().kill()
        self.said.close()


class Try(commits.Try):
    """The programs, a room for folders, and what one run made of a folder."""

    def __init__(self, room, program, check):
        super().__init__(room, program, check)
        self.said = room.path / "said"

    def over(self, folder, **how):
        return Heard(self.said, folder, self.program, "run", str(folder), **how)

    def opened(self, folder, **how):
        """What an opening is told, its status and what it complains of; and its calls."""
        child = self.over(folder, **how)
        try:
            told = child.ask(SCHEMA)
            calls = child.calls
            child.meet()
            return (told, child.end(), child.complaint()), calls
        finally:
            child.kill()

    def checked(self, folder, *words, **how):
        """What the check tells, its status and what it complains of; and its calls."""
        child = Heard(self.said, folder, self.checker, *words, str(folder), **how)
        try:
            child.process.stdin.close()
            told = child.process.stdout.read().decode()
            return (told, child.process.wait(), child.complaint()), child.calls
        finally:
            child.kill()

    def expect_read(self, what, folder):
        """The next run reads the whole commit, and changes no file."""
        expect(f"what is read behind {what}", self.replies(folder, commits.told_lines(3, 9, commits.IDS)), OPENED)
        expect(f"the files behind {what}", state(folder), WHOLE)


def failure(calls, passes, is_all, error):
    """The name of a case: which call fails."""
    kind, file = calls[passes]
    return f"{kind} of '{file}', call {passes}{' and all behind it' if is_all else ''}, with {errno.errorcode[error]}"


def ways(calls, every=1):
    """Each of the calls failing, alone with EIO; and each, or each third, with all behind it, the error another from call to call.
    Told are how many pass, the faults, and their name."""
    for passes in range(len(calls)):
        yield passes, Faults(passes), "a failed " + failure(calls, passes, False, errno.EIO)
        if passes % every == 0:
            error = ERRORS[passes % len(ERRORS)]
            yield passes, Faults(passes, True, error), "a failed " + failure(calls, passes, True, error)


def is_made_again(calls, passes):
    """Whether a call that a signal interrupted is made again: each that a signal can interrupt, but that a folder is opened to be
    listed, which ends the listing."""
    kind, file = calls[passes]
    return kind in INTERRUPTED and ((kind, file) != ("open", "") or calls[passes + 1][0] != "list")


# Openings.


def an_opening_reads_each_file_once_and_syncs_all(try_):
    folder = try_.whole_but({})
    told, calls = try_.opened(folder)
    expect("an opening", told, ("OK 9", "status 0", ""))
    expect("what is read", sorted(file for kind, file in calls if kind == "read"), sorted(it for it in WHOLE if not it.endswith(".sto")))
    expect("what is measured", sorted({file for kind, file in calls if kind == "size"}), sorted(WHOLE))
    synced = [file for kind, file in calls if kind == "sync"]
    expect("what is synced", (sorted(synced), synced[-1]), (sorted(["", *WHOLE]), ""))
    expect("what else is done", {kind for kind, _ in calls} - {"read", "size", "sync"}, {"open", "lock", "list", "seek"})
    try_.expect_read("an opening", folder)


def each_call_of_an_opening_fails(try_):
    """The first call that fails ends it."""
    _, calls = try_.opened(try_.whole_but({}))
    for passes, faults, case in ways(calls):
        folder = try_.whole_but({})
        told, made = try_.opened(folder, faults=faults)
        expect(f"an opening with {case}", told, ("NO 30", "status 2", LOG))
        expect(f"the calls up to {case}", made, calls[: passes + 1])
        expect(f"the files behind {case}", state(folder), WHOLE)
        # The files are the same, so that what one of the two runs leaves is read.
        if not faults.all_behind:
            try_.expect_read(case, folder)


def an_interrupted_call_of_an_opening_is_made_again(try_):
    """Those of the folder, of the commit's own file and of one segment, which has a live file."""
    _, calls = try_.opened(try_.whole_but({}))
    for passes, (_, file) in enumerate(calls):
        if file not in ("", "segments_3") and not file.startswith("_1"):
            continue
        case = failure(calls, passes, False, errno.EINTR)
        folder = try_.whole_but({})
        told, made = try_.opened(folder, faults=Faults(passes, error=errno.EINTR))
        if is_made_again(calls, passes):
            expect(f"an opening with an interrupted {case}", told, ("OK 9", "status 0", ""))
            expect(f"the calls around an interrupted {case}", made, calls[: passes + 1] + calls[passes:])
        else:
            expect(f"an opening with an interrupted {case}", told, ("NO 30", "status 2", LOG))
        expect(f"the files behind an interrupted {case}", state(folder), WHOLE)


def a_file_is_read_in_parts(try_):
    """40 bytes at most: 99 bytes and three times 77 take three and two reads each, and 26 one. Each of them fails."""
    for faults in (NEVER, *(Faults(passes, error=errno.EINTR, kinds=("read",)) for passes in range(11))):
        told, calls = try_.opened(try_.whole_but({}), bytes_at_once=40, faults=faults)
        expect(f"an opening by parts, with read {faults.passes} interrupted", told, ("OK 9", "status 0", ""))
        reads = 3 + 2 + 1 + 2 + 2 + 1 + (faults.passes is not None)
        expect("how many parts are read", sum(kind == "read" for kind, _ in calls), reads)
    for passes in range(11):
        folder = try_.whole_but({})
        told, _ = try_.opened(folder, bytes_at_once=40, faults=Faults(passes, kinds=("read",)))
        expect(f"an opening where part {passes} isn't read", told, ("NO 30", "status 2", LOG))
        try_.expect_read(f"part {passes} that isn't read", folder)


def calls_of_check(try_):
    return try_.checked(try_.whole_but({}))[1]


def an_absent_file_is_damage(try_):
    """A file that is listed is gone where it is opened. Where it goes before it is synced, the device failed."""
    opens = [it for it in try_.opened(try_.whole_but({}))[1] if it[0] in ("open", "sync")]
    read = opens.index(("sync", "segments_3")) - 1
    opens = [it for it in opens if it[0] == "open"]
    for passes, (_, file) in enumerate(opens):
        folder = try_.whole_but({})
        told, _ = try_.opened(folder, faults=Faults(passes, error=errno.ENOENT, kinds=("open",)))
        wanted = "NO 31" if file and passes < read else "NO 30"
        expect(f"an opening where '{file}' is absent at its open {passes}", told, (wanted, "status 2", LOG))
        expect(f"the files where '{file}' was absent at its open {passes}", state(folder), WHOLE)
    first = ("open", "segments_3")
    passes = calls_of_check(try_).index(first)
    (told, status, said), calls = try_.checked(try_.whole_but({}), faults=Faults(passes, True, errno.ENOENT))
    expect("the absent file", calls[passes], first)
    # Of a commit's own file one rule says both: that it is absent, or has other bytes.
    expect("a check without the commit's file", (told.splitlines()[1], status, said), ("  segments_3: its bytes are no commit's", 1, ""))
    passes = calls_of_check(try_).index(("open", "_1.seg"))
    (told, status, said), calls = try_.checked(try_.whole_but({}), faults=Faults(passes, True, errno.ENOENT))
    absent = [f"  _{number}.seg: it is absent" for number in (1, 2, 3)]
    expect("a check without the segments", (told.splitlines()[1:], status, said), (absent, 1, ""))


def a_lock_that_another_has_is_no_failure(try_):
    folder = try_.whole_but({})
    told, _ = try_.opened(folder, faults=Faults(0, error=errno.EAGAIN, kinds=("lock",)))
    expect("an opening", told, ("NO 30", "status 2", IN_USE))
    try_.expect_read("a lock that another has", folder)


# Openings without memory.

def an_opening_that_finds_no_memory_changes_nothing(try_):
    """Each allocation in turn is refused alone, from when the program waits for its first line; and each fifth with all behind it."""
    for is_all, step in ((False, 1), (True, 5)):
        passes = 0
        while is_refused_memory(try_, passes, is_all):
            passes += step
        expect("whether memory was asked for", passes > 0, True)


def is_refused_memory(try_, passes, is_all):
    """Whether an opening asks for so much memory that this is refused. Of a list that grows less may do than was asked for first."""
    folder = try_.whole_but({})
    child = try_.over(folder, memory=Memory())
    try:
        child.wait_until_it_reads()
        child.memory = Memory(passes, is_all)
        told, is_refused = child.ask(SCHEMA), child.memory.refused > 0
        child.memory = Memory()
        ended = told, child.end(), child.complaint()
    finally:
        child.kill()
    wanted = ("OK 9", "status 0", "")
    if is_refused and (is_all or ended != wanted):
        wanted = ("NO 40", "status 2", LOG)
    expect(f"an opening that is refused allocation {passes}", ended, wanted)
    expect(f"the files behind allocation {passes}", state(folder), WHOLE)
    try_.expect_read(f"allocation {passes}", folder)
    return is_refused


# Checks.

FOUND = 'commit 3: whole; token 9, segments 3, rows 6, live rows 4; bytes 454; text ""\n'
UNREAD = "commit 3: unread, since the device failed; "


def told_of_check(calls, passes):
    """What a check tells where this call fails, up to the end of the first line: what it says whose folder isn't listed, whose commit's
    file isn't read, whose other files aren't, or whose sizes aren't found, which only leaves bytes uncounted."""
    kind, file = calls[passes]
    if passes < 2:
        return (FOUND, 0, "")
    if not file:
        return ("", 2, DEVICE)
    own = calls.index(("read", "segments_3"))
    sizes = len(calls) - 6
    if passes <= own:
        return (UNREAD + "bytes 0\n", 2, "")
    if passes < sizes:
        return (UNREAD + 'token 9, segments 3; bytes 454; text ""\n', 2, "")
    return (FOUND.replace("454", str(454 - len(WHOLE[file]))), 0, "")


def without_bytes(told):
    """What is told, but for how many bytes were counted: where all calls fail, fewer are."""
    return re.sub("bytes [0-9]+", "bytes", told)


def expect_judged(case, judged, wanted, is_all):
    """The first line, the status and the complaint are these; no damage is told, and no file that somebody may delete: nobody knows what
    a commit needs whose own file wasn't read."""
    told, *rest = judged
    first = "".join(told.splitlines(True)[:1])
    expect(f"which files no commit names with {case}", [it for it in told.splitlines() if "no commit names it" in it], [])
    expect(f"whether damage is told with {case}", "damaged" in told or "\n  " in told, False)
    counted_of = without_bytes if is_all else str
    expect(f"what is told with {case}", (counted_of(first), *rest), (counted_of(wanted[0]), *wanted[1:]))


def a_failing_device_is_no_damage(try_):
    folder = try_.whole_but({})
    judged, calls = try_.checked(folder)
    expect("a check", judged, (FOUND, 0, ""))
    # The commit's own file is read to be told, and again to be judged.
    read = sorted(file for kind, file in calls if kind == "read")
    expect("what is read", read, sorted([*(it for it in WHOLE if not it.endswith(".sto")), "segments_3"]))
    expect("the last calls", [file for _, file in calls[-6:]], ["_1.sto"] * 2 + ["_2.sto"] * 2 + ["_3.sto"] * 2)
    for passes, faults, case in ways(calls):
        judged, made = try_.checked(folder, faults=faults)
        # Where no call succeeds that follows the lock's, the folder isn't listed either.
        wanted = ("", 2, DEVICE) if faults.all_behind and passes < 2 else told_of_check(calls, passes)
        expect_judged(case, judged, wanted, faults.all_behind)
        expect(f"the call that fails in {case}", made[passes], calls[passes])
        expect(f"the files behind {case}", state(folder), WHOLE)
    try_.expect_read("all checks", folder)


# Drops.

TORN = {"segments_4": b"CSGM"}
DROPPED = "dropped commit 4, which was torn: commit 3 is the newest now\n"
NOT_TORN = "dropped nothing: commit 3 isn't torn\n"


def a_drop_that_fails_is_ended_by_the_next(try_):
    """Up to the delete nothing is changed. Behind it the file is gone, and only the sync of the folder was missed, or what is judged
    then isn't read."""
    judged, calls = try_.checked(try_.whole_but(TORN), "--drop-torn")
    expect("a drop", judged, (DROPPED + FOUND, 0, ""))
    delete = calls.index(("delete", "segments_4"))
    expect("what follows the delete", calls[delete + 1 : delete + 3], [("open", ""), ("sync", "")])
    for passes, faults, case in ways(calls, 3):
        folder = try_.whole_but(TORN)
        (told, status, said), made = try_.checked(folder, "--drop-torn", faults=faults)
        expect(f"the call that fails in {case}", made[passes], calls[passes])
        expect(f"the files behind {case}", state(folder), {**WHOLE, **TORN} if passes <= delete else WHOLE)
        if passes <= delete + 2:
            expect(f"a drop with {case}", (told, status, said), ("", 2, DEVICE))
            expect(f"the calls up to {case}", made, calls[: passes + 1])
        else:
            expect(f"what a drop begins with beside {case}", told.startswith(DROPPED), True)
            expect(f"whether damage is told with {case}", "damaged" in told or "\n  " in told, False)
        if not faults.all_behind and passes <= delete + 3:
            ended, _ = try_.checked(folder, "--drop-torn")
            expect(f"the drop behind {case}", ended, ((DROPPED if passes <= delete else NOT_TORN) + FOUND, 0, ""))
            expect(f"the files behind the drop behind {case}", state(folder), WHOLE)
    try_.expect_read("the last drop", folder)


def an_interrupted_drop_goes_on(try_):
    _, calls = try_.checked(try_.whole_but(TORN), "--drop-torn")
    for passes in range(calls.index(("delete", "segments_4")) + 3):
        if calls[passes][1] not in ("", "segments_4"):
            continue
        folder = try_.whole_but(TORN)
        judged, _ = try_.checked(folder, "--drop-torn", faults=Faults(passes, error=errno.EINTR))
        is_again = is_made_again(calls, passes)
        case = f"an interrupted {failure(calls, passes, False, errno.EINTR)}"
        expect(f"a drop with {case}", judged, (DROPPED + FOUND, 0, "") if is_again else ("", 2, DEVICE))
        expect(f"the files behind {case}", state(folder), WHOLE if is_again else {**WHOLE, **TORN})


# Sweeps, which delete in the byte order of names: digits come before the underscore, and the underscore before letters.

LEFT = ("_10.seg", "_10.sto", "_10_2.liv", "_9.seg", "_9.sto", "segments_10", "segments_9")
NONE = {"segments_11": commit(11, 9, 11, ())}
DELETES = ("delete",)


def names(folder):
    return sorted(state(folder))


def deletes_of(files):
    return [("delete", it) for it in files]


def unswept(try_, files):
    """The program over the files, of which it has deleted none yet, since no delete succeeded."""
    folder = try_.folder(files)
    child = try_.over(folder, faults=Faults(0, True, kinds=DELETES))
    expect("the opening", child.ask(SCHEMA), "OK 9")
    expect("the files that are left", state(folder), files)
    child.meet()
    return folder, child


def pending(child):
    """How many files wait to be deleted."""
    return int(child.ask("0 STAT").split("\n")[0].split(" ")[-1])


def a_sweep_deletes_in_byte_order_up_to_the_first_fault(try_):
    for passes, faults, case in ways(deletes_of(LEFT)):
        folder, child = unswept(try_, {**NONE, **{it: b"x" for it in LEFT}})
        try:
            expect(f"what waits before {case}", pending(child), 7)
            child.meet(faults)
            expect(f"a sweep with {case}", child.ask("0 SWEEP"), "NO 30")
            expect(f"the calls with {case}", child.calls, deletes_of(LEFT[: passes + 1]))
            expect(f"the files behind {case}", names(folder), sorted([*NONE, *LEFT[passes:]]))
            expect(f"what waits behind {case}", pending(child), 7 - passes)
            child.meet()
            expect(f"the sweep behind {case}", child.ask("0 SWEEP"), f"OK {7 - passes}")
            expect(f"its calls, behind {case}", child.calls, deletes_of(LEFT[passes:]))
            expect(f"what is left behind {case}", (state(folder), pending(child)), (NONE, 0))
            expect("the end", (child.end(), child.complaint()), ("status 0", ""))
        finally:
            child.kill()


def an_opening_sweeps_as_a_sweep_does(try_):
    """It is no failure of the opening where a delete fails: the file waits for a sweep."""
    for passes, faults, case in ways(deletes_of(LEFT)):
        folder = try_.folder({**NONE, **{it: b"x" for it in LEFT}, "other": b"x"})
        child = try_.over(folder, faults=Faults(passes, faults.all_behind, faults.error, DELETES))
        try:
            expect(f"an opening with {case}", child.ask(SCHEMA), "OK 9")
            expect(f"its last calls with {case}", child.calls[-passes - 2 :], [("sync", ""), *deletes_of(LEFT[: passes + 1])])
            child.meet()
            expect(f"what waits behind {case}", pending(child), 7 - passes)
            expect(f"the sweep behind {case}", child.ask("0 SWEEP"), f"OK {7 - passes}")
            expect(f"what is left behind {case}", names(folder), ["other", "segments_11"])
        finally:
            child.kill()


def a_sweep_of_nothing_makes_no_call(try_):
    for files in (NONE, WHOLE):
        folder = try_.folder(files)
        child = try_.over(folder)
        try:
            expect("the opening", child.ask(SCHEMA), "OK 9")
            child.meet(Faults(0, True))
            expect("two sweeps", child.say(["0 SWEEP", "0 SWEEP"]), ["OK 0", "OK 0"])
            expect("their calls", child.calls, [])
            expect("the files", state(folder), files)
        finally:
            child.kill()


def an_absent_file_is_swept(try_):
    """One is gone, or all are; or the system says so of one, or of all."""
    for gone, faults in [((it,), NEVER) for it in LEFT] + [(LEFT, NEVER), ((), Faults(0, True, errno.ENOENT))]:
        folder, child = unswept(try_, {**NONE, **{it: b"x" for it in LEFT}})
        try:
            for name in gone:
                (folder / name).unlink()
            child.meet(faults)
            expect(f"a sweep without {gone}", child.ask("0 SWEEP"), "OK 7")
            expect(f"its calls without {gone}", child.calls, deletes_of(LEFT))
            expect(f"what waits without {gone}", pending(child), 0)
            expect(f"the files without {gone}", names(folder), sorted([*NONE, *(LEFT if faults is not NEVER else ())]))
        finally:
            child.kill()


# What the newest commit says, and which files it uses, of those that stand there: each is used by one of them.
ROWS = {it: ((1, b"a", 10), (2, b"b", 21)) for it in (9, 10)}
STANDING = {
    "_10.seg": segment(10, ROWS[10]),
    "_10.sto": WHOLE["_1.sto"],
    "_10_2.liv": live(10, 2),
    "_9.seg": segment(9, ROWS[9]),
    "_9.sto": WHOLE["_1.sto"],
    "segments_10": commit(10, 9, 11, ()),
    "segments_9": commit(9, 9, 11, ()),
}
USED = (
    ({"segments_11": commit(11, 9, 11, ((10, 2),))}, ("_10.seg", "_10.sto", "_10_2.liv")),
    ({"segments_11": commit(11, 9, 11, ((10, 0),))}, ("_10.seg", "_10.sto")),
    ({"segments_11": commit(11, 9, 11, ((9, 0),))}, ("_9.seg", "_9.sto")),
    ({}, ("segments_10",)),
    ({"segments_10": None}, ("segments_9",)),
)


def a_used_file_stays(try_):
    """A name is given before it is used: as a folder is opened all that it lists wait, and those of the newest commit are taken."""
    for others, used in USED:
        files = {name: said for name, said in {**STANDING, **others}.items() if said is not None}
        kept = {name: said for name, said in files.items() if name in used or name == "segments_11"}
        folder, child = unswept(try_, files)
        try:
            expect(f"what waits beside {used}", pending(child), len(files) - len(kept))
            expect(f"a sweep beside {used}", child.ask("0 SWEEP"), f"OK {len(files) - len(kept)}")
            expect(f"its calls beside {used}", child.calls, deletes_of(sorted(set(files) - set(kept))))
            expect(f"what is left beside {used}", (state(folder), pending(child)), (kept, 0))
        finally:
            child.kill()


# Who lets files go, and how many wait then: a merge of all three segments leaves their files to the view that was opened with, and to
# the commit, which has two live files and its own beside. A merge's own files don't wait, and no sweep takes them.
MERGE = (("1 OPEN", "OK 9"), ("0 FORCE", "OK begun 3"), ("0 MERGE", "OK copied 6"), ("0 SWEEP", "OK 0"), ("0 MERGE", "OK done"))
VIEW = (("1 CLOSE 9", "OK 9"), ("1 DEL none", "OK 10"), ("1 REFRESH", "OK 10"), ("1 PRUNE 1", "OK 1"))
COMMIT = (("1 COMMIT", "OK 4"),)
SEGMENTS = sorted(it for it in WHOLE if it.endswith((".seg", ".sto")))
OWN = ["_1_2.liv", "_3_3.liv", "segments_3"]
USERS = (
    ((MERGE, []), (VIEW, []), (COMMIT, sorted(SEGMENTS + OWN))),
    ((MERGE, []), (COMMIT, OWN), (VIEW, SEGMENTS)),
)


def users_are_counted_by_name(try_):
    for steps in USERS:
        folder = try_.whole_but({})
        child = try_.over(folder)
        try:
            expect("the opening", child.ask(SCHEMA), "OK 9")
            for lines, let_go in steps:
                for line, reply in lines:
                    expect(f"the reply to '{line}'", child.ask(line), reply)
                expect(f"what waits behind {lines[-1]}", pending(child), len(let_go))
                child.meet()
                expect(f"a sweep behind {lines[-1]}", (child.ask("0 SWEEP"), child.calls), (f"OK {len(let_go)}", deletes_of(let_go)))
            expect("what is left", names(folder), ["_4.seg", "_4.sto", "segments_4"])
        finally:
            child.kill()


# The file of a segment that fails to be written.

PRICED = 'SCHEMA 2 10 {"price":"number"}'
PUTS = ['1 PUT {"id":"a","price":1}', '1 PUT {"id":"b"}']
TEXTS = b'{"id":"a","price":1}{"id":"b"}'


def two_rows(number):
    """The file of a segment of rows a, of write 1 and price 1, and b, of write 2 and no price."""
    return (
        b"CSEG\1" + u64(number) + b"\0\0\0\2" b"\0\0\0\1" + counted(b"price") + b"\3"
        b"\0\0\0\0\0\0\0\1" b"\0\0\0\1a" b"\0\0\0\x14" b"\0\0\0\0\0\0\0\2" b"\0\0\0\1b" b"\0\0\0\x0a"
        b"\1\0\0\0\0\0\0\0\1" b"\0"
    )


def waiting(try_, **how):
    """The program with two items that wait, whose next segment is number 8."""
    folder = try_.folder({"_7.seg": b""})
    child = try_.over(folder, **how)
    expect("what waits", [child.ask(PRICED), *child.say(PUTS)], ["OK 0", "OK 1", "OK 2"])
    child.meet()
    return folder, child


def expect_written(what, folder, number):
    files = state(folder)
    expect(f"the segment {what}", files.get(f"_{number}.seg"), two_rows(number))
    expect(f"its texts {what}", files.get(f"_{number}.sto"), TEXTS)


def written_by(try_, line):
    """The calls that write a segment, where none fails."""
    folder, child = waiting(try_)
    try:
        expect("a segment", child.ask(line), "OK 2")
        expect_written("of two items", folder, 8)
        return child.calls
    finally:
        child.kill()


def a_segment_that_fails_is_written_whole_by_the_next_try(try_):
    calls = written_by(try_, "1 REFRESH")
    made = [it for it in calls if it[0] != "open"]
    expect("what is made and written", made, [(kind, f"_8.{end}") for end in ("seg", "sto") for kind in ("create", "write")])
    for passes, faults, case in ways(calls):
        folder, child = waiting(try_)
        try:
            child.meet(faults)
            expect(f"a segment with {case}", child.ask("1 REFRESH"), "NO 30")
            expect(f"the calls up to {case}", child.calls, calls[: passes + 1])
            child.meet()
            # Both items still wait, and both files were begun.
            expect(f"what stands behind {case}", child.ask("0 STAT"), "OK 2 2 0 1 0 2")
            expect(f"the next try behind {case}", child.ask("1 REFRESH"), "OK 2")
            expect_written(f"behind {case}", folder, 9)
            expect(f"a sweep behind {case}", child.ask("0 SWEEP"), "OK 2")
            expect(f"what is left behind {case}", names(folder), ["_9.seg", "_9.sto"])
            expect(f"what is found behind {case}", child.say(["1 OPEN", "1 FIND 2 9 +price . *:*"])[1], "OK 2 2\n1 a 1\n2 b .")
        finally:
            child.kill()


def a_segment_is_written_in_parts(try_):
    """Seven bytes at most: 75 bytes of the segment take eleven writes, 30 of the texts five. Each is interrupted, and each fails."""
    expect("the sizes", (len(two_rows(8)), len(TEXTS)), (75, 30))
    for passes in range(16):
        for error in (errno.EINTR, errno.ENOSPC):
            folder, child = waiting(try_, bytes_at_once=7)
            try:
                child.meet(Faults(passes, error=error, kinds=("write",)))
                told = child.ask("1 REFRESH")
                case = f"write {passes}, which had {errno.errorcode[error]}"
                if error == errno.EINTR:
                    expect(f"a segment with {case}", (told, sum(kind == "write" for kind, _ in child.calls)), ("OK 2", 17))
                    expect_written(f"with {case}", folder, 8)
                    continue
                expect(f"a segment with {case}", told, "NO 30")
                child.meet()
                begun = {"_8.seg": two_rows(8)[: 7 * passes]}
                if passes >= 11:
                    begun["_8.sto"] = TEXTS[: 7 * (passes - 11)]
                expect(f"what was begun with {case}", state(folder), begun)
                expect(f"the next try behind {case}", child.ask("1 REFRESH"), "OK 2")
                expect_written(f"behind {case}", folder, 9)
            finally:
                child.kill()


# The lines of a merge of two segments, 7 and 8, into number 9, and how many files it has begun at each.
MERGING = (("0 FORCE", "OK begun 2", 1), ("0 MERGE", "OK copied 2", 1), ("0 MERGE", "OK done", 2))


def merging(try_, count):
    """The program, which has been told so many lines of a merge."""
    folder = try_.folder({"_6.seg": b""})
    child = try_.over(folder)
    told = [child.ask(PRICED), *child.say([PUTS[0], "1 REFRESH", PUTS[1], "1 REFRESH"])]
    expect("two segments", told, ["OK 0", "OK 1", "OK 1", "OK 2", "OK 2"])
    for line, reply, _ in MERGING[:count]:
        expect(f"the reply to '{line}'", child.ask(line), reply)
    child.meet()
    return folder, child


def a_merge_that_fails_is_done_whole_by_the_next(try_):
    for count, (line, reply, begun) in enumerate(MERGING):
        folder, child = merging(try_, count)
        try:
            expect("a line of a merge", child.ask(line), reply)
            calls = child.calls
            if count == 2:
                expect_written("of a merge", folder, 9)
        finally:
            child.kill()
        for _, faults, case in ways(calls):
            merge_fails(try_, count, begun, faults, f"'{line}' and {case}")


def merge_fails(try_, count, begun, faults, case):
    folder, child = merging(try_, count)
    try:
        child.meet(faults)
        expect(f"a merge with {case}", (child.ask(MERGING[count][0]), len(child.calls)), ("NO 30", faults.passes + 1))
        child.meet()
        expect(f"what stands behind {case}", child.ask("0 STAT"), f"OK 2 0 2 3 0 {begun}\n7 1 1\n8 1 1")
        expect(f"the next merge behind {case}", [child.ask(line) for line, _, _ in MERGING], [reply for _, reply, _ in MERGING])
        expect_written(f"behind {case}", folder, 10)
        expect(f"a sweep behind {case}", child.ask("0 SWEEP"), f"OK {begun}")
        left = sorted(f"_{number}.{end}" for number in (7, 8, 10) for end in ("seg", "sto"))
        expect(f"what is left behind {case}", names(folder), left)
        texts = child.say(["1 OPEN", "1 GET 2 a", "1 GET 2 b"])[1:]
        expect(f"the texts behind {case}", texts, ['OK {"id":"a","price":1}', 'OK {"id":"b"}'])
    finally:
        child.kill()


TESTS = (
    an_opening_reads_each_file_once_and_syncs_all,
    each_call_of_an_opening_fails,
    an_interrupted_call_of_an_opening_is_made_again,
    a_file_is_read_in_parts,
    an_absent_file_is_damage,
    a_lock_that_another_has_is_no_failure,
    an_opening_that_finds_no_memory_changes_nothing,
    a_failing_device_is_no_damage,
    a_drop_that_fails_is_ended_by_the_next,
    an_interrupted_drop_goes_on,
    a_sweep_deletes_in_byte_order_up_to_the_first_fault,
    an_opening_sweeps_as_a_sweep_does,
    a_sweep_of_nothing_makes_no_call,
    an_absent_file_is_swept,
    a_used_file_stays,
    users_are_counted_by_name,
    a_segment_that_fails_is_written_whole_by_the_next_try,
    a_segment_is_written_in_parts,
    a_merge_that_fails_is_done_whole_by_the_next,
)


if __name__ == "__main__":
    if not can_stop_calls():
        print("failing_openings: this system lets no process stop the calls of its child", file=sys.stderr)
        sys.exit(3)
    # Most of what takes long here is to sync files, and a system that has memory for them needs no disk.
    if os.access("/dev/shm", os.W_OK):
        tempfile.tempdir = "/dev/shm"
    sys.exit(run("failing_openings", "usage: tests/failing_openings.py PROGRAM CHECK", Try, TESTS))
