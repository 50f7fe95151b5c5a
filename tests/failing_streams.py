#!/usr/bin/env python3
"""Runs the program over a standard input and output that give and take little, are interrupted, fail or are full, and where memory
is wanting: what is said and done has to be a front of what was asked.

usage: tests/failing_streams.py PROGRAM        (the catalogue)

tests/faulty.py stops the program's reads of its input, its writes of its output, and the calls by which it takes memory, of which
each piece is taken by a call of its own here. What a socket or a file does by itself is tried in tests/streams.py. The last line is
`N passed, M failed`.
"""

import errno
import fcntl
import os
import signal
import socket
import subprocess
import sys
import tempfile
import time
from collections import Counter
from concurrent.futures import ThreadPoolExecutor
from pathlib import Path

from faulty import Faulty, Memory, Stream, can_stop_calls
from limits import Broken
from streams import LINES, READ_FAULT, REFUSED, REPLIES, SECONDS, TRAFFIC, WHOLE, WRITE_FAULT
from tries import expect, run, state

sys.path.insert(0, str(Path(__file__).resolve().parent.parent / "clients" / "python" / "tests"))
sys.dont_write_bytecode = True

import fake_catalogue  # noqa: E402

USAGE = "usage: tests/failing_streams.py PROGRAM"
ENDED, UNREAD, UNSAID = (0, ""), (3, READ_FAULT), (3, WRITE_FAULT)
# Faults that a call of a stream may tell of, but for an interruption. Each ends it.
FAULTS = (errno.EIO, errno.ENOSPC, errno.EPIPE, errno.EAGAIN, errno.ENOMEM)


class Served(Faulty):
    """The program, whose standard error goes to a file, and whose input may be a socket or a file of the test's."""

    def __init__(self, *arguments, source=None, **ways):
        self.source, self.errors = source, tempfile.TemporaryFile()
        super().__init__(*arguments, **ways)

    def prepare(self):
        os.dup2(self.errors.fileno(), 2)
        if self.source is not None:
            os.dup2(self.source.fileno(), 0)
        super().prepare()

    def serve(self, given):
        """Answers what is said to the input, how it ended, and what standard error says."""
        try:
            self.process.stdin.write(given)
            self.process.stdin.close()
        except BrokenPipeError:
            pass
        said = self.process.stdout.read()
        ended = self.process.wait(SECONDS)
        self.errors.seek(0)
        return said, (ended, self.errors.read().decode())


class Try:
    def __init__(self, room, program):
        self.room, self.program, self.folder = room, program, room.folder()

    def serve(self, given, *words, **ways):
        child = Served(self.folder, self.program, *words, **ways)
        try:
            return child.serve(given)
        finally:
            child.kill()
            child.errors.close()


# What fails or is interrupted has a front.

# Ways in which the input comes and the output is taken, in both of which all is said at last: bytes at once, and interruptions.
WAYS = (
    ("a byte at a time", (1, 0), (1, 0)),
    ("a byte at a time, interrupted before each", (1, 1), (1, 1)),
    ("interrupted before each piece", (1, 1), (None, 1)),
    ("interrupted a hundred times before each piece", (1, 1), (None, 101)),
    ("a writer that is interrupted thousands of times", (1, 1), (None, 5_000)),
    ("a reader that is interrupted thousands of times", (23, 2_500), (None, 0)),
    ("three bytes at a time, interrupted twice", (3, 2), (3, 2)),
)


def all_is_said_in_pieces_and_behind_interruptions(try_):
    for name, given, taken in WAYS:
        reading, writing = Stream(*given), Stream(*taken)
        expect(name, try_.serve(TRAFFIC, reading=reading, writing=writing), (WHOLE, ENDED))
        expect(f"{name}: whether each stream was asked as often", (is_asked(reading, TRAFFIC), is_asked(writing, WHOLE)), (True, True))


def is_asked(stream, said):
    """Whether the stream was asked as often as its pieces and interruptions take, at least."""
    return stream.calls >= (len(said) // (stream.at_once or len(said))) * (stream.interrupts + 1)


def threads_say_all_in_pieces_and_behind_interruptions(try_):
    """Each session's replies in their order; those to lines that show no session go out where they may."""
    for name, given, taken in WAYS[:4]:
        said, ended = try_.serve(TRAFFIC, "run", "--threads", "3", reading=Stream(*given), writing=Stream(*taken))
        expect(f"{name}, in threads", (sorted(said.split(b"\n")), ended), (sorted(WHOLE.split(b"\n")), ENDED))


def ends_of(room):
    return ENDED if room >= len(WHOLE) else UNSAID


def a_writer_that_fails_has_a_front(try_):
    """At each room, with each fault in turn. Where it fails but once, what is held back may still go out, and nothing else."""
    for room in range(len(WHOLE) + 1):
        for number, is_once in enumerate((False, True)):
            error = FAULTS[(room + number) % len(FAULTS)]
            said, ended = try_.serve(TRAFFIC, writing=Stream((None, 1)[room % 2], room=room, error=error, is_once=is_once))
            what = f"a write that fails with {errno.errorcode[error]} behind {room} bytes, {'once' if is_once else 'for ever'}"
            expect(what, (said[:room], said if is_once else said[:room], ended), (WHOLE[:room], WHOLE[: len(said)], ends_of(room)))
            expect(f"{what}: whether more went out", len(said) > room and not is_once, False)


def nothing_is_read_behind_a_writer_that_fails(try_):
    """Each line is a piece of its own. What is held back goes out before the next one is read, so those behind it stay unread."""
    for count in range(len(LINES)):
        ours, theirs = socket.socketpair(socket.AF_UNIX, socket.SOCK_SEQPACKET)
        with ours, theirs:
            for line in LINES:
                ours.sendall(line)
            ours.shutdown(socket.SHUT_WR)
            room = len(b"".join(REPLIES[:count]))
            said = try_.serve(b"", source=theirs, writing=Stream(room=room))
            left = tuple(iter(lambda: theirs.recv(10_000), b""))
        expect(f"a write that fails behind {count} replies: what is unread", (said, left), ((WHOLE[:room], UNSAID), LINES[count + 1 :]))


def a_writer_that_takes_nothing_has_a_front(try_):
    for room in range(len(WHOLE) + 1):
        said = try_.serve(TRAFFIC, writing=Stream(room=room, is_silent=True))
        expect(f"a write of nothing behind {room} bytes", said, (WHOLE[:room], ends_of(room)))


def a_reader_that_fails_leaves_whole_lines_answered(try_):
    """Behind each byte, with each fault in turn, however many come at once, for ever or once."""
    for good in range(len(TRAFFIC) + 1):
        told = b"".join(REPLIES[: TRAFFIC[:good].count(b"\n")])
        for number, (at_once, is_once) in enumerate(((None, True), (1 + good % 7, False))):
            error = FAULTS[(good + number) % len(FAULTS)]
            reading = Stream(at_once, room=good, error=error, is_once=is_once)
            what = f"a read that fails with {errno.errorcode[error]} behind {good} bytes"
            expect(what, try_.serve(TRAFFIC, reading=reading), (told, UNREAD))


def an_input_that_ends_has_a_last_line(try_):
    """A read of 0 bytes is the end. What came behind the last line feed is a line too, and its carriage return isn't dropped."""
    rows = (
        (13, b"OK 0\n"),
        (14, b"OK 0\n"),
        (23, b"OK 0\n1 NO 20\n"),
        (24, b"OK 0\n1 NO 20\n"),
        (34, b"OK 0\n1 NO 20\n22 NO 20\n"),
        (35, b"OK 0\n1 NO 20\n22 NO 10\n"),
        (36, b"OK 0\n1 NO 20\n22 NO 20\n"),
        (37, b"OK 0\n1 NO 20\n22 NO 20\n? NO 10\n"),
        (47, b"OK 0\n1 NO 20\n22 NO 20\n? NO 10\n333 NO 10\n"),
        (48, WHOLE),
    )
    for good, said in rows:
        for at_once in (None, 1):
            found = try_.serve(TRAFFIC, reading=Stream(at_once, room=good, is_silent=True))
            expect(f"an end behind {good} bytes", found, (said, ENDED))


# What was done.

# An opening and three lines, each of which makes one commit more; and what is said to them.
COMMITS = b"SCHEMA 2 1 {}\n1 COMMIT\r\n2 COMMIT b\n3 COMMIT"
COMMITTED = b"OK 0\n1 OK 1\n2 OK 2\n3 OK 3\n"
# A name, an input, how many bytes are read until the reader fails, how many are said until the writer does, and what has to come of it:
# what is said, the number of the newest commit in the folder, and the end.
ENDS = (
    ("an opening alone", b"SCHEMA 2 1 {}", None, None, b"OK 0\n", 0, ENDED),
    ("an opening and its line end", b"SCHEMA 2 1 {}\r\n", None, None, b"OK 0\n", 0, ENDED),
    ("a line without a line feed", b"SCHEMA 2 1 {}\n1 COMMIT", None, None, b"OK 0\n1 OK 1\n", 1, ENDED),
    ("an empty line", b"SCHEMA 2 1 {}\n\n1 COMMIT\n", None, None, b"OK 0\n? NO 10\n1 OK 1\n", 1, ENDED),
    ("all lines", COMMITS, None, None, COMMITTED, 3, ENDED),
    ("no opening", b"", None, None, b"NO 10\n", 0, (2, REFUSED)),
    ("an opening that is refused", b"1 COMMIT\nSCHEMA 2 1 {}\n", None, None, b"NO 10\n", 0, (2, REFUSED)),
    # A reader that fails leaves what was answered to the lines that came whole.
    ("nothing is read", COMMITS, 0, None, b"", 0, UNREAD),
    ("a part of the opening is read", COMMITS, 13, None, b"", 0, UNREAD),
    ("the opening is read", COMMITS, 14, None, b"OK 0\n", 0, UNREAD),
    ("a part of a line is read", COMMITS, 22, None, b"OK 0\n", 0, UNREAD),
    ("all of a line but its line feed is read", COMMITS, 23, None, b"OK 0\n", 0, UNREAD),
    ("a line is read", COMMITS, 24, None, b"OK 0\n1 OK 1\n", 1, UNREAD),
    ("two lines and a part are read", COMMITS, 36, None, b"OK 0\n1 OK 1\n2 OK 2\n", 2, UNREAD),
    ("all is read but the end", COMMITS, 43, None, b"OK 0\n1 OK 1\n2 OK 2\n", 2, UNREAD),
    # A writer that fails leaves the line done whose reply it was, and none behind it.
    ("nothing is said", COMMITS, None, 0, b"", 0, UNSAID),
    ("a part of the first reply is said", COMMITS, None, 4, b"OK 0", 0, UNSAID),
    ("the first reply is said", COMMITS, None, 5, b"OK 0\n", 1, UNSAID),
    ("a part of the second reply is said", COMMITS, None, 11, b"OK 0\n1 OK 1", 1, UNSAID),
    ("the second reply is said", COMMITS, None, 12, b"OK 0\n1 OK 1\n", 2, UNSAID),
    ("a part of the third reply is said", COMMITS, None, 18, b"OK 0\n1 OK 1\n2 OK 2", 2, UNSAID),
    ("the third reply is said", COMMITS, None, 19, b"OK 0\n1 OK 1\n2 OK 2\n", 3, UNSAID),
    ("all but an end is said", COMMITS, None, 25, b"OK 0\n1 OK 1\n2 OK 2\n3 OK 3", 3, UNSAID),
)


def lines_are_done_up_to_a_fault(try_):
    """Where the input comes in lines, however many bytes of one come at once."""
    for name, given, good, room, said, commit, ended in ENDS:
        for at_once in (1, 7):
            folder, reading = try_.room.folder(), Stream(at_once, room=good)
            found = try_.serve(given, "run", str(folder), reading=reading, writing=Stream(room=room))
            expect(f"{name}, {at_once} at once", found, (said, ended))
            newest = max((int(it.partition("_")[2]) for it in state(folder) if it.startswith("segments_")), default=0)
            expect(f"{name}, {at_once} at once: the newest commit", newest, commit)
            again = try_.serve(b"SCHEMA 2 1 {}\n1 SNAP\n", "run", str(folder))
            newest_told = b"1 OK %d\n" % commit if commit else b"1 NO 26\n"
            expect(f"{name}, {at_once} at once: a second run", again, (b"OK 0\n" + newest_told, ENDED))


# Replies of pieces.

# Of a reply's first line, `1 OK ` and its end are 6 bytes, and an item without members is `{"id":""}`, 9.
TEXTS = (7, 58, 63, 64, 65, 121, 122, 123, 250, 300, 600)
EXTREMES = (0, 9, 10, -1, -(2**63), 2**63 - 1)
ROOMS = (0, 1, 3, 64, 127, 128, 129, 300, 1_000)


def gathered():
    """Lines, and what is said to each: numbers at their ends, and texts that fit behind others, fill what is gathered, or are longer."""
    rows = [('SCHEMA 2 1 {"n":"number","t":"text"}', "OK 0\n")]
    for number, value in enumerate(EXTREMES, 1):
        rows.append((f'1 PUT {{"id":"k{number}","n":{value}}}', f"1 OK {number}\n"))
    texts = {f"t{size}": f'{{"id":"t{size}","t":"{"w" * size}"}}' for size in TEXTS}
    for number, text in enumerate(texts.values(), len(EXTREMES) + 1):
        rows.append((f"1 PUT {text}", f"1 OK {number}\n"))
    token = len(EXTREMES) + len(TEXTS)
    rows += [("1 REFRESH", f"1 OK {token}\n"), ("1 OPEN", f"1 OK {token}\n")]
    page = "".join(f"1 {number} k{number} {value}\n" for value, number in sorted((it, at) for at, it in enumerate(EXTREMES, 1)))
    rows.append((f"1 FIND {token} 9 +n . n:[* TO *]", f"1 OK {len(EXTREMES)} {len(EXTREMES)}\n{page}"))
    rows += [(f"1 GET {token} {name}", f"1 OK {text}\n") for name, text in texts.items()]
    return rows


def pieces_go_out_in_order_up_to_a_fault(try_):
    """Each long reply, from its first byte on and behind so many bytes."""
    rows = gathered()
    given = "".join(f"{line}\n" for line, _ in rows).encode()
    whole = "".join(reply for _, reply in rows).encode()
    expect("with room for all", try_.serve(given, writing=Stream(room=len(whole))), (whole, ENDED))
    begin = 0
    for line, reply in rows:
        for more in ROOMS if len(reply) > 9 else ():
            room = begin + more
            said = try_.serve(given, writing=Stream(room=room)) if more < len(reply) else (whole[:room], UNSAID)
            expect(f"{more} bytes of the reply to {line[:40]}", said, (whole[:room], UNSAID))
        begin += len(reply)


# Pipes.


def a_pipe_that_nobody_reads_is_a_write_fault(try_):
    """Its reader goes at once, or behind so many replies."""
    for count in range(len(REPLIES)):
        with subprocess.Popen([try_.program], stdin=subprocess.PIPE, stdout=subprocess.PIPE, stderr=subprocess.PIPE, bufsize=0) as child:
            said = [tell(child, line) for line in LINES[:count]]
            child.stdout.close()
            child.stdin.write(LINES[count])
            child.stdin.close()
            found = said, child.wait(SECONDS), child.stderr.read().decode()
            expect(f"a pipe that is closed behind {count} replies", found, (list(REPLIES[:count]), *UNSAID))


def tell(child, line):
    """Says the line, and reads its reply."""
    child.stdin.write(line)
    said = b""
    while not said.endswith(b"\n"):
        said += os.read(child.stdout.fileno(), 1)
    return said


def a_full_pipe_is_waited_for(try_):
    """A page that is longer than the pipe goes out piece by piece as it is read, and whole."""
    ids = [f"item{number:0>60}" for number in range(1, 1_001)]
    lines = ["SCHEMA 2 1 {}", *(f'1 PUT {{"id":"{it}"}}' for it in ids), "1 REFRESH", "1 OPEN", "1 FIND 1000 1000 . . *:*", "1 CLOSE 1000"]
    told = ["OK 0", *(f"1 OK {number}" for number in range(1, 1_001)), "1 OK 1000", "1 OK 1000", "1 OK 1000 1000"]
    told += [*(f"1 {number} {it} ." for number, it in enumerate(ids, 1)), "1 OK 1000"]
    given, whole = ("".join(f"{it}\n" for it in texts).encode() for texts in (lines, told))
    with subprocess.Popen([try_.program], stdin=subprocess.PIPE, stdout=subprocess.PIPE, bufsize=0) as child:
        fcntl.fcntl(child.stdout, fcntl.F_SETPIPE_SZ, 4_096)
        with ThreadPoolExecutor(1) as lane:
            sent = lane.submit(feed, child, given)
            time.sleep(0.1)
            expect("whether it has ended though its pipe is full", child.poll(), None)
            said = b"".join(iter(lambda: os.read(child.stdout.fileno(), 4_096), b""))
            sent.result()
        expect("what went out through a small pipe", (said, child.wait(SECONDS)), (whole, 0))


def feed(child, given):
    """Writes all, however little is taken at once."""
    left = memoryview(given)
    while left:
        left = left[os.write(child.stdin.fileno(), left) :]
    child.stdin.close()


# Memory.

FIELDS = 'SCHEMA 2 1 {"brand":"keyword","color":"facet","price":"number","title":"text"}'
# Lines that take memory, with their replies by docs/PROTOCOL.md; a reply of a word alone is looked at as far as it goes, since what
# was refused may have used up the number of a segment or of a commit, or ended a merge or a set in the making.
ROWS = (
    ('1 PUT {"id":"a","title":"red shoe","color":["red","blue"]}', "OK 1"),
    ('1 PUT {"id":"b","brand":"x","price":5}', "OK 2"),
    ("1 REFRESH", "OK 2"),
    ("1 OPEN", "OK 2"),
    ("1 FIND 2 9 . . *:*", "OK 2 2\n1 a .\n2 b ."),
    ('1 PUT {"id":"a","title":"red boot"}', "OK 3"),
    ("1 REFRESH", "OK 3"),
    ("1 OPEN", "OK 3"),
    ("1 FIND 3 9 . . *:*", "OK 2 2\n2 b .\n3 a ."),
    ("1 FIND 2 9 -price . (title:shoe price:[* TO 7]) -brand:y", "OK 2 2\n2 b 5\n1 a ."),
    ("1 FACETS 2 color 9 *:*", "OK 1 2\n1 blue\n1 red"),
    ("1 GET 2 a", 'OK {"id":"a","title":"red shoe","color":["red","blue"]}'),
    ("1 COMMIT spring", "OK"),
    ("1 SNAP", "OK"),
    ("2 OPEN 2", "OK 2"),
    ("1 FILES t 2", "OK"),
    ("1 DEL b", "OK 4"),
    ("1 REFRESH", "OK 4"),
    ("1 OPEN", "OK 4"),
    ("1 FIND 4 9 . . *:*", "OK 1 1\n3 a ."),
    ("1 DELW title:boot", "OK 5"),
    ('1 PUT {"id":"c","price":7,"title":"wool"}', "OK 6"),
    ("1 REFRESH", "OK 6"),
    ("1 OPEN 6", "OK 6"),
    ("1 FIND 6 9 +price . title:w*", "OK 1 1\n6 c 7"),
    ("0 WARM", "OK"),
    ("0 WARM", "OK"),
    ("0 STAT", "OK"),
    ("0 FORCE", "OK"),
    ("0 MERGE", "OK"),
    ("0 MERGE", "OK"),
    ("0 SWEEP", "OK"),
    ("1 FIND 6 9 +price . title:w*", "OK 1 1\n6 c 7"),
    ("1 FIND 2 9 . . *:*", "OK 2 2\n1 a .\n2 b ."),
    ("1 PRUNE 1", "OK"),
    ("1 CLOSE 2", "OK 2"),
    ("1 FIND 2 9 . . *:*", "NO 20"),
    ("2 FIND 2 9 . . *:*", "OK 2 2\n1 a .\n2 b ."),
)
# These never take any.
NEVER = (("1 CLOSE 9", "NO 20"), ("1 NOTHING", "NO 10"), ("?", "? NO 10"))
# These do, as often as this at least in all.
TAKERS = {"PUT": 12, "REFRESH": 12, "OPEN": 2, "FIND": 16, "FACETS": 4, "GET": 1, "COMMIT": 4, "DEL": 1, "DELW": 4}
TAKERS |= {"SNAP": 1, "FILES": 1, "WARM": 1, "STAT": 1, "FORCE": 2, "MERGE": 2}
MOST = 2_000
# Of the allocations of a whole run every second one is refused: those of each line, one by one, are said again above.
STEP = 2


def is_reply(reply, wanted):
    return reply.startswith("OK ") if wanted == "OK" else reply == wanted


def refused_in_turn(child, line, wanted):
    """Refuses the line each of the allocations that it makes, one at a time, and then all from each on. Each time it is NO 40, and has
    changed nothing, so that at last it is answered as though it were said for the first time. Answers how often it was refused."""
    for passes in range(MOST):
        for all_behind in (True, False):
            child.memory = Memory(passes, all_behind)
            reply = child.ask(line)
            # Where nothing was refused, or what was is room that the line can do without, it is answered.
            if reply != "NO 40" or not child.memory.refused:
                expect(f"{line}, allocation {passes}, all behind it: {all_behind}: {reply}", is_reply(reply, wanted), True)
                return passes
    raise Broken(f"{line} takes memory {MOST} times")


def a_line_that_finds_no_memory_can_be_said_again(try_):
    """In memory, and over a folder."""
    for words in ((), ("run", str(try_.room.folder()))):
        child, refused = Served(try_.folder, try_.program, *words, memory=Memory()), Counter()
        try:
            expect("the schema line", child.ask(FIELDS), "OK 0")
            for line, wanted in ROWS:
                refused[line.split()[1]] += refused_in_turn(child, line, wanted)
            for line, wanted in NEVER:
                child.memory = Memory(0, all_behind=True)
                expect(f"{line}, without memory", child.ask(line), wanted)
            child.memory = Memory()
            expect("how it ended", child.end(), "status 0")
            expect("lines that were refused too seldom", {it: refused[it] for it in TAKERS if refused[it] < TAKERS[it]}, {})
            expect("how often a CLOSE was refused", refused["CLOSE"], 0)
        finally:
            child.kill()
            child.errors.close()


# The lines of a run that is refused memory from its start on.
INPUT = (FIELDS, *(line for line, _ in ROWS[:9]), "1 DEL b", "1 REFRESH", "1 OPEN", "1 FIND 4 9 . . *:*", "1 CLOSE 2", "1 FIND 2 9 . . *:*")


def run_without(try_, passes, all_behind):
    """Runs the program on the lines, each a piece of its own, and refuses it this memory. Answers what it said, how it ended, which pieces
    are unread, and how many allocations were refused and made."""
    ours, theirs = socket.socketpair(socket.AF_UNIX, socket.SOCK_SEQPACKET)
    with ours, theirs:
        for line in INPUT:
            ours.sendall(line.encode() + b"\n")
        ours.shutdown(socket.SHUT_WR)
        memory = Memory(passes, all_behind)
        said, ended = try_.serve(b"", source=theirs, memory=memory)
        return said, ended, list(iter(lambda: theirs.recv(10_000), b"")), memory


def without_refused(said):
    """Which lines were refused for want of memory, if all others were answered as though these had not been said; or None. What they
    have to be answered says the plain catalogue of the Python client's tests."""
    plain, refused = fake_catalogue.Fake(fake_catalogue.read_schema(FIELDS)), []
    for line in INPUT[1:]:
        reply = b"1 NO 40\n"
        if said.startswith(reply):
            refused.append(line)
        else:
            reply = fake_catalogue.reply(plain, line.encode())
        if not said.startswith(reply):
            return None
        said = said[len(reply) :]
    return None if said else refused


def a_run_goes_on_without_the_lines_that_find_no_memory(try_):
    """One allocation of the whole run is refused, so that one line is at most; and then all behind one. So is each line that takes memory
    in some run. Where the schema line is refused, nothing or that line alone is read."""
    whole = run_without(try_, None, False)
    expect("with memory", (whole[1], without_refused(whole[0].partition(b"\n")[2])), (ENDED, []))
    count, kinds = whole[3].made, Counter()
    for all_behind, step in ((False, STEP), (True, 23)):
        for passes in range(0, count, step):
            said, ended, left, memory = run_without(try_, passes, all_behind)
            what = f"allocation {passes} refused, all behind it: {all_behind}"
            kinds.update(how_it_went(what, said, ended, len(INPUT) - len(left), all_behind))
            expect(f"whether allocation {passes} is refused", memory.refused > 0, True)
    lines = {it for it in INPUT[1:] if it != "1 CLOSE 2"}
    expect("what was refused", kinds.keys() - {"loader", "none", "start"}, lines | {"schema", "unread"})
    expect("how often a loader or no line was", (kinds["loader"] < 9, kinds["none"] < 9), (True, True))


def how_it_went(what, said, ended, read, all_behind):
    """How the run went, of which so many lines were read: in a word, or the lines that were refused; all else is wrong."""
    if said == b"" and not read and ended[0] in (127, -signal.SIGSEGV):
        # The program's loader had no memory, before the program began.
        return ["loader"]
    if said == b"" and not read and ended[0] == 1:
        return ["start"]
    if (said, ended) == (b"NO 40\n", (2, REFUSED)) and read <= 1:
        return ["schema" if read else "unread"]
    opened, _, rest = said.partition(b"\n")
    refused = without_refused(rest)
    expect(f"{what}: {said!r}", (opened, ended, refused is not None and (all_behind or len(refused) <= 1)), (b"OK 0", ENDED, True))
    return refused or ["none"]


TESTS = (
    all_is_said_in_pieces_and_behind_interruptions,
    threads_say_all_in_pieces_and_behind_interruptions,
    a_writer_that_fails_has_a_front,
    nothing_is_read_behind_a_writer_that_fails,
    a_writer_that_takes_nothing_has_a_front,
    a_reader_that_fails_leaves_whole_lines_answered,
    an_input_that_ends_has_a_last_line,
    lines_are_done_up_to_a_fault,
    pieces_go_out_in_order_up_to_a_fault,
    a_pipe_that_nobody_reads_is_a_write_fault,
    a_full_pipe_is_waited_for,
    a_line_that_finds_no_memory_can_be_said_again,
    a_run_goes_on_without_the_lines_that_find_no_memory,
)


if __name__ == "__main__":
    if not can_stop_calls():
        print("failing_streams: left out, this system doesn't let a process stop the calls of its child", file=sys.stderr)
        sys.exit(0)
    sys.exit(run("failing_streams", USAGE, Try, TESTS))
