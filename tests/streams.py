#!/usr/bin/env python3
"""Runs the program over streams that give and take in pieces, or fail: each run has to write what was worked out, and to end so.

usage: tests/streams.py PROGRAM

Standard input is a socket whose packets the program gets one by one, so that a test says in which pieces an input comes, and sees
what was left unread; or one that fails where all that came was read. Standard output is a file that takes so many bytes and no
more. The last line is `N passed, M failed`.
"""

import os
import resource
import signal
import socket
import subprocess
import sys
import threading
from concurrent.futures import ThreadPoolExecutor
from contextlib import contextmanager

from tries import expect, run

SECONDS = 60
LANES = 4
READ_FAULT = "[ERROR catalogue] read fault\n"
WRITE_FAULT = "[ERROR catalogue] write fault\n"
REFUSED = "[ERROR catalogue] schema refused\n"

# A schema line and four others, with what is said to each.
LINES = (b"SCHEMA 2 1 {}\n", b"1 CLOSE 7\n", b"22 CLOSE 7\r\n", b"\n", b"333 CLOSE 7")
REPLIES = (b"OK 0\n", b"1 NO 20\n", b"22 NO 20\n", b"? NO 10\n", b"333 NO 20\n")
TRAFFIC, WHOLE = b"".join(LINES), b"".join(REPLIES)


class Try:
    """The program, and a room for files."""

    def __init__(self, room, program):
        self.program, self.room = program, room.folder()

    def serve(self, given):
        """Serves what the socket gives. Answers what was said, how it ended, and what standard error says."""
        ran = subprocess.run([self.program], stdin=given, stdout=subprocess.PIPE, stderr=subprocess.PIPE, timeout=SECONDS)
        return ran.stdout, ran.returncode, ran.stderr.decode()

    def write(self, given, room):
        """Serves an input to a file that takes so many bytes and no more. Answers what the file has, how it ended, and what standard
        error says."""

        def limit():
            signal.signal(signal.SIGXFSZ, signal.SIG_IGN)
            resource.setrlimit(resource.RLIMIT_FSIZE, (room, room))

        path = self.room / f"written-{room}-{len(given)}"
        with path.open("wb") as file:
            ran = subprocess.run(
                [self.program], input=given, stdout=file, stderr=subprocess.PIPE, timeout=SECONDS, preexec_fn=limit, restore_signals=False
            )
        return path.read_bytes(), ran.returncode, ran.stderr.decode()


def each(test, cases):
    """Tries the cases, some at a time."""
    with ThreadPoolExecutor(LANES) as lanes:
        for _ in lanes.map(test, cases):
            pass


# Pieces.


def in_pieces(try_, given, step):
    """Serves an input that comes in pieces of so many bytes. Answers as `serve` does, and what was left unread."""
    ours, theirs = socket.socketpair(socket.AF_UNIX, socket.SOCK_SEQPACKET)
    # What can't be taken in yet is sent from a thread of its own.
    with ours, theirs, ThreadPoolExecutor(1) as lane:
        sent = lane.submit(send, ours, given, step)
        told = try_.serve(theirs)
        left = b"".join(iter(lambda: theirs.recv(step), b""))
        sent.result()
    return told, left


def send(ours, given, step):
    for at in range(0, len(given), step):
        ours.sendall(given[at : at + step])
    ours.shutdown(socket.SHUT_WR)


def pieces_make_no_difference(try_):
    def test(step):
        expect(f"in pieces of {step}", in_pieces(try_, TRAFFIC, step), ((WHOLE, 0, ""), b""))

    each(test, range(1, len(TRAFFIC) + 1))


def the_reader_is_called_as_often_as_it_takes(try_):
    count = 10_000
    wanted = b"OK 0\n" + b"1 NO 20\n" * count
    expect("10,000 lines by bytes", in_pieces(try_, b"SCHEMA 2 1 {}\n" + b"1 CLOSE 7\n" * count, 1), ((wanted, 0, ""), b""))


def a_refused_first_line_ends_it(try_):
    """Nothing is read behind it. An input of no bytes has an empty first line."""
    rows = (
        (b"", b"NO 10\n", b""),
        (b"\n1 CLOSE 7\n", b"NO 10\n", b"1 CLOSE 7\n"),
        (b"1 CLOSE 7\nSCHEMA 2 1 {}\n", b"NO 10\n", b"SCHEMA 2 1 {}\n"),
        (b"SCHEMA 2 1 {\n1 CLOSE 7\n", b"NO 11\n", b"1 CLOSE 7\n"),
        (b"SCHEMA 2 1", b"NO 10\n", b""),
        (b"SCHEMA 2 1 {}\xff\n", b"NO 10\n", b""),
    )
    for given, said, left in rows:
        expect(f"{given!r} by bytes", in_pieces(try_, given, 1), ((said, 2, REFUSED), left))


# Faults.


def failing(given):
    """A socket that gives these bytes, and then fails once: its other end is closed while a byte is on its way there."""
    ours, theirs = socket.socketpair()
    ours.sendall(given)
    theirs.sendall(b"x")
    ours.close()
    return theirs


def a_reader_that_fails_leaves_whole_lines_answered(try_):
    def test(good):
        ended = TRAFFIC[:good].count(b"\n")
        with failing(TRAFFIC[:good]) as given:
            expect(f"a fault behind {good} bytes", try_.serve(given), (b"".join(REPLIES[:ended]), 3, READ_FAULT))

    each(test, range(len(TRAFFIC) + 1))


def has_fronts(try_, given, whole, rooms, end):
    """What is said goes out up to where the file is full, and whole where it has room for all."""

    def test(room):
        wanted = end if room >= len(whole) else (3, WRITE_FAULT)
        expect(f"room for {room} bytes", try_.write(given, room), (whole[:room], *wanted))

    each(test, rooms)


def a_writer_that_fails_has_a_front(try_):
    has_fronts(try_, TRAFFIC, WHOLE, range(len(WHOLE) + 1), (0, ""))


def a_refusal_may_go_out_in_part(try_):
    has_fronts(try_, b"\n", b"NO 10\n", range(7), (2, REFUSED))


def a_long_reply_goes_out_up_to_where_the_writer_fails(try_):
    """One that is longer than what the program holds back at once."""
    ids = [f"item{number:0>60}" for number in range(1, 1_001)]
    lines = ["SCHEMA 2 1 {}", *(f'1 PUT {{"id":"{it}"}}' for it in ids), "1 REFRESH", "1 OPEN", "1 FIND 1000 1000 . . *:*"]
    told = ["OK 0", *(f"1 OK {number}" for number in range(1, 1_001)), "1 OK 1000", "1 OK 1000", "1 OK 1000 1000"]
    told += [f"1 {number} {it} ." for number, it in enumerate(ids, 1)]
    given, whole = ("".join(f"{it}\n" for it in texts).encode() for texts in (lines, told))
    behind = len(whole) - 60_000
    rooms = [behind + at for at in (0, 1, 127, 128, 129, 4_096, 8_191, 8_192, 8_193, 30_000, 59_999, 60_000)]
    has_fronts(try_, given, whole, rooms, (0, ""))


# What goes out, and when.


@contextmanager
def started(try_):
    """The program over pipes. It is killed where it hasn't ended in time, so that what waits for it fails."""
    with subprocess.Popen([try_.program], stdin=subprocess.PIPE, stdout=subprocess.PIPE, stderr=subprocess.DEVNULL) as child:
        watch = threading.Timer(SECONDS, child.kill)
        watch.start()
        try:
            yield child
        finally:
            watch.cancel()
            child.kill()


def say(child, said):
    """Writes the bytes, one at a time."""
    for byte in said:
        os.write(child.stdin.fileno(), bytes([byte]))


def replies_go_out_before_each_read(try_):
    """Each byte comes only once all that was said before has gone out."""
    with started(try_) as child:
        for line, reply in zip(LINES[:-1], REPLIES):
            say(child, line)
            expect(f"the reply to {line!r}", child.stdout.readline(), reply)
        say(child, LINES[-1])
        child.stdin.close()
        expect("the last reply", child.stdout.read(), REPLIES[-1])
        expect("the status", child.wait(), 0)


def a_refusal_goes_out(try_):
    """The program ends though its input doesn't."""
    with started(try_) as child:
        say(child, b"\n")
        expect("the reply", child.stdout.read(), b"NO 10\n")
        expect("the status", child.wait(), 2)


TESTS = (
    pieces_make_no_difference,
    the_reader_is_called_as_often_as_it_takes,
    a_refused_first_line_ends_it,
    a_reader_that_fails_leaves_whole_lines_answered,
    a_writer_that_fails_has_a_front,
    a_refusal_may_go_out_in_part,
    a_long_reply_goes_out_up_to_where_the_writer_fails,
    replies_go_out_before_each_read,
    a_refusal_goes_out,
)


if __name__ == "__main__":
    sys.exit(run("streams", "usage: tests/streams.py PROGRAM", Try, TESTS))
