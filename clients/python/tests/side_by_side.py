"""A program that answers sessions side by side, for tests: another program answers, and replies of sessions are mixed.

usage: side_by_side.py PROGRAM.. run --threads N FOLDER

The program is started as `PROGRAM.. run FOLDER`. Each reply is whole, and a session's come in their order.
"""

import random
import subprocess
import sys
import threading
from collections import deque



def further(asked, told):
    """How many lines the reply goes on for, by the words of the line and of the reply's first line."""
    if asked[1:2] == ["FACETS"]:
        return min(int(asked[4]), int(told[3]))
    at = {"FIND": 2, "FILES": 2, "STAT": 4}.get(asked[1] if len(asked) > 1 else "")
    return 0 if at is None else int(told[at])


def read_reply(child, asked):
    """The lines of the reply to a line of these words."""
    lines = [child.stdout.readline()]
    told = lines[0].decode().split()
    if told[1:2] == ["OK"]:
        lines += [child.stdout.readline() for _ in range(further(asked, told))]
    return b"".join(lines)


class Mixed:
    """Replies that wait to go out, by sessions."""

    def __init__(self):
        self.chance = random.Random(0)
        self.waiting = {}
        self.lines_ended = False
        self.changed = threading.Condition()

    def add(self, session, reply):
        with self.changed:
            self.waiting.setdefault(session, deque()).append(reply)
            self.changed.notify()

    def end(self):
        with self.changed:
            self.lines_ended = True
            self.changed.notify()

    def write_all(self):
        """Writes one reply after another, of a session by chance, until no more come."""
        while True:
            with self.changed:
                self.changed.wait_for(lambda: self.waiting or self.lines_ended)
                if self.waiting and self.chance.random() < 0.5:
                    self.changed.wait(0.002)  # so that others come meanwhile
                if not self.waiting:
                    return
                session = self.chance.choice(list(self.waiting))
                reply = self.waiting[session].popleft()
                if not self.waiting[session]:
                    del self.waiting[session]
            sys.stdout.buffer.write(reply)
            sys.stdout.buffer.flush()


def main():
    program, folder = sys.argv[1:-4], sys.argv[-1]
    assert sys.argv[-4:-2] == ["run", "--threads"] and 1 <= int(sys.argv[-2]) <= 64, sys.argv
    child = subprocess.Popen([*program, "run", folder], stdin=subprocess.PIPE, stdout=subprocess.PIPE)
    asked, mixed = deque(), Mixed()
    come = threading.Semaphore(0)

    def answer():
        while True:
            come.acquire()
            if not asked:
                return mixed.end()
            words = asked.popleft()
            mixed.add(words[0], read_reply(child, words))

    threads = [threading.Thread(target=answer), threading.Thread(target=mixed.write_all)]
    child.stdin.write(sys.stdin.buffer.readline())
    child.stdin.flush()
    sys.stdout.buffer.write(child.stdout.readline())
    sys.stdout.buffer.flush()
    for thread in threads:
        thread.start()
    for line in sys.stdin.buffer:
        asked.append(line.decode().split())
        child.stdin.write(line)
        child.stdin.flush()
        come.release()
    child.stdin.close()
    come.release()
    for thread in threads:
        thread.join()
    return child.wait()


if __name__ == "__main__":
    sys.exit(main())
