"""A program that goes on for a while after its input's end, and notes when it begins and ends.

usage: lingering.py PROGRAM .. run FOLDER

As the program does, it has the lock of its folder as long as it lives.
"""

import fcntl
import os
import subprocess
import sys
import time
from pathlib import Path


def main():
    command = sys.argv[1:]
    if "--version" in command:
        return subprocess.call(command)
    folder = Path(command[-1])
    note(folder, "begun")
    lock = os.open(folder, os.O_RDONLY)
    fcntl.flock(lock, fcntl.LOCK_EX | fcntl.LOCK_NB)
    # A copy in memory, since two programs can't have the lock.
    subprocess.call(command[: command.index("run")] if "run" in command else command)
    time.sleep(0.5)
    note(folder, "ended")
    return 0


def note(folder, what):
    with open(folder.parent.parent / "spans", "a") as out:
        out.write(f"{what} {time.monotonic()}\n")


if __name__ == "__main__":
    sys.exit(main())
