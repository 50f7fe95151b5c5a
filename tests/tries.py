"""What tests of the built programs share: a room for each one's folders, and how they are told and counted."""

import subprocess
import sys
import tempfile
from pathlib import Path

from limits import Broken


class Wrong(Exception):
    """Something isn't as it has to be."""


def expect(what, got, wanted):
    if got != wanted:
        raise Wrong(f"{what}: {got!r}, wanted {wanted!r}")


def state(folder):
    """The files of the folder, with their bytes."""
    return {it.name: it.read_bytes() for it in folder.iterdir()}


class Room:
    """A room for folders of one test."""

    def __init__(self, path):
        self.path, self.count = path, 0

    def folder(self, files=None):
        """A folder with these files, but for those whose bytes are None."""
        self.count += 1
        folder = self.path / str(self.count)
        folder.mkdir()
        for name, said in (files or {}).items():
            if said is not None:
                (folder / name).write_bytes(said)
        return folder


def run(name, usage, made, tests):
    """Makes of a room and of the programs that the arguments name what a test takes, as often as there are tests, and runs them.
    Answers the status."""
    programs = [str(Path(it).resolve()) for it in sys.argv[1:]]
    if len(programs) != usage.count("PROGRAM") + usage.count("CHECK"):
        print(usage, file=sys.stderr)
        return 2
    passed = failed = 0
    for test in tests:
        with tempfile.TemporaryDirectory(prefix=f"{name}-") as path:
            try:
                test(made(Room(Path(path)), *programs))
                passed += 1
            except (Wrong, Broken, OSError, subprocess.TimeoutExpired) as wrong:
                failed += 1
                print(f"{name}: {test.__name__.replace('_', ' ')} FAILED: {str(wrong)[:600]}")
    print(f"{passed} passed, {failed} failed")
    return 1 if failed else 0
