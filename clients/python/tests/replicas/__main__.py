"""Runs every test of replicas: `python3 clients/python/tests/replicas`. The last line is `N passed, M failed`.

They make a PostgreSQL of their own. Where that or psycopg2 is wanting, they are left out, with a word; `--can` only says so,
and its status is 0 where they can be run. Where this Python has no psycopg2 and the system's has, they run in that one.
"""

import importlib.util
import os
import subprocess
import sys
from pathlib import Path

HERE = Path(__file__).resolve().parent
SYSTEM = "/usr/bin/python3"
sys.path[:0] = [str(HERE), str(HERE.parent)]

import cluster  # noqa: E402
import running  # noqa: E402


def system_has_psycopg2():
    asked = [SYSTEM, "-c", "import sys, psycopg2; sys.exit(sys.version_info < (3, 9))"]
    return os.access(SYSTEM, os.X_OK) and subprocess.run(asked, stderr=subprocess.DEVNULL).returncode == 0


def main():
    if importlib.util.find_spec("psycopg2") is None and system_has_psycopg2():
        os.execv(SYSTEM, [SYSTEM, str(HERE), *sys.argv[1:]])
    wanting = cluster.wanting()
    if wanting is not None:
        print(f"left out for want of {wanting}: the tests of replicas", file=sys.stderr)
    if "--can" in sys.argv:
        return 0 if wanting is None else 1
    if wanting is not None:
        print("0 passed, 0 failed")
        return 0
    return running.run(HERE)


if __name__ == "__main__":
    sys.exit(main())
