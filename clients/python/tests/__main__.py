"""Runs every test of this folder: `python3 clients/python/tests`. The last line is `N passed, M failed`.

JASMINEDOME_PROGRAM names the program that they start; without it that is the stand-in, fake_catalogue.py. Those of replicas
are in a folder of their own, since they need PostgreSQL: `python3 clients/python/tests/replicas`.
"""

import sys

import running
import support

if __name__ == "__main__":
    sys.exit(running.run(support.HERE))
