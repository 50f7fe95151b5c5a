#!/usr/bin/env python3
"""Whether crates.txt is lean: rt reads a crate's files once for each path of its lines that leads to it, so there are few paths,
and no line lists a crate that no file of that crate names. The status is 0 where both is so."""
import functools
import os
import re
import sys

MOST_PATHS = 4000

top = os.path.dirname(os.path.dirname(os.path.abspath(__file__)))
uses = {}
with open(f"{top}/crates.txt", encoding="utf-8") as lines:
    for line in lines:
        name, colon, below = line.partition("#")[0].partition(":")
        if colon:
            uses[name.split()[0]] = below.split()


@functools.lru_cache(None)
def paths(name):
    return 1 + sum(paths(it) for it in uses[name] if it in uses)


def text_of(name):
    found = []
    for kind in ("src", "specs", "proofs"):
        for folder, _, files in os.walk(f"{top}/crates/{name}/{kind}"):
            for file in files:
                with open(f"{folder}/{file}", encoding="utf-8") as it:
                    found.append(it.read())
    return "\n".join(found)


failed = False
total = sum(map(paths, uses))
if total > MOST_PATHS:
    print(f"edges: {total} paths, and {MOST_PATHS} at most are wanted: let a crate pass lower names on", file=sys.stderr)
    failed = True
for name in uses:
    text = text_of(name)
    for below in uses[name]:
        if not re.search(rf"\b{below}\b", text):
            print(f"edges: {name} lists {below}, which no file of it names", file=sys.stderr)
            failed = True
print(f"edges: {len(uses)} crates, {total} paths")
sys.exit(failed)
