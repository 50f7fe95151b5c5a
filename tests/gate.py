#!/usr/bin/env python3
"""Writes into out/gate.txt what a run of the gate found, and which run made which proof.

usage: tests/gate.py LOG TIMES SECONDS TOLD
(what `rt ci` printed, what bash's `times` told, how long ./prove took, and its last line)

`rt ci` proves what no earlier run on this machine proved of the same files. So that one can say which run proved what, each
proof is noted beside the kit with the run that made it, by the sum of all files that it stands on.
"""

import json
import os
import re
import subprocess
import sys
import time
from pathlib import Path

sys.path.insert(0, str(Path(__file__).resolve().parent))

import kit  # noqa: E402
from sources import TOP, Sources  # noqa: E402


def git(*words):
    ran = subprocess.run(["git", *words], cwd=TOP, stdout=subprocess.PIPE, stderr=subprocess.DEVNULL, text=True)
    return ran.stdout.strip() if not ran.returncode else ""


def main():
    if len(sys.argv) != 5:
        print(__doc__, file=sys.stderr)
        return 2
    log = Path(sys.argv[1]).read_text(encoding="utf-8", errors="replace")
    spent = sum(60 * int(minutes) + float(seconds) for minutes, seconds in re.findall(r"(\d+)m([\d.]+)s", Path(sys.argv[2]).read_text(encoding="utf-8")))
    sources, notes = Sources(), kit.store() / "proofs.json"
    commit = git("rev-parse", "--short=12", "HEAD") or "no commit"
    if git("status", "--porcelain"):
        commit += " and changes that aren't committed"
    run = f"{time.strftime('%Y-%m-%d %H:%M', time.gmtime())} UTC, {commit}"
    try:
        known = json.loads(notes.read_text(encoding="utf-8"))
    except (OSError, ValueError):
        known = {}
    proved = set(re.findall(r"^rt: (\w+) proved$", log, re.M)) | {f"{it}: tests" for it in re.findall(r"^rt: (\w+): its tests are proved$", log, re.M)}
    passed = set(re.findall(r"^rt: (\w+): its tests passed$", log, re.M))
    rows = []
    for name in sources.uses:
        for what in [name, f"{name}: tests"] if name in passed else [name]:
            key = f"{what} {sources.sum_below(name)}"
            if what in proved:
                known[key] = run
            rows.append(f"  {what:32} {known.get(key, 'not proved, or by a run of which nothing is noted')}")
    last = re.findall(r"^(?:rt: (?:ok|FAILED).*|\d+ passed, \d+ failed)$", log, re.M)
    load = " ".join(f"{it:.1f}" for it in os.getloadavg())
    head = [
        f"The gate's run that ended {run}: {sys.argv[4]}",
        f"kit: {kit.line()}",
        f"machine: {len(os.sched_getaffinity(0))} processors, load {load} at the end",
        f"it took {int(sys.argv[3]) / 60:.1f} minutes, and {spent / 60:.1f} of a processor",
        *(f"rt ci: {it}" for it in last),
        "",
        "Which run proved what stands here:",
    ]
    (TOP / "out").mkdir(exist_ok=True)
    (TOP / "out" / "gate.txt").write_text("\n".join([*head, *rows]) + "\n", encoding="utf-8")
    kept = notes.with_suffix(".new")
    notes.parent.mkdir(parents=True, exist_ok=True)
    kept.write_text(json.dumps(known), encoding="utf-8")
    os.replace(kept, notes)
    return 0


if __name__ == "__main__":
    sys.exit(main())
