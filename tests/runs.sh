#!/usr/bin/env bash
# Runs every test that wants built programs and no proof, side by side. The last line is 'N passed, M failed', and the status 0
# where M is.
#
# usage: tests/runs.sh PROGRAM CHECK        (the catalogue, and catalogue_check)
set -euo pipefail

if [ "$#" -ne 2 ] || ! [ -x "$1" ] || ! [ -x "$2" ]; then
  echo "usage: tests/runs.sh PROGRAM CHECK, both built" >&2
  exit 2
fi
program=$(realpath "$1")
check=$(realpath "$2")
cd "$(dirname "${BASH_SOURCE[0]}")/.."
# shellcheck source=tests/count.sh
. tests/count.sh

begin 'tests/program.sh' tests/program.sh "$program"
if ! command -v python3 >/dev/null || ! python3 -c 'import sys; sys.exit(sys.version_info < (3, 9))'; then
  fail "python3, 3.9 or later, is wanting, so of the tests of the programs only tests/program.sh was run"
else
  named=$(printf %q "$program")
  begin 'tests/believed.py' tests/believed.py
  begin 'tests/days.py' tests/days.py "$program" "$check"
  begin 'tests/commits.py' tests/commits.py "$program" "$check"
  begin 'tests/segments.py' tests/segments.py "$program" "$check"
  begin 'tests/ledgers.py' tests/ledgers.py "$program"
  begin 'tests/merges.py' tests/merges.py "$program"
  begin 'tests/chores.py' tests/chores.py "$program"
  begin 'tests/callers.py' tests/callers.py "$program"
  begin 'tests/streams.py' tests/streams.py "$program"
  begin 'tests/thrown_days.py' tests/thrown_days.py "$program"
  begin 'tests/at_once.py' tests/at_once.py "$program"
  # What stops the program's calls of the system.
  if python3 tests/faulty.py; then
    begin 'tests/folders.py' tests/folders.py "$program"
    begin 'tests/failing_ledgers.py' tests/failing_ledgers.py "$program"
    begin 'tests/failing_shifts.py' tests/failing_shifts.py "$program"
    begin 'tests/failing_openings.py' tests/failing_openings.py "$program" "$check"
    begin 'tests/failing_folders.py' tests/failing_folders.py "$program" "$check"
    begin 'tests/failing_streams.py' tests/failing_streams.py "$program"
  else
    echo "left out, as this system lets no process stop the calls of its child: tests/folders.py and tests/failing_*.py, in which calls of the system fail" >&2
  fi
  if [ -x tests/limits.py ]; then begin 'tests/limits.py' tests/limits.py "$program"; fi
  begin 'tests/large.py' tests/large.py "$program"
  if [ -x tests/folder.py ]; then begin 'tests/folder.py' tests/folder.py "$program" "$check"; fi
  begin 'clients/python' env JASMINEDOME_PROGRAM="$named" python3 clients/python/tests
  if python3 clients/python/tests/replicas --can; then
    begin 'clients/python/tests/replicas' env JASMINEDOME_PROGRAM="$named" python3 clients/python/tests/replicas
  fi
  # The sample shop serves by the first Python that can.
  serves() { python3 -c 'import starlette, uvicorn' 2>/dev/null || /usr/bin/python3 -c 'import starlette, uvicorn' 2>/dev/null; }
  if ! serves; then
    echo "left out for want of Starlette and uvicorn: examples/shop/test, and the tests of clients/python that serve over HTTP" >&2
  elif command -v chromium >/dev/null && command -v chromedriver >/dev/null; then
    begin 'examples/shop/test' env JASMINEDOME_PROGRAM="$named" examples/shop/test
  else
    echo "left out for want of Chromium and its driver: examples/shop/test, which drives the sample shop's page" >&2
  fi
fi
await

finish
