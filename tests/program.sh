#!/usr/bin/env bash
# program.sh [PROGRAM]: starts the program that ./run would run, or the one that is named, and holds its status, its replies
# and what it says on standard error against what is wanted: what no contract can say, and no stored run looks at. The last
# line is 'N passed, M failed'.
set -euo pipefail

program=${1:-$("$(dirname "${BASH_SOURCE[0]}")/../run" --path)}
if [ ! -x "$program" ]; then
  echo "program.sh: there is no program $program" >&2
  exit 1
fi
room=$(mktemp -d)
trap 'rm -rf "$room"' EXIT
passed=0
failed=0

usage='usage: catalogue [run [--threads N] [FOLDER] | threads FOLDER | --version]'
schema='SCHEMA 2 1 {"title":"text"}'

# expect WHAT STATUS REPLIES SAID: how the last run ended, wrote and complained
expect() {
  local status=$2 replies=$3 said=$4
  if [ "$(cat "$room/status")" != "$status" ] || [ "$(cat "$room/out")" != "$replies" ] ||
    [ "$(cat "$room/err")" != "$said" ]; then
    echo "program.sh: $1 FAILED: status $(cat "$room/status"), wanted $status" >&2
    diff <(printf '%s\n' "$replies") "$room/out" >&2 || true
    diff <(printf '%s\n' "$said") "$room/err" >&2 || true
    failed=$((failed + 1))
  else
    passed=$((passed + 1))
  fi
}

# starts the program with these arguments, on the input that is given
start() {
  local status=0
  "$program" "$@" >"$room/out" 2>"$room/err" || status=$?
  echo "$status" >"$room/status"
}

start <<<"$schema"$'\n''1 PUT {"id":"a","title":"Red"}'
expect 'no argument' 0 $'OK 0\n1 OK 1' ''

start run <<<"$schema"
expect 'run' 0 'OK 0' ''

# what is asked for wrongly is refused before anything is read
for words in serve version '--version now' 'run here there' 'threads' 'threads here there' 'here run' 'run --threads 0 here' \
  'run --threads 65 here' 'run --threads 04 here' 'run --threads +4 here' 'run --thread 4 here' 'run --threads 65' 'run --threads x' \
  'threads --threads 4 here' 'run --threads 4 here there' ''; do
  # shellcheck disable=SC2086
  if [ -n "$words" ]; then set -- $words; else set -- ''; fi
  start "$@" <<<"$schema"
  expect "arguments '$words'" 1 '' "$usage"
done

start $'\xff' <<<"$schema"
expect 'an argument that is no text' 1 '' "$usage"

# the version is that of the repository, and no line is read
version="jasminedome $(cat "$(dirname "${BASH_SOURCE[0]}")/../VERSION")"
start --version <<<"$schema"
expect 'the version' 0 "$version" ''

status=0
"$program" --version >/dev/full 2>"$room/err" || status=$?
echo "$status" >"$room/status"
: >"$room/out"
expect 'the version on a full device' 3 '' '[ERROR catalogue] write fault'

# what was committed to a folder is there for the next run, and what came behind it isn't
mkdir "$room/shop"
start run "$room/shop" <<<"$schema"$'\n''1 PUT {"id":"a"}'$'\n''1 COMMIT spring'$'\n''1 PUT {"id":"lost"}'
expect 'a folder' 0 $'OK 0\n1 OK 1\n1 OK 1\n1 OK 2' ''

start run "$room/shop" <<<"$schema"$'\n''1 OPEN'$'\n''1 FIND 1 9 . . *:*'$'\n''1 GET 1 a'$'\n''1 NOTE 1'
expect 'a folder again' 0 $'OK 1\n1 OK 1\n1 OK 1 1\n1 1 a .\n1 OK {"id":"a"}\n1 OK =spring' ''

start run "$room/shop" <<<'SCHEMA 2 1 {}'
expect 'a folder under another schema' 2 'NO 13' '[ERROR catalogue] schema refused'

# a snapshot keeps its commit through a later one and a sweep, and a copy of the files that it needs opens at it
mkdir "$room/kept" "$room/backup"
start run "$room/kept" <<<"$schema"$'\n''1 PUT {"id":"a"}'$'\n''1 COMMIT log 1'$'\n''1 SNAP'$'\n''1 DEL a'$'\n''1 COMMIT log 2
0 SWEEP
1 FILES g 1'
expect 'a snapshot' 0 $'OK 0\n1 OK 1\n1 OK 1\n1 OK 1\n1 OK 2\n1 OK 2\n0 OK 0\n1 OK 3\n1 _1.seg\n1 _1.sto\n1 segments_1' ''
for name in segments_1 _1.seg _1.sto; do cp "$room/kept/$name" "$room/backup"; done
start run "$room/backup" <<<"$schema"$'\n''1 SNAP'$'\n''1 NOTE 1'$'\n''1 OPEN'$'\n''1 GET 1 a'
expect 'a backup' 0 $'OK 1\n1 OK 1\n1 OK =log 1\n1 OK 1\n1 OK {"id":"a"}' ''

# a commit file that was cut short is 31, which deletes nothing, and without that file the commit below it opens
mkdir "$room/torn"
start run "$room/torn" <<<"$schema"$'\n''1 PUT {"id":"a"}'$'\n''1 COMMIT log 1'$'\n''1 PUT {"id":"b"}'$'\n''1 COMMIT log 2'
expect 'two commits' 0 $'OK 0\n1 OK 1\n1 OK 1\n1 OK 2\n1 OK 2' ''
truncate -s -8 "$room/torn/segments_2"
files=$(ls -l "$room/torn")
start run "$room/torn" <<<"$schema"
expect 'a torn commit' 2 'NO 31' '[ERROR catalogue] schema refused'
if [ "$(ls -l "$room/torn")" != "$files" ]; then
  echo "program.sh: a torn commit FAILED: opening touched a file" >&2
  failed=$((failed + 1))
fi
rm "$room/torn/segments_2"
start run "$room/torn" <<<"$schema"$'\n''1 SNAP'$'\n''1 NOTE 1'$'\n''1 OPEN'$'\n''1 FIND 1 9 . . *:*'
expect 'the commit below' 0 $'OK 1\n1 OK 1\n1 OK =log 1\n1 OK 1\n1 OK 1 1\n1 1 a .' ''

# a file that can't grow, as on a full disk: what has to write is refused, nothing is lost, and smaller things go on
mkdir "$room/full"
long=$(printf 'word%d ' {1..400})
(
  trap '' XFSZ
  ulimit -f 1
  start run "$room/full" <<<"$schema"$'\n''1 PUT {"id":"a","title":"'"$long"'"}'$'\n''1 REFRESH
1 COMMIT
1 PUT {"id":"a","title":"short"}
1 REFRESH
1 OPEN
1 FIND 2 9 . . title:short
0 SWEEP
1 COMMIT'
)
expect 'a full disk' 0 $'OK 0\n1 OK 1\n1 NO 30\n1 NO 30\n1 OK 2\n1 OK 2\n1 OK 2\n1 OK 1 1\n1 2 a .\n0 OK 4\n1 OK 1' ''

for folder in "$room/nowhere" "$room/status" ''; do
  start run "$folder" <<<"$schema"$'\n''1 OPEN'
  expect "no folder '$folder'" 2 'NO 30' '[ERROR catalogue] schema refused'
done

start <<<'SCHEMA 2 1 {"title":"words"}'$'\n''1 OPEN'
expect 'a refused schema' 2 'NO 13' '[ERROR catalogue] schema refused'

start </dev/null
expect 'no input' 2 'NO 10' '[ERROR catalogue] schema refused'

# a folder can be opened and not read
status=0
"$program" <"$room" >"$room/out" 2>"$room/err" || status=$?
echo "$status" >"$room/status"
expect 'a reader that fails' 3 '' '[ERROR catalogue] read fault'

status=0
"$program" <<<"$schema" >/dev/full 2>"$room/err" || status=$?
echo "$status" >"$room/status"
: >"$room/out"
expect 'a writer that fails' 3 '' '[ERROR catalogue] write fault'

status=0
"$program" <<<'SCHEMA 2 1 {}x' >/dev/full 2>"$room/err" || status=$?
echo "$status" >"$room/status"
expect 'a refusal that cannot be written' 3 '' '[ERROR catalogue] write fault'

# judged WHAT: whether the last check did well
judged() {
  if [ "$2" != 0 ]; then
    echo "program.sh: $1 FAILED" >&2
    failed=$((failed + 1))
  else
    passed=$((passed + 1))
  fi
}

# sessions in threads: one that writes and reads under its token, one that reads what was there before, one that asks for upkeep
mkdir "$room/threads"
start threads "$room/threads" <<<"$schema"'
1 PUT {"id":"a","title":"red shoe"}
2 OPEN 0
nobody
1 PUT {"id":"b","title":"red sock"}
2 FIND 0 9 . . *:*
1 REFRESH
10 MERGE
1 OPEN 2
2 CLOSE 0
1 FIND 2 9 . . title:red
2 CLOSE 0
1 GET 2 b
2 DEL
1 COMMIT both'
expect 'two sessions in threads' 0 $'OK 0\n? NO 10\n1 OK 1\n1 OK 2\n1 OK 2\n1 OK 2\n1 OK 2 2\n1 1 a .\n1 2 b .\n1 OK {"id":"b","title":"red sock"}
1 OK 1\n2 OK 0\n2 OK 0 0\n2 OK 0\n2 NO 20\n2 NO 10\n10 NO 10' ''
start run "$room/threads" <<<"$schema"$'\n''1 NOTE 1'
expect 'what threads committed' 0 $'OK 2\n1 OK =both' ''

# two sessions that write side by side: each number is told once, and each session's rise
mkdir "$room/writers"
{
  echo "$schema"
  for number in {1..300}; do
    printf '%s PUT {"id":"%s-%s"}\n' 1 1 "$number" 2 2 "$number"
  done
} >"$room/lines"
start threads "$room/writers" <"$room/lines"
told=$(grep -c ' OK ' "$room/out")
numbers=$(awk 'NR > 1 { print $3 }' "$room/out" | sort -n | uniq | tr '\n' ' ')
rising=0
awk 'NR > 1 { if ($3 <= last[$1]) exit 1; last[$1] = $3 }' "$room/out" || rising=1
if [ "$told" = 600 ] && [ "$numbers" = "$(seq -s ' ' 600) " ] && [ "$rising" = 0 ]; then judged 'two writers' 0; else judged 'two writers' 1; fi

# sixty-four sessions run, and the next has no command
mkdir "$room/many"
{
  echo "$schema"
  for session in {1..65}; do
    printf '%s OPEN 0\n%s FIND 0 9 . . *:*\n%s CLOSE 0\n' "$session" "$session" "$session"
  done
} >"$room/lines"
start threads "$room/many" <"$room/lines"
wanted=$'OK 0'
for session in {1..64}; do
  wanted+=$'\n'"$session OK 0"$'\n'"$session OK 0 0"$'\n'"$session OK 0"
done
expect 'sixty-four sessions' 0 "$wanted"$'\n65 NO 10\n65 NO 10\n65 NO 10' ''

# of an input of more lines the millionth behind the first is the last that is read
mkdir "$room/long"
{
  echo "$schema"
  awk 'BEGIN { for (n = 1; n < 1000000; n++) print "1 OPEN" }'
  printf '%s\n' '1 DEL a' '1 DEL b' '2 OPEN'
} >"$room/lines"
start threads "$room/long" <"$room/lines"
long=$(cat "$room/status")
[ "$(wc -l <"$room/out")" = 1000001 ] && [ "$(tail -n 2 "$room/out")" = $'1 OK 0\n1 OK 1' ] || long=1
judged 'a million lines' "$long"

# a stream on four threads tells each session what one thread tells it
{
  printf '1 OPEN\n'
  for session in 0 1 2 3 4 5 7 8 9 10 11 9999; do
    printf '%s OPEN 2\n%s FIND 2 9 . . title:red\n%s GET 2 a\n%s FILES t 2\n%s FIND 1 9 . . *:*\n%s CLOSE 2\n%s REFRESH\n%s WARM me\n' \
      "$session" "$session" "$session" "$session" "$session" "$session" "$session" "$session"
  done
} >"$room/said"
for round in {1..40}; do
  if [ "$round" = 1 ]; then echo "$schema"; fi
  cat "$room/said"
done >"$room/lines"
start run "$room/threads" <"$room/lines"
for session in 0 1 2 3 4 5 7 8 9 10 11 9999; do grep "^$session " "$room/out" >"$room/alone-$session"; done
for count in 1 3 4 64; do
  start run --threads "$count" "$room/threads" <"$room/lines"
  same=$(cat "$room/status")
  [ "$(head -n 1 "$room/out")" = 'OK 2' ] || same=1
  for session in 0 1 2 3 4 5 7 8 9 10 11 9999; do
    grep "^$session " "$room/out" | cmp -s - "$room/alone-$session" || same=1
  done
  judged "a stream on $count threads" "$same"
done

# in memory too
printf '1 %s\n' 'PUT {"id":"a","title":"red"}' REFRESH 'PUT {"id":"a","title":"blue"}' REFRESH 'OPEN 1' OPEN 'FIND 1 9 . . title:red' \
  'GET 1 a' 'GET 2 a' 'FILES t 2' 'CLOSE 1' 'GET 1 a' 'COMMIT spring' 'NOTE 1' SNAP 'UNSNAP 1' >"$room/said"
start run < <(echo "$schema" && cat "$room/said")
cp "$room/out" "$room/alone"
for count in 1 3; do
  start run --threads "$count" < <(echo "$schema" && cat "$room/said")
  same=$(cat "$room/status")
  cmp -s "$room/out" "$room/alone" || same=1
  judged "a stream on $count threads in memory" "$same"
done

start run --threads 4 "$room/nowhere" <<<"$schema"
expect 'a stream over no folder' 2 'NO 30' '[ERROR catalogue] schema refused'

start threads "$room/threads" <<<'SCHEMA 2 1 {}'
expect 'threads under another schema' 2 'NO 13' '[ERROR catalogue] schema refused'

start run --threads 2 "$room/threads" </dev/null
expect 'a stream of no input' 2 'NO 10' '[ERROR catalogue] schema refused'

status=0
"$program" run --threads 2 "$room/threads" <<<"$schema"$'\n''1 OPEN' >/dev/full 2>"$room/err" || status=$?
echo "$status" >"$room/status"
: >"$room/out"
expect 'a stream whose writer fails' 3 '' '[ERROR catalogue] write fault'

# a reply goes out before the next line is read
for words in run 'run --threads 2' "run --threads 2 $room/threads"; do
  token=0
  if [ "$words" = "run --threads 2 $room/threads" ]; then token=2; fi
  rm -f "$room/lines" "$room/replies"
  mkfifo "$room/lines" "$room/replies"
  # shellcheck disable=SC2086
  "$program" $words <"$room/lines" >"$room/replies" &
  exec 3>"$room/lines" 4<"$room/replies"
  for asked in "$schema|OK $token" "1 OPEN|1 OK $token" "1 CLOSE $token|1 OK $token"; do
    printf '%s\n' "${asked%|*}" >&3
    reply=
    IFS= read -r -t 60 -u 4 reply || true
    if [ "$reply" != "${asked#*|}" ]; then
      echo "program.sh: before the next line '${asked%|*}' FAILED: it was answered '$reply'" >&2
      failed=$((failed + 1))
    else
      passed=$((passed + 1))
    fi
  done
  exec 3>&- 4<&-
  if ! wait $!; then
    echo "program.sh: the last run FAILED" >&2
    failed=$((failed + 1))
  fi
done

echo "$passed passed, $failed failed"
[ "$failed" -eq 0 ]
