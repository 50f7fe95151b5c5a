# shellcheck shell=bash
# Sourced by scripts that run several tests: it counts what each passed and failed, and says what that took.

passed=0
failed=0

# fail WHAT: counts and tells a failure that no numbers tell of
fail() {
  echo "FAILED: $1" >&2
  failed=$((failed + 1))
}

# counted WHAT FILE STATUS SECONDS: counts the numbers of the last line 'N passed, M failed', or 'N refused, M not', of the file
counted() {
  local numbers
  numbers=$(grep -E '^[0-9]+ (passed, [0-9]+ failed|refused, [0-9]+ not)$' "$2" | tail -n 1) || true
  echo "== $1: ${numbers:-no numbers}, after $(($4 / 60)) min $(($4 % 60)) s"
  if [[ $numbers =~ ^([0-9]+)\ [a-z]+,\ ([0-9]+)\  ]]; then
    passed=$((passed + 10#${BASH_REMATCH[1]}))
    failed=$((failed + 10#${BASH_REMATCH[2]}))
    if [ "$3" -ne 0 ] && [ "$((10#${BASH_REMATCH[2]}))" -eq 0 ]; then
      fail "$1 told no failure, and ended with status $3"
    elif [ "$((10#${BASH_REMATCH[1]}))" -eq 0 ] && [ "$((10#${BASH_REMATCH[2]}))" -eq 0 ]; then
      fail "$1 ran nothing"
    fi
  else
    fail "$1 ended with status $3, and without saying how many passed"
  fi
}

# count WHAT COMMAND..: runs the command, and counts what it says
count() {
  local what=$1 status=0 start=$SECONDS said
  shift
  said=$(mktemp)
  "$@" 2>&1 | tee "$said" || status=$?
  counted "$what" "$said" "$status" "$((SECONDS - start))"
  rm -f "$said"
}

begun=()

# begin WHAT COMMAND..: runs the command beside others
begin() {
  local room
  room=$(mktemp -d)
  begun+=("$room")
  printf '%s\n' "$1" >"$room/what"
  shift
  (
    start=$SECONDS
    status=0
    "$@" >"$room/said" 2>&1 </dev/null || status=$?
    echo "$status $((SECONDS - start))" >"$room/ended"
  ) &
}

# await: counts what the commands that were begun said, in their order
await() {
  local room ended
  wait
  for room in "${begun[@]}"; do
    cat "$room/said"
    read -r -a ended <"$room/ended"
    counted "$(cat "$room/what")" "$room/said" "${ended[@]}"
    rm -rf "$room"
  done
  begun=()
}

# finish: the last line, and the status
finish() {
  echo "$passed passed, $failed failed"
  [ "$failed" -eq 0 ]
}
