# shellcheck shell=bash
# What ./run, ./test, ./prove and tests/release share: what the programs are made from, and which programs are made of it.
# It is sourced, with the repository's top in $top.

programs=(catalogue catalogue_check)
manifest=$top/release/manifest.txt
# What was built last in crates/, and from which sources; ./run and ./prove write it.
record=$top/out/built.txt

# The crates that the programs are made of, each with what crates.txt says of it.
needed=()
declare -A below=()

read_crates() {
  local line name dep i
  local names=()
  local -A wanted=()
  while IFS= read -r line; do
    line=${line%%#*}
    [[ $line == *:* ]] || continue
    name=${line%%[: ]*}
    read -r -a dep <<<"${line#*:}"
    below[$name]=${dep[*]-}
    names+=("$name")
  done <"$top/crates.txt"
  for name in "${programs[@]}"; do wanted[$name]=1; done
  # A crate may stand above one that it uses, so this goes on until nothing is added.
  i=0
  while [ "$i" -ne "${#wanted[@]}" ]; do
    i=${#wanted[@]}
    for name in "${!wanted[@]}"; do
      for dep in ${below[$name]-}; do
        if [[ -v below[$dep] ]]; then wanted[$dep]=1; fi
      done
    done
  done
  for name in "${names[@]}"; do
    if [[ -v wanted[$name] ]]; then needed+=("$name"); fi
  done
}

# sum_of FILE
sum_of() {
  local told
  told=$(sha256sum <"$1") && printf '%s\n' "${told%% *}"
}

# One sum over all files of src, specs and proofs of the crates that the programs are made of, their names, and the lines of
# crates.txt that say what each stands on.
sources_sum() {
  local name part
  local folders=()
  [ "${#needed[@]}" -gt 0 ] || read_crates
  for name in "${needed[@]}"; do
    for part in src specs proofs; do
      if [ -d "$top/crates/$name/$part" ]; then folders+=("crates/$name/$part"); fi
    done
  done
  (
    cd "$top"
    for name in "${needed[@]}"; do printf '%s: %s\n' "$name" "${below[$name]}"; done | LC_ALL=C sort
    find "${folders[@]}" -type f -print0 | LC_ALL=C sort -z | xargs -0 sha256sum
  ) | sum_of /dev/stdin
}

# told FILE KEY: the rest of the line that begins with the key
told() {
  local key rest
  while read -r key rest; do
    if [ "$key" = "$2" ]; then
      printf '%s\n' "$rest"
      return
    fi
  done <"$1" 2>/dev/null
  return 1
}

# Whether the released programs are made of the sources that stand here.
release_fits() {
  [ -f "$manifest" ] && [ "$(told "$manifest" sources)" = "$(sources_sum)" ]
}

# unpack NAME: puts the released program of that name into release/out, where it isn't there yet, and prints its path
unpack() {
  local to=$top/release/out/$1 wanted new
  wanted=$(told "$manifest" "$1")
  if ! [ -x "$to" ] || [ "$(sum_of "$to")" != "$wanted" ]; then
    mkdir -p "$top/release/out"
    new=$(mktemp "$to.XXXXXX")
    if command -v gzip >/dev/null; then
      gzip -dc "$top/release/$1.gz" >"$new"
    elif command -v python3 >/dev/null; then
      python3 -c 'import gzip, sys; sys.stdout.buffer.write(gzip.open(sys.argv[1]).read())' "$top/release/$1.gz" >"$new"
    else
      rm -f "$new"
      echo "release/$1.gz can't be unpacked: install gzip, or python3" >&2
      return 1
    fi
    if [ "$(sum_of "$new")" != "$wanted" ]; then
      rm -f "$new"
      echo "release/$1.gz isn't the program that release/manifest.txt names" >&2
      return 1
    fi
    chmod 755 "$new"
    mv -f "$new" "$to"
  fi
  printf '%s\n' "$to"
}

# built NAME: where a program stands that was built in crates/
built() {
  printf '%s\n' "$top/crates/$1/out/$1"
}

# is_built NAME..: whether these programs stand in crates/ as they were built of the sources that stand here
is_built() {
  local name
  [ -f "$record" ] && [ "$(told "$record" sources)" = "$(sources_sum)" ] || return 1
  for name in "$@"; do
    [ -x "$(built "$name")" ] && [ "$(told "$record" "$name")" = "$(sum_of "$(built "$name")")" ] || return 1
  done
}

# note_built SUM NAME..: notes that these programs were built of the sources of that sum, if those still stand so
note_built() {
  local sum=$1 name
  local names=()
  shift
  mkdir -p "$top/out"
  if [ "$sum" != "$(sources_sum)" ]; then
    rm -f "$record"
    return 1
  fi
  # What was noted of others still holds.
  for name in "${programs[@]}"; do
    if [[ " $* " == *" $name "* ]] || is_built "$name"; then names+=("$name"); fi
  done
  {
    printf 'sources %s\n' "$sum"
    printf 'kit %s\n' "$(rt version)"
    for name in "${names[@]}"; do printf '%s %s\n' "$name" "$(sum_of "$(built "$name")")"; done
  } >"$record.new"
  mv -f "$record.new" "$record"
}

# One sum over every file that a test may read.
tree_sum() {
  (
    cd "$top"
    find . \( -name .git -o -name out -o -name __pycache__ \) -prune -o -type f -print0 | LC_ALL=C sort -z | xargs -0 sha256sum
  ) | sum_of /dev/stdin
}

# note_tested PROGRAM CHECK: notes that every run of ./test passed over these two
note_tested() {
  mkdir -p "$top/out"
  printf '%s %s %s\n' "$(sum_of "$1")" "$(sum_of "$2")" "$(tree_sum)" >"$top/out/tested.txt"
}

# is_tested PROGRAM CHECK: whether they passed over the same bytes, and no file of the tree has changed since
is_tested() {
  [ "$(cat "$top/out/tested.txt" 2>/dev/null)" = "$(sum_of "$1") $(sum_of "$2") $(tree_sum)" ]
}
