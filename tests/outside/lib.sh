# shellcheck shell=bash
# What the parts of test.sh and refuse_memory.sh share. A part is a script of this folder: it reads this file, tests, and
# calls `finish`, whose last line is 'N passed, N failed', or 'N skipped, N passed, N failed' where something was skipped. It
# can be run alone. Because parts run side by side, a part has its files in $room or in other folders that it makes, its
# servers on free ports, and nothing that it writes in the repository.
#
# Where what a part tests isn't built, the part fails, or is skipped where HLR_PARTIAL is 1. Where a tool is missing, what it
# is for is skipped: a line says so, and it counts as skipped and not as passed.
set -u
cd "$(dirname "${BASH_SOURCE[0]}")/../.." || exit 1
hlr=$PWD/crates/hlr/out/hlr
room=$(mktemp -d)
trap 'parts_stopped; rm -rf "$room"' EXIT
passed=0
failed=0
skipped=0

pass() { passed=$((passed + 1)); }

fail() {
  failed=$((failed + 1))
  printf 'FAILED: %s\n' "$1"
}

# same NAME FILE FILE: the second file is what was wanted.
same() {
  if cmp -s "$2" "$3"; then pass "$1"; else
    fail "$1"
    diff "$3" "$2" | head -n 6
  fi
}

# is NAME FOUND WANTED
is() {
  if [ "$2" = "$3" ]; then pass "$1"; else fail "$1: '$2', and not '$3'"; fi
}

# has NAME FILE TEXT: a line of the file has the text.
has() {
  if grep -qF -e "$3" "$2"; then pass "$1"; else fail "$1: nothing says '$3'"; fi
}

# hlr_on [OPTION ..]: runs the program; its answers, its complaints and its status are $room/out, $room/err and $status.
# shellcheck disable=SC2120
hlr_on() {
  "$hlr" "$@" > "$room/out" 2> "$room/err"
  status=$?
}

# hlr_given BYTES: the same on these bytes, in which backslashes are read as printf reads them.
hlr_given() {
  printf '%b' "$1" > "$room/in"
  # shellcheck disable=SC2119
  hlr_on < "$room/in"
}

# ends NAME STATUS OUT ERR: how that run ended, with the whole of both streams.
ends() {
  is "$1: status" "$status" "$2"
  printf '%s' "$3" > "$room/want"
  same "$1: standard output" "$room/out" "$room/want"
  printf '%s' "$4" > "$room/want"
  same "$1: standard error" "$room/err" "$room/want"
}

# skip MISSING [WHAT]: counts something as skipped, and says why.
skip() {
  skipped=$((skipped + 1))
  echo "skipped, since there is no $1${2:+: $2}"
}

# tool NAME WHAT: whether a tool is there; what is skipped without it is told.
tool() {
  command -v "$1" > /dev/null || { skip "$1" "$2"; return 1; }
}

# built FILE HOW: whether a file is there.
built() {
  [ ! -e "$1" ] || return 0
  if [ "${HLR_PARTIAL:-0}" = 1 ]; then skip "$1"; else fail "there is no $1: $2"; fi
  return 1
}

program_built() { built "$hlr" 'run rt run in crates/hlr'; }

# tests_built CRATE
tests_built() { built "crates/$1/out/$1_tests" "run rt test in crates/$1"; }

# bytes_of FILE: how many there are, 0 where there is no file.
bytes_of() { if [ -f "$1" ]; then wc -c < "$1"; else echo 0; fi; }

# counts NAME FILE: adds what the last line of a file counts, 'N passed, M failed', or with 'K skipped, ' before that.
counts() {
  local last
  last=$(tail -n 1 "$2")
  if [[ $last =~ ^(([0-9]+)' skipped, ')?([0-9]+)' passed, '([0-9]+)' failed'$ ]]; then
    skipped=$((skipped + ${BASH_REMATCH[2]:-0}))
    passed=$((passed + BASH_REMATCH[3]))
    failed=$((failed + BASH_REMATCH[4]))
  else
    fail "$1 ended with '$last'"
  fi
}

# counted COMMAND ..: runs a command that ends with such a line, and adds what it counts.
counted() {
  "$@" | tee "$room/counted"
  counts "$*" "$room/counted"
}

# The parts that take longest, which begin first, so that little is left to do at the end.
longest=(archive journal_c journal refused_tests refused_program dist library python readme blocks live shell views)
# The names of the parts that run, by their processes; the statuses of those that have ended, by their names; and the names
# of those of which nothing is printed yet, in the order of the list.
declare -A part_of=() status_of=()
unprinted=()

# parts NAME ..: runs parts, as many at a time as there are processors. It prints the name and the output of each, in the
# order of the list, as soon as that part and those before it have ended, and adds what it counts.
parts() { side_by_side "$(nproc)" "$@"; }

# parts_alone NAME ..: the same, one after another. It is for parts that test less, or fail, while others run.
parts_alone() { side_by_side 1 "$@"; }

# side_by_side MOST NAME ..: the same, at most so many at a time.
side_by_side() {
  local part in_turn
  mapfile -t in_turn < <(longest_first "${@:2}")
  unprinted=("${@:2}")
  status_of=()
  for part in "${in_turn[@]}"; do
    [ "${#part_of[@]}" -lt "$1" ] || part_ended
    part_started "$part"
  done
  while [ "${#part_of[@]}" != 0 ]; do part_ended; done
}

# longest_first NAME ..: prints these names, the longest parts before the others.
longest_first() {
  { printf '%s\n' "${longest[@]}" | grep -xF "$(printf '%s\n' "$@")"; printf '%s\n' "$@"; } | awk '!is_printed[$0]++'
}

# part_started NAME: starts a part, whose output goes to a file. It has a process group of its own, because bash makes all
# other commands in the background ignore Ctrl-C, which some parts test.
part_started() {
  set -m
  "tests/outside/$1.sh" < /dev/null > "$room/$1.part" 2>&1 &
  set +m
  part_of[$!]=$1
}

# part_ended: waits until a part ends.
part_ended() {
  local process
  # bash itself tells of one that was killed
  { wait -n -p process "${!part_of[@]}"; } 2> /dev/null
  status_of[${part_of[$process]}]=$?
  unset "part_of[$process]"
  parts_printed
}

# parts_printed: prints what the parts said that have ended, up to the first of the list that hasn't, and adds what they
# count. `finish` ends a part with the status 0 or 1, so that another status tells of one that was killed.
parts_printed() {
  local part
  while [ "${#unprinted[@]}" != 0 ] && [ -n "${status_of[${unprinted[0]}]:-}" ]; do
    part=${unprinted[0]}
    unprinted=("${unprinted[@]:1}")
    part_printed "$part"
    if [ "${status_of[$part]}" -gt 1 ]; then
      fail "tests/outside/$part.sh ended with status ${status_of[$part]}"
    else
      counts "tests/outside/$part.sh" "$room/$part.part"
    fi
  done
}

# part_printed NAME: prints a part's name and what it said, and ends its last line, which may be cut off.
part_printed() {
  echo "$1:"
  awk 1 "$room/$1.part"
}

# processes_of PROCESS: prints a process, those that it has started, and those that these have.
processes_of() {
  local started each
  echo "$1"
  read -ra started < <(cat "/proc/$1/task"/*/children 2> /dev/null | paste -sd ' ')
  for each in "${started[@]}"; do processes_of "$each"; done
}

# parts_stopped: where the script ends before its parts, as by Ctrl-C, ends them with all that they have started, and prints
# what they have said.
parts_stopped() {
  local each processes
  [ "${#part_of[@]}" != 0 ] || return 0
  # a second Ctrl-C doesn't leave them half ended
  trap '' INT TERM HUP
  mapfile -t processes < <(for each in "${!part_of[@]}"; do echo "-$each"; processes_of "$each"; done)
  kill -- "${processes[@]}" 2> /dev/null
  for _ in {1..50}; do
    kill -0 -- "${processes[@]}" 2> /dev/null || break
    sleep 0.1
  done
  kill -9 -- "${processes[@]}" 2> /dev/null
  for each in "${unprinted[@]}"; do
    [ ! -e "$room/$each.part" ] || part_printed "$each"
  done
}

finish() {
  if [ "$skipped" != 0 ]; then printf '%s skipped, ' "$skipped"; fi
  echo "$passed passed, $failed failed"
  [ "$failed" = 0 ]
  exit
}
