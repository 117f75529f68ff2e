#!/usr/bin/env bash
# Threads that are started, refused, or have no addresses.
. "$(dirname "$0")/lib.sh" || exit 1
. tests/outside/c_lib.sh || exit 1

# both_parts: a script for two parts that both get jobs, twice, is $room/in; its answers without threads are $room/whole.
both_parts() {
  {
    printf 'sub,%d,%015d,0000000000,0000000000,00000000000000000000,1,268435456\n' 7 7 100 100
    printf 'gsd,7\ngsd,100\nviews\ngsd,7\ngsd,100\n'
  } > "$room/in"
  "$hlr" --parts 2 --zone 4 < "$room/in" > "$room/whole"
}

# probed_on MODE CALL OPTION ..: runs the program on $room/in under the preload.
probed_on() {
  probed "$1" "$2" "$hlr" "${@:3}" < "$room/in" > "$room/out" 2> "$room/err"
  status=$?
}

# With --threads each part with jobs has a thread; where the start of one is refused, the run ends, once all records
# before are answered.
threads() {
  local options=(--threads --parts 2 --zone 4) turn answers=(2 3 8 9)
  both_parts
  probed_on count_starts 0 "${options[@]}"
  is 'threads that are started' "$(bytes_of "$room/probed")" 4
  same 'the answers with --threads' "$room/out" "$room/whole"
  probed_on count_starts 0 --parts 2 --zone 4
  is 'threads that are started without --threads' "$(bytes_of "$room/probed")" 0
  for turn in 1 2 3 4; do
    probed_on refuse_start "$turn" "${options[@]}"
    ends "start $turn refused" 1 "$(head -n "${answers[turn - 1]}" "$room/whole")"$'\n' $'hlr: no thread\n'
  done
}

# limited [OPTION ..]: runs the program on $room/in, in at most $addresses KB of addresses.
limited() {
  # the shell tells of a program that the system could not load
  {
    (ulimit -v "$addresses" && exec "$hlr" --parts 2 --zone 4 "$@") < "$room/in" > "$room/out" 2> "$room/err"
    status=$?
  } 2> /dev/null
}

# enough [OPTION ..]: raises $addresses until the program can answer $room/in. How each run before ended, after whole
# answers, is a line of $room/ends.
enough() {
  : > "$room/ends"
  for _ in $(seq 400); do
    limited "$@"
    [ "$status" != 0 ] || break
    cmp -s "$room/out" <(head -n "$(wc -l < "$room/out")" "$room/whole") || fail "the answers in $addresses KB of addresses $*"
    echo "$status, $(cat "$room/err")" >> "$room/ends"
    addresses=$((addresses + 256))
  done
  same "the answers in enough addresses $*" "$room/out" "$room/whole"
}

# In addresses that suffice without threads, and not for those of two threads, a run with threads ends so, and where the
# system has no room for a thread it says that.
limits() {
  local addresses=1024
  both_parts
  enough
  enough --threads
  is 'runs with threads in too few addresses' "$(sort -u "$room/ends")" $'1, hlr: no memory\n1, hlr: no thread'
}

program_built || finish
limits
tool gcc 'the threads that are started, and refused' || finish
if probe_made; then threads; fi
finish
