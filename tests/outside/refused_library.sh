#!/usr/bin/env bash
# A day in C by the library, with memory refused: whichever piece is, it ends with 'day: no memory' behind a front of its
# lines; or it tells all of them, where it is the C library's own buffer. Of all memory that buffer alone is left at its end.
. "$(dirname "$0")/lib.sh" || exit 1
. tests/outside/c_lib.sh || exit 1
. tests/outside/refused_lib.sh || exit 1

# left: how many pieces of memory the last run had at its end.
left() { od -A n -t d8 -w32 "$room/had" | awk '{ print $3 }'; }

# day: the lines of a day with one piece refused, which ended with status $status.
day() {
  cmp -s "$room/got" <(head -n "$(wc -l < "$room/got")" examples/library/day.stdout) || fail "the answers of the library with allocation $call refused"
  if [ "$status" = 0 ]; then
    cmp -s "$room/got" examples/library/day.stdout || fail "answers of the library are missing with allocation $call refused"
  else
    ended=$((ended + 1))
    [ "$status $(cat "$room/err")" = '1 day: no memory' ] || fail "status $status of the library, '$(cat "$room/err")', with allocation $call refused"
  fi
}

library() {
  local call=0 ended=0 status
  compiled day -std=c11 -Icrates/hlr_c examples/library/day.c "$archive" "$(kit_archive)" || return
  begin
  while true; do
    call=$((call + 1))
    rm -f "$room/had"
    PROBE_HAD=$room/had probed refuse $call "$room/day" > "$room/got" 2> "$room/err"
    status=$?
    [ "$(left)" -le 1 ] || fail "$(left) pieces of memory are left with allocation $call of the library refused"
    [ -f "$room/probed" ] || break
    day
  done
  [ $ended -gt 0 ] || fail 'no day of the library was ended'
  right
  echo "the library: $((call - 1)) allocations refused, $ended times the day ended"
}

archive_built || finish
probe_made || finish
library
finish
