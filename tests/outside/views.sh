#!/usr/bin/env bash
# The command views walks over no row: what it costs is counted in instructions, which no other load of the machine changes.
. "$(dirname "$0")/lib.sh" || exit 1
rows=100000

# instructions COMMAND ..: how many instructions the program takes for the rows, and for these commands behind them.
instructions() {
  {
    seq "$rows" | awk '{ printf "sub,%d,%015d,0000000000,0000000000,00000000000000000000,1,1\n", $1, $1 }'
    printf '%s\n' "$@"
  } > "$room/in"
  valgrind --tool=callgrind --callgrind-out-file=/dev/null "$hlr" < "$room/in" 2> "$room/counted" > "$room/out" || return
  sed -n 's/^==[0-9]*== Collected : \([0-9]*\)$/\1/p' "$room/counted"
}

# A scan walks over all rows, once for each of them. Twenty times views together have to cost less than one scan.
views_walk_over_no_row() {
  local none scanned viewed
  mapfile -t twenty < <(yes views | head -n 20)
  none=$(instructions)
  scanned=$(instructions scan)
  is 'the rows that are scanned' "$(grep -c '^ok$' "$room/out")" "$rows"
  viewed=$(instructions "${twenty[@]}")
  is 'the answers to views' "$(grep -c '^views,2$' "$room/out")" 20
  echo "instructions: $((scanned - none)) for a scan of $rows rows, $(((viewed - none) / 20)) for views"
  is 'twenty times views cost less than a scan' "$([ "$((viewed - none))" -lt "$((scanned - none))" ] && echo yes)" yes
}

tool valgrind 'what views costs' || finish
program_built || finish
views_walk_over_no_row
finish
