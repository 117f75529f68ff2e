#!/usr/bin/env bash
# Measures the board: instructions of an `add`, of a bare `fetch_add` and of a `look` at all words, by callgrind; and the
# time of looks, of additions by one desk, by two and by four in threads, and by two that raise one word each, in one
# cache line and in lines of their own.
#
#   bash bench/board/run.sh     at the repository's top
set -eu
. bench/room.sh
open_room board view_board
for module in work_on look_many; do add_invariants $module; done
build_program bare 1

for kind in adds bare looks; do
  echo "$kind: $((($(instructions "$program" $kind 1100) - $(instructions "$program" $kind 100)) / 1000)) instructions"
done
for kind in bare adds two four near far; do
  for turn in 1 2 3; do
    /usr/bin/time -f "$kind: %e s by the clock, %U s of processors for 30 million each ($turn)" "$program" $kind 30000000 > /dev/null
  done
done
for turn in 1 2 3; do
  /usr/bin/time -f "looks: %e s by the clock for 100,000 ($turn)" "$program" looks 100000 > /dev/null
done
