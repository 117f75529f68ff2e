#!/usr/bin/env bash
# Measures owners that act and post: one, two and four in threads of their own, each with its slot, and one whose postings
# have a limit of 0. Each turn moves a subscriber from one area to another, and posts both cells.
#
#   bash bench/holding/run.sh     at the repository's top
set -eu
. bench/room.sh
open_room holding holding view_board tatp_actions tatp_rows
for module in work_on has_small_nets; do add_invariants $module; done
build_program one 1

for kind in acts one; do
  echo "$kind: $((($(instructions "$program" $kind 1100) - $(instructions "$program" $kind 100)) / 1000)) instructions a turn"
done
for kind in acts one two four; do
  for turn in 1 2 3; do
    /usr/bin/time -f "$kind: %e s by the clock, %U s of processors for 3 million turns each ($turn)" "$program" $kind 3000000 > /dev/null
  done
done
