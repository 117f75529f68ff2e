#!/usr/bin/env bash
# What a give and a take do to a part by itself, with 100,000 subscribers and 900,000 other rows: nanoseconds of the four
# slices, of the count of the upper half and of the four melds, over 20 rounds, five times.
#
#   bash bench/part/run.sh     at the repository's top
set -eu
. bench/room.sh
open_room part tatp_actions part_table tatp_rows
build_program 1000 20
for _ in 1 2 3 4 5; do "$program" 100000 20; done
