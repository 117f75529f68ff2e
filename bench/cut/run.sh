#!/usr/bin/env bash
# A slice and a meld of a tree, beside `split_off` and `append` of a BTreeMap, and both beside insertion: microseconds, steps
# and instructions, for 1,000, 100,000 and 1,000,000 keys.
#
#   bash bench/cut/run.sh [RUNS [KEYS ..]]     at the repository's top
set -eu
. bench/room.sh
open_room cut mr_cut mr_subtree mr_node tatp_rows
build_program 1000 2000
rustc --edition 2021 -O bench/cut/map.rs -o "$room/map"
python3 bench/cut/times.py "$program" "$room/map" "$@"
