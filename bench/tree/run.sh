#!/usr/bin/env bash
# The operations of a tree beside those of a BTreeMap, for rows of 40 and of 24 bytes and keys in drawn and in rising
# order: nanoseconds, instructions, and resident KB of a million keys.
#
#   bash bench/tree/run.sh [RUNS]     at the repository's top
set -eu
. bench/room.sh
runs=${1:-7} top=$room

# operations NAME PROGRAM KEYS ROUNDS: instructions of each operation.
operations() {
  local count=$(($3 * $4)) none base
  none=$(instructions "$2" 0 "$4" x) base=$(instructions "$2" "$3" "$4" x)
  for pair in get:g replace:r remove:d; do
    echo "$1 $3 ${pair%:*} $((($(instructions "$2" "$3" "$4" "${pair#*:}") - base) / count)) instructions"
  done
  echo "$1 $3 insert $(((base - none) / count)) instructions"
}

for size in 40 24; do
  for rising in false true; do
    echo "rows of $size bytes, keys in $([ $rising = true ] && echo rising || echo drawn) order"
    room=$top
    open_room tree mr_subtree
    sed -i "s/^const SIZE: usize = 80/const SIZE: usize = $size/; s/^const RISING: bool = false/const RISING: bool = $rising/" "$room/crates/tree_bench/src/main.rt"
    rustc --edition 2021 -O --cfg "bytes$size" $([ $rising = false ] || echo --cfg rising) bench/tree/map.rs -o "$room/map"
    build_program 1000 1 grdk
    python3 bench/tree/compare.py "$runs" tree="$program" map="$room/map" 1000:600 100000:5
    operations tree "$program" 1000 20
    operations map "$room/map" 1000 20
    for of in "$program" "$room/map"; do /usr/bin/time -f "$(basename "$of"): %M KB" "$of" 1000000 1 x > /dev/null; done
  done
done
