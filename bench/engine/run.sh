#!/usr/bin/env bash
# Events through engines of 1 to 4 parts, each with a worker, beside one thread over three parts: nanoseconds an event by the
# clock of one thread, and how many times as fast the engines are. All go in turns, of three rounds each; medians.
#
#   bash bench/engine/run.sh [TURNS [EVENTS]]     at the repository's top; KINDS and SIZES are what is asked and of how many
#                                               subscribers, BETWEEN after how many events engines settle (4,096), and
#                                               PROGRAM is an engine_bench that is built
set -eu
turns=${1:-5} events=${2:-204800}
if [ -n "${PROGRAM:-}" ]; then
  program=$PROGRAM
else
  . bench/room.sh
  open_room engine hlr_workers hlr_core tatp_actions tatp_rows
  build_program alone gsd 1000 1 1000
fi
times=$(mktemp -d)
trap 'rm -rf "$times"' EXIT

# median FILE: of the numbers in it.
median() {
  sort -n "$1" | awk '{ took[NR] = $1 } END { print took[int((NR + 1) / 2)] }'
}

echo "| subscribers | one thread, ns | 1 worker | 2 | 3 | 4 |"
echo "|---|---|---|---|---|---|"
for kind in ${KINDS:-gsd ul mix}; do
  for subscribers in ${SIZES:-1000 50000 100000 500000}; do
    rm -f "$times"/*
    for turn in $(seq "$turns"); do
      for way in "alone 3" "engine 1" "engine 2" "engine 3" "engine 4"; do
        "$program" "${way% *}" "$kind" "$subscribers" "${way#* }" "$events" 3 "${BETWEEN:-4096}" | sed -n 's/^[a-z]*: \([0-9]*\) ns.*/\1/p' >> "$times/${way/ /_}"
      done
    done
    alone=$(median "$times/alone_3")
    line="| $subscribers, \`$kind\` | $alone |"
    for parts in 1 2 3 4; do
      line="$line $(awk -v a="$alone" -v b="$(median "$times/engine_$parts")" 'BEGIN { printf "%.2f", a / b }') |"
    done
    echo "$line"
  done
done
