#!/usr/bin/env bash
# A journal by itself: lines a second that are appended in groups of 1, 64 and 1,024 with a sync after each group,
# compared with rows that SQLite inserts and values that Redis sets on the same disk; what a line costs apart from the
# disk; and how fast lines are read. The numbers are medians of some turns, in each of which everything runs once. It
# prints Markdown.
#
#   bash bench/journal/run.sh [TURNS [GROUPS]]     at the repository's top: 5 turns, and 150 groups a run. FILES is a
#                                             folder on the disk that is to be measured, and PROGRAM a journal_bench
#                                             that is built
set -eu
turns=${1:-5} groups=${2:-150} rows=100000
. bench/room.sh
. bench/stores.sh
if [ -n "${PROGRAM:-}" ]; then
  program=$PROGRAM
else
  open_room journal journal journal_file
  add_proofs
  build_program lines x 64 10
fi
open_files
start_stores insert

# clock WAY FILE GROUP GROUPS: nanoseconds a line by the clock. processor is the same of the processor.
clock() { "$program" "$@" | cut -d ' ' -f 1; }
processor() { "$program" "$@" | cut -d ' ' -f 2; }

# write_turn GROUP: everything that writes groups of this size, once.
write_turn() {
  local store
  rm -f "$files/written"
  note "journal_$1" "$(clock write "$files/written" "$1" "$groups")"
  for store in "${stores[@]}"; do note "${store}_$1" "$(write_store "$store" "$1" "$groups" "$rows")"; done
}

# part_turn: what a line costs apart from the disk, in groups of 1,024, and what it costs to read a million of them.
part_turn() {
  rm -f "$memory"/*
  note lines "$(processor lines x 1024 1000)"
  note memory "$(processor memory x 1024 1000)"
  note shm "$(processor write "$memory/written" 1024 1000)"
  note read "$(processor read "$memory/written" 0 0)"
  note memory_read "$({ /usr/bin/time -f %M "$program" read "$memory/written" 0 0 > /dev/null; } 2>&1)"
}

for _ in $(seq "$turns"); do
  for group in 1 64 1024; do write_turn "$group"; done
  part_turn
done

echo
echo "\`bash bench/journal/run.sh $turns $groups\`"
echo
echo "| lines a group | journal, a second |$(printf ' %s |' "${stores[@]//_/ }")"
echo "|---|---|$(printf '%.0s---|' "${stores[@]}")"
for group in 1 64 1024; do
  line="| $group | $(a_second "journal_$group") |"
  for store in "${stores[@]}"; do line="$line $(a_second "${store}_$group") |"; done
  echo "$line"
done
echo
echo "| in groups of 1,024 | ns of the processor a line |"
echo "|---|---|"
echo "| drawn, made and tested | $(median lines) |"
echo "| the same, appended to a file in memory (\`Memory\`) | $(median memory) |"
echo "| the same, appended to a file in /dev/shm and synced | $(median shm) |"
echo "| read and counted, from /dev/shm | $(median read) |"
echo
size=$(($(stat -c %s "$memory/written") / 1000000))
echo "A journal of 1,024,000 lines, $size MB, takes $(median memory_read) KB at most while it is read."
