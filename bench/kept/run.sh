#!/usr/bin/env bash
# A register with its journal: locations a second that are set in groups of 1, 64 and 1,024 with a sync after each
# group, compared with SQLite and Redis on the same disk; what the journal costs beside `apply`; and how long it takes to
# open. The numbers are medians of some turns, in each of which everything runs once. It prints Markdown.
#
#   bash bench/kept/run.sh [TURNS [GROUPS [SUBSCRIBERS]]]     at the repository's top: 5 turns, 150 groups a run, and
#                                             100,000 subscribers, each with all of its rows. FILES is a folder on the
#                                             disk that is to be measured, and PROGRAM a kept_bench that is built
set -eu
turns=${1:-5} groups=${2:-150} subscribers=${3:-100000}
. bench/room.sh
. bench/stores.sh
if [ -n "${PROGRAM:-}" ]; then
  program=$PROGRAM
else
  open_room kept hlr_kept edit_lines journal journal_file hlr_core hlr_owners part_table tatp_actions tatp_rows
  add_proofs
  build_program rows x 1000 0 0
fi
open_files
start_stores update

# clock WAY FILE GROUP GROUPS: nanoseconds an event by the clock. processor is the same of the processor.
clock() { "$program" "$1" "$2" "$subscribers" "$3" "$4" | cut -d ' ' -f 1; }
processor() { "$program" "$1" "$2" "$subscribers" "$3" "$4" | cut -d ' ' -f 2; }

# memory_of WAY: the most memory of a run over all rows, in KB.
memory_of() { { /usr/bin/time -f %M "$program" "$1" "$files/rows" "$subscribers" 0 0 > /dev/null; } 2>&1; }

# write_turn GROUP: everything that writes groups of this size, once.
write_turn() {
  local store
  cp "$files/rows" "$files/kept"
  sync "$files/kept"
  note "kept_$1" "$(clock kept "$files/kept" "$1" "$groups")"
  for store in "${stores[@]}"; do note "${store}_$1" "$(write_store "$store" "$1" "$groups" "$subscribers")"; done
}

# part_turn: what an event costs with a journal in memory and without one, in groups of 1,024, and what it takes to open
# all rows, to apply the events of their lines, and to add them without a journal.
part_turn() {
  cp "$files/rows" "$memory/kept"
  note kept "$(processor kept "$memory/kept" 1024 400)"
  note apply "$(processor apply x 1024 400)"
  note replay "$(clock replay "$files/rows" 0 0)"
  note again "$(clock again "$files/rows" 0 0)"
  note memory_replay "$(memory_of replay)"
  note memory_rows "$(memory_of rows)"
}

"$program" fill "$files/rows" "$subscribers" 0 0 > /dev/null
for _ in $(seq "$turns"); do
  for group in 1 64 1024; do write_turn "$group"; done
  part_turn
done

# seconds NAME: the median of nanoseconds, in seconds.
seconds() { awk -v took="$(median "$1")" 'BEGIN { printf "%.2f", took / 1e9 }'; }

echo
echo "\`bash bench/kept/run.sh $turns $groups $subscribers\`"
echo
echo "| events a group | register with its journal, a second |$(printf ' %s |' "${stores[@]//_/ }")"
echo "|---|---|$(printf '%.0s---|' "${stores[@]}")"
for group in 1 64 1024; do
  line="| $group | $(a_second "kept_$group") |"
  for store in "${stores[@]}"; do line="$line $(a_second "${store}_$group") |"; done
  echo "$line"
done
echo
echo "| in groups of 1,024 | ns of the processor an event |"
echo "|---|---|"
echo "| register with its journal in /dev/shm | $(median kept) |"
echo "| register alone | $(median apply) |"
echo "| the journal | $(($(median kept) - $(median apply))) |"
echo
echo "| $subscribers subscribers, a journal of $(($(stat -c %s "$files/rows") / 1000000)) MB | |"
echo "|---|---|"
echo "| opened, s | $(seconds replay) |"
echo "| the events of its lines applied, s | $(seconds again) |"
echo "| speed of opening, of that of applying | $(awk "BEGIN { printf \"%.2f\", $(median again) / $(median replay) }") |"
echo "| most memory while it is opened, KB | $(median memory_replay) |"
echo "| most memory while the rows are added without a journal, KB | $(median memory_rows) |"
