#!/usr/bin/env bash
# What a record costs beside reading alone (main.rt.txt, which reads by the kit's `csv` as `hlr` does) and beside plain Rust
# (plain.rs), over the same bytes, in turn.
#
#   bash bench/commands/run.sh [RUNS [OPTION ..]]    at the repository's top, once crates/hlr/out/hlr is built (HLR is another);
#                                                    with options of hlr it answers alone
#
# It prints user seconds (best of RUNS) and resident KB for a million records, and instructions a record, by callgrind on
# 20,000 records, less those of the 1,000 subscribers alone; then what a row costs in the reports that walk over all rows; at last
# how long 1,000 `views` take, each of which waits for the answer to the one before.
set -eu
runs=${1:-5}
options=("${@:2}")
hlr=${HLR:-$PWD/crates/hlr/out/hlr}
. bench/room.sh
open_room commands csv
build_program < /dev/null
rustc --edition 2021 -O bench/plain.rs -o "$room/plain"

rows() {
  awk 'BEGIN { for (s = 1; s <= 1000; s++) printf "sub,%d,%015d,0101010101,0123456789,00112233445566778899,%d,%.0f\n", s, s, s, s * 4000000 }'
}

# written NAME: the records as they are, with CR LF at their ends, or with each field in quotes.
written() {
  case $1 in
    found) cat ;;
    ends) sed 's/$/\r/' ;;
    quoted) sed 's/\(.*\),\(.*\)/"\1","\2"/' ;;
  esac
}

# input NAME COUNT: the 1,000 subscribers and so many records of that kind. Of posted each second one is a posting; of idle all are,
# and but for the first they find nothing pending.
input() {
  rows
  case $1 in
    found | ends | quoted) awk -v n="$2" 'BEGIN { srand(7); while (n--) printf "gsd,%d\n", 1 + int(rand() * 1000) }' | written "$1" ;;
    refused) awk -v n="$2" 'BEGIN { srand(7); while (n--) printf "gsd,%d\n", 1 + int(rand() * 16777216) }' ;;
    moved) awk -v n="$2" 'BEGIN { srand(7); while (n--) printf "ul,%015d,%.0f\n", 1 + int(rand() * 1000), 1 + int(rand() * 4294967295) }' ;;
    posted) awk -v n="$2" 'BEGIN { srand(7); for (; n > 0; n -= 2) printf "ul,%015d,%.0f\npost,0,72\n", 1 + int(rand() * 1000), 1 + int(rand() * 4294967295) }' ;;
    idle) awk -v n="$2" 'BEGIN { while (n--) print "post,0,72" }' ;;
    views) awk -v n="$2" 'BEGIN { while (n--) print "views" }' ;;
  esac
}

# seconds FILE PROGRAM ..: the best user time, and the most resident memory, of the runs.
seconds() {
  local turn
  for turn in $(seq "$runs"); do
    /usr/bin/time -f '%U %M' "${@:2}" < "$1" 2>&1 > /dev/null
  done | sort -n | awk 'NR == 1 { best = $1 } $2 > most { most = $2 } END { printf "%s s, %s KB", best, most }'
}

# cost KIND PROGRAM ..: a line of what a record of this kind costs.
cost() {
  local before after
  before=$(instructions "${@:2}" < "$room/rows.csv")
  after=$(instructions "${@:2}" < "$room/short.csv")
  echo "$1 $(basename "$2"): $(seconds "$room/long.csv" "${@:2}"), $(((after - before) / 20000)) instructions a record"
}

# walked REPORT PROGRAM ..: what each of the 1,000 rows costs in a report that walks over all of them.
walked() {
  local before after
  (rows && for _ in $(seq 100); do echo "$1"; done) > "$room/short.csv"
  before=$(instructions "${@:2}" < "$room/rows.csv")
  after=$(instructions "${@:2}" < "$room/short.csv")
  echo "$1: $(((after - before) / 100000)) instructions a row"
}

rows > "$room/rows.csv"
for kind in found ends quoted refused moved posted idle views; do
  input $kind 1000000 > "$room/long.csv"
  input $kind 20000 > "$room/short.csv"
  cost $kind "$hlr" ${options[@]+"${options[@]}"}
  [ ${#options[@]} = 0 ] || continue
  cost $kind "$program"
  [ $kind = quoted ] || cost $kind "$room/plain"
done

for report in index scan; do
  walked $report "$hlr" ${options[@]+"${options[@]}"}
done

coproc "$hlr" ${options[@]+"${options[@]}"}
start=$(date +%s%N)
for _ in $(seq 1000); do
  echo views >&"${COPROC[1]}"
  read -r line <&"${COPROC[0]}"
  [ "$line" = views,0 ]
done
echo "1,000 views, each waited for: $((($(date +%s%N) - start) / 1000000)) ms"
