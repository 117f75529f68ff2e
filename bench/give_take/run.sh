#!/usr/bin/env bash
# What a give and a take of some of 100,000 subscribers cost, and a divide and a dissolve of the same: `hlr` on the load
# alone, and with pairs behind it, in turns.
#
#   bash bench/give_take/run.sh [RUNS]     at the repository's top, once crates/hlr/out/hlr is built (HLR is another)
#
# For each piece: user milliseconds a pair, the median of RUNS. At last, by callgrind, instructions of a pair that moves
# half, of its walks over rows (the count), and of its copies of memory. In a divide and a dissolve nothing is posted, so
# nothing is taken back; where they are `posted` the new part is posted in between.
set -eu
runs=${1:-5}
hlr=${HLR:-crates/hlr/out/hlr}
room=${ROOM:-/tmp/bench}/give_take
mkdir -p "$room"
python3 bench/tatp_load.py 100000 0 > "$room/load.csv" 2> "$room/told"

# with_pairs KIND FROM COUNT: the load, and so many times the subscribers from one on moved there and back.
with_pairs() {
  cat "$room/load.csv"
  for ((turn = 0; turn < $3; turn++)); do
    case $1 in
      give) printf 'give,0,high,%s\ntake,1,0\n' "$2" ;;
      divide) printf 'divide,0,%s\ndissolve,1\n' "$2" ;;
      posted) printf 'divide,0,%s\npost,1,72\ndissolve,1\n' "$2" ;;
    esac
  done
}

# user_seconds FILE: user seconds of a run.
user_seconds() {
  /usr/bin/time -f %U "$hlr" --zone 4096 < "$1" 2>&1 > "$room/answers"
}

for piece in "50001 50" "99001 500" "100000 5000"; do
  read -r from count <<< "$piece"
  for kind in give divide posted; do
    with_pairs $kind "$from" "$count" > "$room/pairs.csv"
    for ((run = 0; run < runs; run++)); do
      alone=$(user_seconds "$room/load.csv")
      pairs=$(user_seconds "$room/pairs.csv")
      echo "$alone $pairs $count"
    done | awk '{ print ($2 - $1) * 1000 / $3 }' | sort -g | awk -v from="$kind from $from" '{ all[NR] = $1 } END { print from ": " all[int((NR + 1) / 2)] " ms a pair" }'
  done
done

# counted FILE OUT: instructions of a run, and what callgrind notes of it.
counted() {
  valgrind --tool=callgrind --callgrind-out-file="$2" "$hlr" --zone 4096 < "$1" 2>&1 > "$room/answers" | sed -n 's/.*Collected : //p'
}

# sum_of WORD FILE [WAY]: instructions of the functions with that word in their name.
sum_of() {
  callgrind_annotate ${3:-} --threshold=100 "$2" | grep "$1" | grep -v "'2 " | awk '{ gsub(",", "", $1); sum += $1 } END { print sum + 0 }'
}

alone=$(counted "$room/load.csv" "$room/alone.callgrind")
for kind in give divide posted; do
  with_pairs $kind 50001 4 > "$room/pairs.csv"
  pairs=$(counted "$room/pairs.csv" "$room/pairs.callgrind")
  echo "a pair of half, $kind: $(((pairs - alone) / 4)) instructions"
  walks=$(($(sum_of 'node::Node::walk::' "$room/pairs.callgrind" --inclusive=yes) - $(sum_of 'node::Node::walk::' "$room/alone.callgrind" --inclusive=yes)))
  copies=$(($(sum_of 'memcpy' "$room/pairs.callgrind") - $(sum_of 'memcpy' "$room/alone.callgrind")))
  echo "  of which walks over rows $((walks / 4)), copies of memory $((copies / 4))"
done
