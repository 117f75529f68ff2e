#!/usr/bin/env bash
# A day of traffic in four parts, opened for 10,000 subscribers of whom 6,000 are there: 50,000 transactions of TATP, postings,
# and then the bounds between the parts go to where the rows are.
#
#   examples/library/day.sh [HLR [OPTION ..]]     at the repository's top, once crates/hlr/out/hlr is built; it wants python3
set -eu
[ $# -gt 0 ] || set -- crates/hlr/out/hlr
command -v "$1" > /dev/null || { echo "there is no program at $1: run rt run in crates/hlr" >&2; exit 1; }
room=$(mktemp -d)
trap 'rm -rf "$room"' EXIT

# a zone is a 32nd of the subscribers, rounded up, and all parts post before a proposal
hlr=("$@" --parts 4 --zone 313)
run() { "${hlr[@]}"; }
python3 bench/tatp_load.py 6000 50000 2> /dev/null | grep -v views > "$room/day"
printf 'post,%d,72\n' 0 1 2 3 >> "$room/day"

bounds=$({ cat "$room/day"; echo propose; } | run | tail -n 1)
echo "the parts were opened with bounds,2505,5009,7513 and propose $bounds"
{ cat "$room/day"; echo "${bounds/bounds/recut}"; echo regions; echo views; } | run > "$room/answers"
echo "$(grep -c ok "$room/answers") changes were done, $(grep -c refused "$room/answers") records refused"
grep -A 5 '^recut' "$room/answers"
tail -n 1 "$room/answers"
