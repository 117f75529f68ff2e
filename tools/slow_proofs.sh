#!/usr/bin/env bash
# Which modules of a crate took the prover longest.
#
#   bash tools/slow_proofs.sh CRATE [COUNT]     at the repository's top, after `rt check` or `rt check --test` of the crate from
#                                               nothing (with no out/ in its folder)
#
# A check saves each module as it is done, so the seconds since the one before are what it took; where a check had two jobs
# the two mix. `FN.Proof` has a function's goals, `FN.Lts` its code, `FN.Answers` what was written.
set -eu
cd "crates/$1/out/incremental"
find . -type f -printf '%T@ %f\n' | sort -n |
  awk 'NR > 1 { printf "%8.2f  %s\n", $1 - last, $2 } { last = $1 }' |
  sed -E 's/antt-checked-[^ ]*_src-[0-9a-f]*//; s/\.bid-[0-9a-f]*//; s/(\.decls)?\.oantt$//' |
  grep -v -e linked-compared -e rattle-last-used -e facades-compared |
  sort -rn | head -n "${2:-20}"
