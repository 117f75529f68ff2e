#!/usr/bin/env bash
# Any bytes, more than `rt ci` draws: inputs that are drawn from a seed, each answered at once, by one byte a read, by
# drawn numbers of bytes a read and a write, and with threads. All four have to write the same bytes and to end alike.
#
#   tools/any_bytes.sh SEED INPUTS
#
# It runs the test any_bytes_are_answered_alike of hlr, as it was built by `rt ci` or by `rt test` in
# crates/hlr, and prints how many bytes the inputs have. Input I of a seed S is input 0 of the seed S + I. The first
# input that isn't answered alike ends it, and is told by its seed.
set -u
if [ $# -ne 2 ]; then sed -n 2,9p "$0"; exit 2; fi
cd "$(dirname "$0")/.." || exit 1
tests=crates/hlr/out/hlr_tests
if [ ! -x "$tests" ]; then
  echo "there is no program at $tests: run rt test in crates/hlr"
  exit 1
fi
ANY_BYTES_SEED=$1 ANY_BYTES_INPUTS=$2 "$tests" tests::any_bytes::any_bytes_are_answered_alike
status=$?
echo "seed $1: $SECONDS s"
exit "$status"
