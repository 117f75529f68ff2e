#!/usr/bin/env bash
# Refuses memory and starts of threads, one after another: in the built program, without threads and with, in a client of
# the library for C, and in the built tests that are made for it. `test.sh` runs the same parts.
#
#   tests/refuse_memory.sh            all; the last line is 'N passed, N failed'
#   tests/refuse_memory.sh program    the program and the library alone
#
# It needs gcc, and what `rt ci` (or `rt run` in crates/hlr and `rt test` in the others) and crates/hlr_c/archive.sh behind
# it (or `rt lib` in crates/hlr_c) leave in crates/*/out.
. "$(dirname "$0")/outside/lib.sh" || exit 1

names=(refused_program refused_starts refused_library)
if [ "${1:-all}" = all ]; then names+=(refused_tests); fi
parts "${names[@]}"
finish
