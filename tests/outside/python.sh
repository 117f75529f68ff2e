#!/usr/bin/env bash
# The Python package, over the shared object: its doctests and tests, and the watch, over the program.
. "$(dirname "$0")/lib.sh" || exit 1
. tests/outside/c_lib.sh || exit 1
export PYTHONDONTWRITEBYTECODE=1 PYTHONPATH=$PWD/python HLR_PROGRAM=$hlr HLR_LIBRARY=$room/libhlr.so.1

# tests FILE: each of its tests passes; one line tells how many.
tests() {
  local ran
  timeout 300 python3 -W error -m unittest "python/tests/$1" > "$room/out" 2>&1
  is "python/tests/$1: status" "$?" 0
  ran=$(sed -n 's/^Ran \([0-9]*\) tests\{0,1\} in .*/\1/p' "$room/out")
  if [ "$(tail -n 1 "$room/out")" = OK ] && [ "${ran:-0}" -gt 0 ]; then passed=$((passed + ran)); else
    fail "python/tests/$1"
    cat "$room/out"
  fi
}

tool python3 'the package of python/' || finish
is 'the package is compiled' "$(PYTHONPYCACHEPREFIX=$room python3 -m py_compile python/*/*.py 2>&1; echo "$?")" 0
if program_built; then tests test_watch.py; fi
tool gcc 'the package of python/ over the library' || finish
archive_built || finish
shared libhlr.so.1 || finish
tests test_hlr.py
finish
