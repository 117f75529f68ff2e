#!/usr/bin/env bash
# Tests of the crates, with memory and starts of threads refused. A test's name says how it is run here:
#
#   .._each_refused              with each piece of memory refused in turn, and each start of a thread; it passes each time
#   .._all_refused_N             with all memory refused from some point on; it passes, and asks N times, by calls that want some
#   .._each_and_all_refused_N    both ways
#
# A test .._recut_.._each_refused tells besides what a refused re-cut left. A crate whose code names no allocator has tests
# that ask for no memory.
. "$(dirname "$0")/lib.sh" || exit 1
. tests/outside/c_lib.sh || exit 1
. tests/outside/refused_lib.sh || exit 1
# of so many bytes a test asks for a piece, twice, where all is to be refused from there on; nothing else does
signal=7654321

# passes CRATE TEST WHAT MODE CALL: the test passes under the preload.
passes() {
  local status
  probed "$4" "$5" "crates/$1/out/$1_tests" "$2" > "$room/got" 2>&1
  status=$?
  if [ "$status" != 0 ] || [ "$(tail -n 1 "$room/got")" != 'test result: ok' ]; then
    fail "$2 of $1 with $3: $(tail -n 1 "$room/got")"
  fi
}

# each_call CRATE TEST MODE: the test passes whichever call is refused; $calls is how many there are.
each_call() {
  calls=0
  while true; do
    passes "$1" "$2" "call $((calls + 1)) refused ($3)" "$3" $((calls + 1))
    grep '^left ' "$room/got" >> "$room/left"
    [ -f "$room/probed" ] || break
    calls=$((calls + 1))
  done
}

# each_refused CRATE TEST
each_refused() {
  local pieces
  begin
  : > "$room/left"
  each_call "$1" "$2" refuse
  pieces=$calls
  [ "$pieces" -gt 0 ] || fail "no allocation of $2 was refused"
  each_call "$1" "$2" refuse_start
  right
  echo "$1 $2: $pieces allocations refused, $calls starts of threads refused"
}

# recuts_left CRATE TEST: each thing that a refused re-cut may leave was left by some.
recuts_left() {
  begin
  [ "$(sort -u "$room/left")" = $'left nothing to do\nleft the lower piece\nleft the upper bound moved\nleft the upper piece\nleft untouched' ] ||
    fail "what re-cuts of $2 left"
  right
  sort "$room/left" | uniq -c | awk '{ count = $1; $1 = ""; printf " %s: %d", $0, count } END { print "" }'
}

# all_refused CRATE TEST N
all_refused() {
  local asked
  begin
  passes "$1" "$2" 'all memory refused from some point on' refuse_from "$signal"
  asked=$(($(bytes_of "$room/probed") - 2))
  [ "$asked" = "$3" ] || fail "$2 of $1 asked for memory $asked times, and not $3, where all was refused"
  right
  echo "$1 $2: all memory refused from some point on, asked for $3 times"
}

# named CRATE: the tests of a crate, a line each.
named() { "crates/$1/out/$1_tests" --list | sed -n 's/: test$//p'; }

# tests_of CRATE: those whose name says how they are run. In the sources as many have such a name.
tests_of() {
  local name names
  tests_built "$1" || return
  mapfile -t names < <(named "$1" | grep -E "$ending")
  is "tests of $1 that run with memory refused" "${#names[@]}" "$(cat crates/"$1"/src/*.rt crates/"$1"/src/*/*.rt 2> /dev/null | grep -cE "$test")"
  for name in "${names[@]}"; do
    if [[ $name =~ _each_(and_all_)?refused(_[0-9]+)?$ ]]; then each_refused "$1" "$name"; fi
    if [[ $name =~ recut_.*_each_refused$ ]]; then recuts_left "$1" "$name"; fi
    if [[ $name =~ _all_refused_([0-9]+)$ ]]; then all_refused "$1" "$name" "${BASH_REMATCH[1]}"; fi
  done
}

# none_asked CRATE: its tests pass with all memory refused from their start on, and ask for none.
none_asked() {
  local names name
  tests_built "$1" || return
  mapfile -t names < <(named "$1")
  begin
  [ ${#names[@]} -gt 0 ] || fail "no tests of $1"
  for name in "${names[@]}"; do
    passes "$1" "$name" 'all memory refused' refuse_from 0
    [ ! -f "$room/probed" ] || fail "$name of $1 asked for memory"
  done
  right
  echo "$1: all memory refused, none asked for by ${#names[@]} tests"
}

ending='_(each_refused|all_refused_[0-9]+)$'
test='^fn [a-z0-9_]+_(each_refused|all_refused_[0-9]+)\('
probe_made || finish
for crate in crates/*/src; do
  crate=$(basename "${crate%/src}")
  if grep -rqE "$test" "crates/$crate/src"; then tests_of "$crate"; fi
  if [[ $crate != *_tests ]] && grep -rq '^#\[test\]' "crates/$crate/src" && ! grep -rqw --exclude='*tests.rt' alloc "crates/$crate/src"; then none_asked "$crate"; fi
done
finish
