#!/usr/bin/env bash
# How often calls ask for memory, and how much engines have.
. "$(dirname "$0")/lib.sh" || exit 1
. tests/outside/c_lib.sh || exit 1
engine_tests=crates/engine_tests/out/engine_tests_tests

# asked COMMAND ..: how often a command asks for memory, given the script $room/in.
asked() {
  probed count 0 "$@" < "$room/in" > "$room/out"
  bytes_of "$room/probed"
}

# taken N: how often it asks for memory in one take, where a part and a piece of N subscribers each are joined.
taken() {
  local half=$1 number before after
  for number in $(seq 1 $((2 * half))); do
    printf 'sub,%d,%015d,0000000000,0000000000,00000000000000000000,1,1\n' "$number" "$number"
  done > "$room/in"
  printf 'give,0,high,%d\n' $((half + 1)) >> "$room/in"
  before=$(asked "$hlr")
  echo 'take,1,0' >> "$room/in"
  after=$(asked "$hlr")
  tail -n 1 "$room/out" | grep -q '^taken,1,0$' && echo $((after - before))
}

# What a take asks of memory goes by the heights of the trees that are joined, and not by how many rows they have.
takes() {
  local few
  few=$(taken 200)
  is 'a take of 200 rows asks for memory' "$([ "${few:-0}" -gt 0 ] && echo yes)" yes
  is 'a take of 400 rows asks as often' "$(taken 400)" "$few"
}

# test_passed TEST: a test was run that printed $room/out, and passed.
test_passed() {
  is "the test $1: its last line" "$(tail -n 1 "$room/out")" 'test result: ok'
}

# A sight of an engine asks for no memory.
sights() {
  local one
  : > "$room/in"
  one=$(asked "$engine_tests" run_tests::one_sight)
  test_passed one_sight
  is 'an engine with one sight asks for memory' "$([ "${one:-0}" -gt 0 ] && echo yes)" yes
  is 'one with a thousand asks as often' "$(asked "$engine_tests" run_tests::thousand_sights)" "$one"
  test_passed thousand_sights
}

# had TEST: how many pieces and bytes of memory a test of the engine has, at most at once and at its end.
had() {
  rm -f "$room/had"
  PROBE_HAD=$room/had LD_PRELOAD=$room/probe.so "$engine_tests" "$1" > "$room/out"
  od -A n -t d8 -w32 "$room/had"
}

# A thousand engines, one after another over one register, have as much memory as the first one alone.
engines() {
  local one
  one=$(had run_tests::one_engine)
  test_passed one_engine
  is 'an engine has pieces of memory' "$(echo "$one" | awk '{ print ($1 > 0) }')" 1
  is 'a thousand engines have as much memory as one' "$(had run_tests::engines_one_after_another)" "$one"
  test_passed engines_one_after_another
}

tool gcc 'what calls ask of memory, and what engines have' || finish
probe_made || finish
if program_built; then takes; fi
if tests_built engine_tests; then
  sights
  engines
fi
finish
