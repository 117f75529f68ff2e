#!/usr/bin/env bash
# Who waits for a place in a worker's queue is woken once the place is there, and not before: threads go on late once they
# have woken another one, so that one which was woken too early would find the queue full, and sleep again.
. "$(dirname "$0")/lib.sh" || exit 1
. tests/outside/c_lib.sh || exit 1
engine_tests=crates/engine_tests/out/engine_tests_tests

tool gcc 'threads that go on late' || finish
tests_built engine_tests || finish
compiled late.so -shared -fPIC tests/preload/late.c -ldl || finish
for turn in 1 2 3; do
  for name in place_that_was_made_is_told half_full_messages_fill_the_queue full_queue_holds_up_no_other_part; do
    LD_PRELOAD=$room/late.so timeout 60 "$engine_tests" "gated_tests::$name" > "$room/out" 2>&1
    is "the test $name with threads that go on late, turn $turn: its last line" "$(tail -n 1 "$room/out")" 'test result: ok'
  done
done
finish
