#!/usr/bin/env bash
# The library for C with a journal: what each call returns; what a kill, lost writes, full and failing disks and refused
# memory leave; drawn changes next to a register without a journal; the program with the same file; hlr.hpp; small stacks.
#
#   [HLR=PROGRAM] [ARCHIVE=LIBRARY] [ROUNDS=N] tests/outside/journal_c.sh
. "$(dirname "$0")/lib.sh" || exit 1
. tests/outside/c_lib.sh || exit 1
. tests/outside/journal_lib.sh || exit 1
hlr=${HLR:-$hlr}
archive=${ARCHIVE:-$archive}
in_library=tests/outside/library
files=crates/hlr_c/hlr_file.c
strict=(-Wconversion -Wsign-conversion -Wpedantic)
run=$room/journal_run
# how many of the runs have acknowledged a change
heard=0

# client NAME WORD ..: compiles a client with the library and the calls hlr_file_...
client() { compiled "$1" -std=c11 -pthread -Icrates/hlr_c "${strict[@]}" "${@:2}" "$files" "$archive" "$(kit_archive)"; }

# last: prints the number of the last change that the journal has.
last() { "$run" "$journal" last 2>&1; }

# acknowledged: prints the number of the last change that $room/out acknowledges, or of the last one before.
acknowledged() {
  local number
  number=$(tail -n 1 "$room/out")
  echo "${number:-$reached}"
}

# kept NAME: the journal has each change that was acknowledged, and no hole; $reached is the last that it has.
kept() {
  local now told
  [ ! -s "$room/out" ] || heard=$((heard + 1))
  told=$(acknowledged)
  now=$(last)
  if [[ $now =~ ^[0-9]+$ ]] && [ "$now" -ge "$told" ]; then
    pass "$1"
    reached=$now
  else
    fail "$1: $told was acknowledged, and the journal has $now"
    rm -f "$journal"
    reached=0
  fi
}

# The source of the calls hlr_file_.. has no warning, in C99 and with two compilers.
warnings() {
  local compiler
  for compiler in gcc clang; do
    tool "$compiler" "$files without a warning" || continue
    is "$files by $compiler" "$("$compiler" -std=c99 -Wall -Wextra "${strict[@]}" -Werror -fsyntax-only -Icrates/hlr_c "$files" 2>&1; echo "$?")" 0
  done
}

# in_folder NAME COMMAND ..: a command that is passed a new folder says nothing, and ends well.
in_folder() {
  rm -rf "$room/folder"
  mkdir "$room/folder"
  ended "$1" /dev/null "${@:2}" "$room/folder"
}

# What each call returns: as it is, under valgrind, and under sanitizers.
calls() {
  client journal_calls "$in_library/journal_calls.c" || return
  in_folder 'calls with a journal' "$room/journal_calls"
  if tool valgrind 'calls with a journal under it'; then
    in_folder 'calls with a journal under valgrind' valgrind -q --leak-check=full --error-exitcode=9 "$room/journal_calls"
  fi
  client journal_calls -fsanitize=address,undefined -fno-sanitize-recover=all "$in_library/journal_calls.c" || return
  in_folder 'calls with a journal under sanitizers' "$room/journal_calls"
}

# Changes that are drawn, with and without a journal.
drawn() {
  local seed
  client journal_drawn "$in_library/journal_drawn.c" || return
  for seed in {1..5}; do
    begun
    ended "drawn changes, $seed" /dev/null "$room/journal_drawn" "$journal" 20000 "$seed"
  done
  if tool valgrind 'drawn changes under it'; then
    begun
    ended 'drawn changes under valgrind' /dev/null valgrind -q --leak-check=full --error-exitcode=9 "$room/journal_drawn" "$journal" 3000 6
  fi
}

# The calls that read or write a whole file need 256 KB of stack, and all others 64.
stacks() {
  client journal_stack "$in_library/journal_stack.c" || return
  begun
  ended 'a journal with small stacks' /dev/null "$room/journal_stack" "$journal" 20000
}

in_cpp() {
  tool g++ 'hlr.hpp with a journal' || return
  files_made || return
  g++ -std=c++17 -O2 -Wall -Wextra "${strict[@]}" -Werror -fno-exceptions -Icrates/hlr_c "$in_library/journal.cc" "$room/hlr_file.o" "$archive" \
    "$(kit_archive)" -o "$room/journal_cc" || { fail 'journal.cc is compiled'; return; }
  rm -rf "$room/folder"
  mkdir "$room/folder"
  ended 'hlr.hpp with a journal' "$in_library/journal.stdout" "$room/journal_cc" "$room/folder"
}

# A first run, and others that continue.
restarts() {
  begun
  "$run" "$journal" 1 60 7 0 > "$room/out"
  is 'a first run' "$? $(paste -sd ' ' "$room/out")" '0 7 14 21 28 35 42 49 56 60'
  kept 'a restart'
  "$run" "$journal" 61 90000 10000 3 > "$room/out"
  is 'a second run' "$? $(wc -l < "$room/out")" '0 9'
  kept 'a restart after snapshots'
  is 'all changes are there' "$reached" 90000
  "$run" "$journal" 90001 90050 0 0 > "$room/out"
  is 'a run that syncs as it closes' "$? $(cat "$room/out")" '0 90050'
  kept 'a restart after a close'
}

# The program and the library continue what the other one has left.
in_turn() {
  local round s
  program_built || return
  begun
  for ((round = 0; round < 10; round++)); do
    records $((reached + 1)) $((reached + 77)) | "$hlr" --journal "$journal" > "$room/replies" 2> "$room/err"
    is "the program in turn $round" "$(sort "$room/replies" | uniq -c | xargs) $(cat "$room/err")" '77 ok '
    "$run" "$journal" $((reached + 78)) $((reached + 177)) 9 $((round % 3)) > "$room/out"
    is "the library in turn $round" "$?" 0
    is "what both made by turn $round" "$(last)" $((177 * (round + 1)))
    reached=$((177 * (round + 1)))
  done
  for s in {1..50}; do echo "gsd,$s"; done | "$hlr" --journal "$journal" | sed 's/.*,//' > "$room/found"
  records 1 $reached | { cat; for s in {1..50}; do echo "gsd,$s"; done; } | "$hlr" | grep ^subscriber | sed 's/.*,//' > "$room/want"
  same 'the rows of both' "$room/found" "$room/want"
}

# One process at a time: the library and the program refuse a file that another process has open.
locked() {
  local from to answer process
  begun
  coproc HOLD { "$run" "$journal" hold; echo "status $?"; }
  process=$HOLD_PID
  exec {from}<&"${HOLD[0]}" {to}>&"${HOLD[1]}"
  # shellcheck disable=SC1083,SC2093
  exec {HOLD[1]}>&-
  IFS= read -r -t 10 answer <&"$from"
  is 'the first process' "$answer" open
  is 'a second process' "$(last)" 'opening: Locked'
  if program_built; then
    hlr_on --journal "$journal" < /dev/null
    ends 'the program as a second process' 1 '' $'hlr: read fault: another process has the journal open; end that one first\n'
  fi
  exec {to}>&-
  IFS= read -r -t 10 answer <&"$from"
  is 'the end of the first process' "$answer" 'status 0'
  exec {from}<&-
  wait "$process" 2> /dev/null
  is 'after the first process' "$(last)" 0
  program_built || return
  coproc HLR { "$hlr" --journal "$journal"; }
  process=$HLR_PID
  exec {from}<&"${HLR[0]}" {to}>&"${HLR[1]}"
  # shellcheck disable=SC1083,SC2093
  exec {HLR[1]}>&-
  records 1 1 >&"$to"
  IFS= read -r -t 10 answer <&"$from"
  is 'the program as the first process' "$answer" ok
  is 'the library as a second process' "$(last)" 'opening: Locked'
  exec {to}>&- {from}<&-
  wait "$process" 2> /dev/null
  is 'after the program' "$(last)" 1
}

# refused NAME: the library refuses the file that the journal is, and leaves it as it is.
refused() {
  cp "$journal" "$room/before"
  is "$1" "$(last)" 'opening: BadJournal'
  same "$1 is left as it is" "$journal" "$room/before"
}

# A journal that is damaged in the middle, or has another version, or no end. What lies behind its text doesn't count.
damaged() {
  begun
  "$run" "$journal" 1 60 60 0 > "$room/out"
  cp "$journal" "$room/whole"
  printf Z | dd of="$journal" bs=1 seek=$((14 + 44 * 20)) conv=notrunc status=none
  refused 'a line of no event'
  cp "$room/whole" "$journal"
  printf Z | dd of="$journal" bs=1 seek=$((14 + 44 * 20 + 1)) conv=notrunc status=none
  refused 'a byte that is no digit'
  cp "$room/whole" "$journal"
  dd if="$room/whole" of="$journal" bs=1 skip=14 seek=$((14 + 44)) count=44 conv=notrunc status=none
  refused 'a line that stands twice'
  cp "$room/whole" "$journal"
  printf 2 | dd of="$journal" bs=1 seek=12 conv=notrunc status=none
  refused 'another version'
  head -c $((14 + 44 * 50 + 15 * 10)) "$room/whole" > "$journal"
  refused 'a journal without its end'
  cp "$room/whole" "$journal"
  # A 0 is what a crash leaves of a byte, so it ends the journal, and the rest is gone then.
  printf '\0' | dd of="$journal" bs=1 seek=$((14 + 44 * 20)) conv=notrunc status=none
  is 'a 0 in the middle' "$(last)" 20
  is 'a 0 in the middle, opened again' "$(last)" 20
  cp "$room/whole" "$journal"
  printf 'rest of a line\0and more' | dd of="$journal" bs=1 seek=$((14 + 44 * 50 + 15 * 10)) conv=notrunc status=none
  is 'a line without its end' "$(last)" 60
  cp "$room/whole" "$journal"
  printf ZZZ | dd of="$journal" bs=1 seek=$((14 + 44 * 50 + 15 * 10 + 1)) conv=notrunc status=none
  is 'bytes behind the end' "$(last)" 60
}

# Processes that are killed under load have each change that was acknowledged. In some rounds snapshots are made.
kills() {
  local round groups=(1 7 64 1000) snapshots=(0 0 3 20)
  heard=0
  for ((round = 0; round < rounds; round++)); do
    ((round % 25)) || begun
    killed "$run" "$journal" $((reached + 1)) $((reached + 90000000)) "${groups[RANDOM % 4]}" "${snapshots[RANDOM % 4]}"
    kept "kill $round"
  done
  [ "$heard" -gt 0 ] || fail 'no process has acknowledged a change before it was killed'
  echo "$rounds processes killed, of which $heard had acknowledged a change"
}

# The same where the writes since the last sync are lost in part.
lost_writes() {
  local round groups=(1 7 64 300) snapshots=(0 0 3 20)
  rm -f "$room/late"
  heard=0 lost=0
  for ((round = 0; round < rounds; round++)); do
    ((round % 10)) || begun
    rm -f "$room"/synced.*
    killed env LD_PRELOAD="$room/disk.so" DISK_COPY="$room/synced" DISK_SLOW=1000 DISK_LATE="$room/late" \
      "$run" "$journal" $((reached + 1)) $((reached + 90000000)) "${groups[RANDOM % 4]}" "${snapshots[RANDOM % 4]}"
    left "$round"
    kept "lost writes $round"
  done
  is 'changes that were acknowledged before a sync' "$(bytes_of "$room/late")" 0
  [ "$heard" -gt 0 ] || fail 'no process has acknowledged a change before its writes were lost'
  [ "$lost" -gt 0 ] || fail 'no write was lost'
  echo "the writes of $lost of $rounds processes lost in part, with $renamings_lost renamings"
}

# long_begun: the journal is one that is nearly as long as its file. `ended_at` calls it.
# shellcheck disable=SC2317
long_begun() {
  begun
  cp "$room/long" "$journal"
  reached=60000
}

# ended_at NAME BEGIN TO GROUP SNAPSHOT: the process is killed in each of its calls of the disk, one after another, and
# what was written since the last sync is lost in part. Each time BEGIN makes the journal before.
ended_at() {
  local call=0 status
  while true; do
    call=$((call + 1))
    "$2"
    disked DISK_ENDS=$call DISK_COPY="$room/synced" "$run" "$journal" $((reached + 1)) "${@:3}" > "$room/out" 2> "$room/err"
    status=$?
    [ $status = 137 ] || break
    left $((2 * call + 1))
    kept "$1, killed in call $call of the disk"
  done
  is "$1, not killed" "$status $(cat "$room/err")" '0 '
  echo "$1: killed in each of $((call - 1)) calls of the disk"
}

each_call() {
  ended_at 'a few changes' begun 20 7 0
  ended_at 'a journal that grows' long_begun 80000 5000 0
  renamings_lost=0
  ended_at 'a snapshot' long_begun 60020 10 2
  [ "$renamings_lost" -gt 0 ] || fail 'no renaming was lost'
}

# failing NAME: a run on a failing disk told of it, or was done, and the journal has each change that was acknowledged.
failing() {
  case $status:$(cat "$room/err") in
    0: | 1:'opening: Failed' | 1:'a sync: Failed' | 1:'a change: Failed' | 1:'closing: Failed') pass "$1" ;;
    *) fail "$1: status $status, '$(cat "$room/err")'" ;;
  esac
  kept "$1, restarted"
}

# The disk is full after so many bytes, or fails after so many syncs, or a file may not grow.
failing_disks() {
  local room_left syncs snapshot
  for snapshot in 0 2; do
    for ((room_left = 0; room_left < 9000000; room_left += 150011)); do
      begun
      disked DISK_ROOM=$room_left "$run" "$journal" 1 60000 10000 $snapshot > "$room/out" 2> "$room/err"
      status=$?
      failing "a disk that is full after $room_left bytes, snapshots $snapshot"
    done
    is "a disk with room, snapshots $snapshot" "$status" 0
    for ((syncs = 0; syncs < 60; syncs++)); do
      begun
      disked DISK_SYNCS=$syncs "$run" "$journal" 1 100 10 $snapshot > "$room/out" 2> "$room/err"
      status=$?
      failing "a disk that fails after $syncs syncs, snapshots $snapshot"
    done
    is "a disk that fails after all syncs, snapshots $snapshot" "$status" 0
  done
  begun
  (
    trap '' XFSZ
    ulimit -f 1100
    "$run" "$journal" 1 200000 10000 0 > "$room/out" 2> "$room/err"
  )
  status=$?
  failing 'a file that may not grow'
  is 'a file that may not grow: status' "$status" 1
}

# A close acknowledges nothing before a sync either. The preload sees what is acknowledged: where syncs don't count, it
# notes each of them.
in_time() {
  begun
  rm -f "$room/late"
  disked DISK_LATE="$room/late" "$run" "$journal" 1 60 0 0 > "$room/out"
  is 'a close in time' "$? $(cat "$room/out")" '0 60'
  is 'a close that is acknowledged before its sync' "$(bytes_of "$room/late")" 0
  disked DISK_LATE="$room/late" DISK_MUTE=1 "$run" "$journal" 61 120 7 0 > "$room/out"
  is 'acknowledgements that the preload sees' "$(bytes_of "$room/late")" "$(wc -l < "$room/out")"
}

# A snapshot can't take the place of the journal, or their folder can't be synced. Nothing is acknowledged by a sync
# until another snapshot has taken it, which this run makes at once.
renamings() {
  local number kind
  for kind in DISK_NAME DISK_FSYNC; do
    for number in {1..12}; do
      begun
      disked "$kind=$number" NO_SYNC=1 "$run" "$journal" 1 100 10 1 > "$room/out" 2> "$room/err"
      status=$?
      failing "call $number of $kind fails"
      if [ "$number" -gt 2 ]; then is "call $number of $kind fails: status" "$status $(acknowledged)" '0 100'; fi
    done
  done
}

# With each piece of memory refused, the call says so, and is done at the second try.
no_memory() {
  local call=0
  while true; do
    call=$((call + 1))
    begun
    probed refuse $call "$run" "$journal" 1 60 7 2 > "$room/out" 2> "$room/err"
    status=$?
    [ -f "$room/probed" ] || break
    is "memory $call refused" "$status $(cat "$room/err")" '0 '
    kept "memory $call refused, restarted"
    is "memory $call refused: the last change" "$reached" 60
  done
  [ $call -gt 10 ] || fail "only $call pieces of memory are asked for"
  echo "$((call - 1)) pieces of memory refused"
}

tool gcc 'a journal for C' || finish
warnings
archive_built || finish
probe_made || finish
disk_made || finish
client journal_run "$in_library/journal_run.c" || finish
calls
drawn
stacks
in_cpp
restarts
begun
"$run" "$journal" 1 60000 60000 0 > "$room/out"
mv "$journal" "$room/long"
in_turn
locked
damaged
kills
lost_writes
each_call
failing_disks
in_time
renamings
no_memory
finish
