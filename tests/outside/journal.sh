#!/usr/bin/env bash
# The program with --journal: what a restart, a kill and lost writes leave; files that are refused, and disks that fail.
#
#   [HLR=PROGRAM] [ROUNDS=N] tests/outside/journal.sh
. "$(dirname "$0")/lib.sh" || exit 1
. tests/outside/c_lib.sh || exit 1
. tests/outside/journal_lib.sh || exit 1
hlr=${HLR:-$hlr}
broken='hlr: write fault: the journal can'\''t be written; see to its disk, and start again'
unopened='hlr: read fault: the journal can'\''t be made or read; see to its path, its rights and its disk'
# how many of the runs have replied to a record
heard=0

# slowly: hands each line of its input on by itself.
slowly() { awk '{ print; fflush() }'; }

# asked: asks a program on the journal for all subscribers; the answers are $room/rows.
asked() {
  local s
  for s in {1..50}; do echo "gsd,$s"; done | "$hlr" --journal "$journal" > "$room/rows" 2> "$room/err"
}

# last: prints the number of the last record that the journal has, and what it has of those before it is looked at too.
last() {
  asked || { echo "the journal isn't read: $(cat "$room/err")"; return; }
  awk -F, '
    $1 == "subscriber" { at[$2] = $NF; if ($NF > last) last = $NF }
    END {
      for (s = 1; s <= 50; s++) {
        want = last - (last - s + 5000) % 50
        if (want >= 1 && at[s] != want || want < 1 && s in at) { printf "the wrong rows of %d: ", s; exit }
      }
    }
    END { print last + 0 }' "$room/rows"
}

# replies: how many replies are in $room/out.
replies() { tr -cd '\n' < "$room/out" | wc -c; }

# kept NAME REACHED: behind so many records, the journal has each record that was replied to, and no hole; $reached is the last.
kept() {
  local now
  [ "$(replies)" = 0 ] || heard=$((heard + 1))
  now=$(last)
  if [[ $now =~ ^[0-9]+$ ]] && [ "$now" -ge $(($2 + $(replies))) ]; then
    pass "$1"
    reached=$now
  else
    fail "$1: $(replies) replies behind $2, and the journal has $now"
    rm -f "$journal"
    reached=0
  fi
}

# long_begun: the journal is one that a snapshot is due for, of 80,000 records.
long_begun() {
  begun
  cp "$room/long" "$journal"
  reached=80000
}

# Rows are there at the next start; without the option none are.
restarts() {
  begun
  records 1 60 > "$room/in"
  hlr_on --journal "$journal" < "$room/in"
  is 'a first run: status' "$status" 0
  is 'a first run: replies' "$(sort "$room/out" | uniq -c | xargs)" '60 ok'
  kept 'a restart' 0
  records 61 75 | "$hlr" --journal "$journal" --parts 3 --zone 7 > "$room/out"
  kept 'a restart with other parts' 60
  printf 'scan\n' | "$hlr" --journal "$journal" > "$room/scan"
  records 1 75 > "$room/in"
  echo scan >> "$room/in"
  "$hlr" < "$room/in" | sed 1,75d > "$room/want"
  same 'the counts after a restart' "$room/scan" "$room/want"
  printf 'gsd,1\n' | "$hlr" > "$room/out"
  is 'a run without the journal' "$(cat "$room/out")" 'refused,3,NoSubscriber'
}

# of_rows FILE: the replies that tell of rows alone.
of_rows() { grep -vE '^(cell|views|posted|regions|part|piece|propose|bounds|recut|taken|divided|dissolved),' "$1"; }

# All kinds of records give the replies of a run without a journal, and those on rows also in several runs.
all_kinds() {
  local script from words
  for script in tests/scripts/{access,destinations,index_in_order,numbers_swapped,overlapping_hours,refusals}.csv; do
    words=()
    [ ! -e "$script.args" ] || mapfile -t words < "$script.args"
    begun
    hlr_on --journal "$journal" "${words[@]}" < "$script"
    same "$script with a journal" "$room/out" "$script.stdout"
    begun
    : > "$room/all"
    for ((from = 1; from <= $(wc -l < "$script"); from += 7)); do
      sed -n "$from,$((from + 6))p" "$script" | "$hlr" --journal "$journal" "${words[@]}" >> "$room/all"
    done
    of_rows "$script.stdout" > "$room/want"
    of_rows "$room/all" > "$room/out"
    same "$script in runs of seven records" "$room/out" "$room/want"
  done
}

# Processes that are killed under load have each record that they replied to. In some rounds snapshots are made meanwhile.
kills() {
  local round
  heard=0
  for ((round = 0; round < rounds; round++)); do
    ((round % 25)) || begun
    if ((round % 2)); then
      killed "$hlr" --journal "$journal" --snapshot-at $((round % 3 + 1)) < <(records $((reached + 1)) $((reached + 900000)))
    else
      killed "$hlr" --journal "$journal" < <(records $((reached + 1)) $((reached + 900000)) | slowly)
    fi
    kept "kill $round" "$reached"
  done
  [ "$heard" -gt 0 ] || fail 'no process has replied before it was killed'
  echo "$rounds processes killed, of which $heard had replied"
}

# The same where the writes since the last sync are lost in part.
lost_writes() {
  local round from
  heard=0 lost=0
  rm -f "$room/late"
  for ((round = 0; round < rounds; round++)); do
    ((round % 25)) || begun
    rm -f "$room"/synced.*
    from=$reached
    if ((round % 2)); then
      killed env LD_PRELOAD="$room/disk.so" DISK_COPY="$room/synced" DISK_SLOW=3000 DISK_LATE="$room/late" \
        "$hlr" --journal "$journal" --snapshot-at 1 < <(records $((reached + 1)) $((reached + 900000)))
    else
      killed env LD_PRELOAD="$room/disk.so" DISK_COPY="$room/synced" DISK_SLOW=3000 DISK_LATE="$room/late" \
        "$hlr" --journal "$journal" < <(records $((reached + 1)) $((reached + 900000)) | slowly)
    fi
    left "$round"
    kept "lost writes $round" "$from"
  done
  is 'replies that were handed on before a sync' "$(bytes_of "$room/late")" 0
  [ "$heard" -gt 0 ] || fail 'no process has replied before its writes were lost'
  [ "$lost" -gt 0 ] || fail 'no write was lost'
  echo "the writes of $lost of $rounds processes lost in part, with $renamings_lost renamings"
}

# ended_at NAME BEGIN COMMAND ..: the process is killed in each of its calls of the disk, one after another, and what was
# written since the last sync is lost in part. Each time a command makes the journal before, and another one feeds it.
ended_at() {
  local call=0 from
  while true; do
    call=$((call + 1))
    "$2"
    from=$reached
    disked DISK_ENDS=$call DISK_COPY="$room/synced" "$hlr" --journal "$journal" --snapshot-at 1 < <("${@:3}") > "$room/out" \
      2> "$room/err"
    [ $? = 137 ] || break
    left $((2 * call + 1))
    kept "$1, killed in call $call of the disk" "$from"
  done
  is "$1, not killed" "$(cat "$room/err")" ''
  echo "$1: killed in each of $((call - 1)) calls of the disk"
}

few_records() { records 1 20 | slowly; }

each_call() {
  ended_at 'a few records' begun few_records
  ended_at 'a file that grows' begun records 1 6000
  ended_at 'a snapshot' long_begun records 80001 80020
}

# few_rows: the records of a subscriber with a forwarding, whose facility is switched off.
few_rows() {
  printf '%s\n' sub,1,000000000000001,0000000000,0000000000,00000000000000000000,1,1 fac,1,1,0,1,1,ABCDE \
    icf,000000000000001,1,0,24,000000000000002
}

# imaged NAME SYNCED: of the bytes that were written since the last sync, the journal loses each subset in turn. With all of
# the eight bytes of its line the facility is switched on, and otherwise it is off. $images counts them.
imaged() {
  local bytes mask want
  bytes=$(cmp -l "$2" "$journal" | wc -l)
  [ "$bytes" -le 8 ] || { fail "$1: $bytes bytes are not synced"; return; }
  cp "$journal" "$room/written"
  for ((mask = 0; bytes > 0 && mask < 1 << bytes; mask++)); do
    "$room/mix" "$2" "$room/written" "$journal" lost "$mask" || { fail "$1: no image $mask"; return; }
    want=refused
    if [ "$bytes" = 8 ] && [ "$mask" = 0 ]; then want=numbers; fi
    is "$1, image $mask" "$(echo gnd,1,1,0,5 | "$hlr" --journal "$journal" | cut -d , -f 1)" "$want"
    images=$((images + 1))
  done
}

# Each image that a crash may leave of a small group, in each call of the disk: 2^4 of a write that was cut off in the middle,
# and 2^8 of one that isn't synced.
each_image() {
  local call=0 images=0 synced
  begun
  few_rows | "$hlr" --journal "$journal" > "$room/out"
  cp "$journal" "$room/few"
  while true; do
    call=$((call + 1))
    begun
    cp "$room/few" "$journal"
    disked DISK_ENDS=$call DISK_COPY="$room/synced" "$hlr" --journal "$journal" < <(echo active,1,1,1) > "$room/out" 2> "$room/err"
    [ $? = 137 ] || break
    synced=$room/synced.$(stat -c %i "$journal")
    [ ! -e "$synced" ] || imaged "call $call of the disk" "$synced"
  done
  is 'images of a small group' "$images" 272
}

# A snapshot takes the place of a long journal, which then has the same rows, and no other.
snapshots() {
  local grown turn
  begun
  records 1 80000 | "$hlr" --journal "$journal" --snapshot-at 2 > "$room/out"
  kept 'a journal that is too short for a snapshot' 0
  grown=$(bytes_of "$journal")
  mv "$journal" "$room/long"
  long_begun
  records 80001 80001 | "$hlr" --journal "$journal" --snapshot-at 1 > "$room/out"
  kept 'a snapshot' 80000
  [ "$(bytes_of "$journal")" -lt "$grown" ] || fail "a snapshot of $grown bytes has $(bytes_of "$journal")"
  for turn in {1..4}; do
    records $((reached + 1)) $((reached + 300000)) | "$hlr" --journal "$journal" --snapshot-at 1 > "$room/out"
    kept "snapshots of 300,000 records, turn $turn" "$reached"
  done
  [ "$(bytes_of "$journal")" -lt 4000000 ] || fail "a journal with snapshots has $(bytes_of "$journal") bytes"
  [ ! -e "$journal.next" ] || fail 'a snapshot is left over'
  all_rows > "$room/in"
  begun
  {
    cat "$room/in"
    awk 'BEGIN { for (j = 0; j < 150000; j++) printf "ul,%015d,%d\n", 700 + j % 50, j + 1 }'
    echo scan
    echo index
  } > "$room/many"
  "$hlr" --journal "$journal" --snapshot-at 1 < "$room/many" > "$room/out"
  "$hlr" < "$room/many" > "$room/want"
  same 'replies while snapshots are made' "$room/out" "$room/want"
  [ "$(bytes_of "$journal")" -lt 2200000 ] || fail "the journal of all kinds of rows has $(bytes_of "$journal") bytes"
  reads_of_all > "$room/in"
  "$hlr" --journal "$journal" < "$room/in" > "$room/out"
  cat "$room/many" "$room/in" | "$hlr" | tail -n "$(wc -l < "$room/out")" > "$room/want"
  same 'all kinds of rows behind a snapshot' "$room/out" "$room/want"
}

# all_rows: the records of 50 subscribers with rows of each kind.
all_rows() {
  awk 'BEGIN {
    for (s = 1; s <= 50; s++) {
      n = sprintf("%015d", 699 + s)
      printf "sub,%d,%s,%010d,%010x,%020x,%d,1\n", s, n, (s % 2) * 1111111111, s * 65537, s * 12345, s
      for (t = 1; t <= 4; t++) {
        printf "acc,%d,%d,%d,%d,ABC,ABCDE\n", s, t, s, 255 - t
        printf "fac,%d,%d,%d,%d,%d,VWXYZ\n", s, t, (s + t) % 2, t, s
        for (h = 0; h < 24; h += 8) if ((s + t + h / 8) % 3) printf "icf,%s,%d,%d,%d,%015d\n", n, t, h, h + 5, s * t + h
      }
    }
    for (s = 1; s <= 50; s += 7) printf "dcf,%015d,%d,%d\n", 699 + s, 1 + s % 4, 8
  }'
}

# reads_of_all: records that read all of these rows, and count them.
reads_of_all() {
  awk 'BEGIN {
    for (s = 1; s <= 50; s++) {
      printf "gsd,%d\n", s
      for (t = 1; t <= 4; t++) {
        printf "gad,%d,%d\n", s, t
        for (h = 0; h < 24; h += 8) for (e = h; e < h + 8; e += 4) printf "gnd,%d,%d,%d,%d\n", s, t, h, e
      }
    }
    print "index"; print "scan"
  }'
}

# A snapshot that can't be written leaves the journal, and the run goes on. To open the journal takes up to 1 MiB of writes.
no_room_for_a_snapshot() {
  local room_left
  for room_left in 1048600 1300000 1600000 2000000; do
    long_begun
    disked DISK_ROOM=$room_left "$hlr" --journal "$journal" --snapshot-at 1 < <(records 80001 80020) > "$room/out" 2> "$room/err"
    is "no room for a snapshot after $room_left bytes: status" "$? $(cat "$room/err")" '0 '
    is "no room for a snapshot after $room_left bytes: replies" "$(replies)" 20
    kept "no room for a snapshot after $room_left bytes" 80000
  done
}

# A copy that is made while the program works has each record that was replied to before.
copies() {
  local round process before
  begun
  for ((round = 0; round < 20; round++)); do
    : > "$room/out"
    "$hlr" --journal "$journal" < <(records $((reached + 1)) $((reached + 900000))) > "$room/out" &
    process=$!
    begins "$process"
    before=$(replies)
    cp "$journal" "$room/copy" 2> "$room/err" || printf 'hlr journal 1\n\0' > "$room/copy"
    kill -9 "$process" 2> /dev/null
    wait "$process" 2> /dev/null
    mv "$room/copy" "$journal"
    head -n "$before" "$room/out" > "$room/seen"
    mv "$room/seen" "$room/out"
    kept "copy $round" "$reached"
  done
  echo "20 copies made of $reached records"
}

# A second process is refused, and the first one continues.
locked() {
  local from to answer
  begun
  coproc HLR { "$hlr" --journal "$journal"; echo "status $?"; }
  exec {from}<&"${HLR[0]}" {to}>&"${HLR[1]}"
  # shellcheck disable=SC1083,SC2093
  exec {HLR[1]}>&-
  records 1 1 >&"$to"
  IFS= read -r -t 10 answer <&"$from"
  is 'the first process' "$answer" ok
  cp "$journal" "$room/before"
  printf 'views\n' > "$room/in"
  hlr_on --journal "$journal" < "$room/in"
  ends 'a second process' 1 '' $'hlr: read fault: another process has the journal open; end that one first\n'
  same 'the journal of the first process' "$journal" "$room/before"
  printf 'gsd,1\n' >&"$to"
  IFS= read -r -t 10 answer <&"$from"
  is 'the first process again' "${answer%%,*}" subscriber
  exec {to}>&-
  IFS= read -r -t 10 answer <&"$from"
  is 'the end of the first process' "$answer" 'status 0'
  exec {from}<&-
  wait "$HLR_PID" 2> /dev/null
  : > "$room/out"
  kept 'behind the first process' 1
}

# refused NAME LINE: the program refuses the file that the journal is, with one line, and leaves it as it is.
refused() {
  cp "$journal" "$room/before"
  printf 'views\n' > "$room/in"
  hlr_on --journal "$journal" < "$room/in"
  ends "$1" 1 '' "$2"$'\n'
  same "$1 is left as it is" "$journal" "$room/before"
}

other_files() {
  local none='hlr: read fault: the file is no journal; name another one, or restore a copy of it'
  local damaged='hlr: read fault: the journal is damaged or of another version; restore a copy of it'
  begun
  mkdir "$journal"
  hlr_on --journal "$journal" < /dev/null
  ends 'a folder' 1 '' "$none"$'\n'
  rmdir "$journal"
  printf 'other\n' > "$room/other"
  ln -s "$room/other" "$journal.new"
  hlr_on --journal "$journal" < /dev/null
  ends 'a link where the new file is made' 1 '' "$unopened"$'\n'
  is 'the file behind the link' "$(cat "$room/other")" other
  rm "$journal.new"
  hlr_on --journal "$room/none/rows" < /dev/null
  ends 'a file in no folder' 1 '' "$unopened"$'\n'
  : > "$journal"
  refused 'an empty file' "$none"
  printf 'hlr journal 1\n' > "$journal"
  refused 'a file without a zero' "$none"
  printf 'hello\n\0\0' > "$journal"
  refused 'a file of other lines' "$damaged"
  printf 'hlr journal 2\n\0\0' > "$journal"
  refused 'a journal of another version' "$damaged"
  begun
  records 1 60 | "$hlr" --journal "$journal" > /dev/null
  printf Z | dd of="$journal" bs=1 seek=14 conv=notrunc status=none
  refused 'a journal with a line of no event' "$damaged"
  printf SZ | dd of="$journal" bs=1 seek=14 conv=notrunc status=none
  refused 'a journal with a byte that is no digit' "$damaged"
  begun
  records 1 60 | "$hlr" --journal "$journal" > /dev/null
  dd if="$journal" of="$journal" bs=1 skip=14 seek=58 count=44 conv=notrunc status=none
  refused 'a journal with a line that stands twice' "$damaged"
}

# little_memory: the program opens the journal in 48 MB of memory.
little_memory() {
  (ulimit -v 48000 && exec "$hlr" --journal "$journal") < "$room/in" > "$room/out" 2> "$room/err"
  status=$?
}

# A line of 64 MB is not gathered in memory, so a file that has one needs no more than another file.
long_lines() {
  local damaged='hlr: read fault: the journal is damaged or of another version; restore a copy of it'
  printf 'views\n' > "$room/in"
  "$hlr" < "$room/in" > "$room/no_rows"
  begun
  little_memory
  ends 'an empty journal in little memory' 0 "$(cat "$room/no_rows")"$'\n' ''
  { printf 'hlr journal 1\n'; head -c 67108864 /dev/zero | tr '\0' x; } > "$room/long_line"
  { cat "$room/long_line"; printf '\n\0'; } > "$journal"
  cp "$journal" "$room/before"
  little_memory
  ends 'a line of 64 MB' 1 '' "$damaged"$'\n'
  same 'a line of 64 MB is left as it is' "$journal" "$room/before"
  { cat "$room/long_line"; printf '\0'; } > "$journal"
  little_memory
  ends 'a line of 64 MB without its line feed' 0 "$(cat "$room/no_rows")"$'\n' ''
  rm "$room/long_line" "$room/before"
}

# failed NAME: a run on a failing disk ended with its line, and the journal has each record that was replied to.
failed_disk() {
  case $status in
    0) is "$1: standard error" "$(cat "$room/err")" '' ;;
    1)
      case $(cat "$room/err") in
        "$broken") pass "$1" ;;
        "$unopened") is "$1: replies" "$(replies)" 0 ;;
        *) fail "$1: $(cat "$room/err")" ;;
      esac
      ;;
    *) fail "$1: status $status" ;;
  esac
  [ "$(sort -u "$room/out")" = ok ] || [ ! -s "$room/out" ] || fail "$1: other replies"
  kept "$1, restarted" 0
}

# The disk is full after so many bytes, or fails after so many syncs.
failing_disks() {
  local room_left syncs
  for ((room_left = 0; room_left < 1600000; room_left += room_left < 200000 ? 9001 : 100003)); do
    begun
    disked DISK_ROOM=$room_left "$hlr" --journal "$journal" < <(records 1 6000) > "$room/out" 2> "$room/err"
    status=$?
    failed_disk "a disk that is full after $room_left bytes"
  done
  is 'a disk with room' "$status" 0
  for ((syncs = 0; syncs < 40; syncs++)); do
    begun
    disked DISK_SYNCS=$syncs "$hlr" --journal "$journal" < <(few_records) > "$room/out" 2> "$room/err"
    status=$?
    failed_disk "a disk that fails after $syncs syncs"
  done
  begun
  (
    trap '' XFSZ
    ulimit -f 64
    "$hlr" --journal "$journal" < <(records 1 6000) > "$room/out" 2> "$room/err"
  )
  status=$?
  failed_disk 'a file that may not grow'
  is 'a file that may not grow: status' "$status" 1
}

# No reply is handed on before a sync, also of reports that are long.
in_time() {
  begun
  rm -f "$room/late"
  {
    records 1 9000
    for turn in {1..3}; do
      echo index
      records $((turn * 9000 + 1)) $((turn * 9000 + 30))
      echo views
    done
    for s in {51..4000}; do printf 'sub,%d,%015d,0000000000,0000000000,00000000000000000000,1,1\n' "$s" "$s"; done
    printf 'index\nindex\nscan\nregions\n'
  } > "$room/in"
  disked DISK_LATE="$room/late" "$hlr" --journal "$journal" < "$room/in" > "$room/out"
  is 'long reports: status' "$?" 0
  "$hlr" < "$room/in" > "$room/want"
  same 'long reports' "$room/out" "$room/want"
  slowly < "$room/in" | head -n 9100 | disked DISK_LATE="$room/late" "$hlr" --journal "$journal" > /dev/null
  is 'replies that were handed on before a sync' "$(bytes_of "$room/late")" 0
  # The preload sees these replies and the writes of the journal: where syncs don't count, it notes replies.
  begun
  records 1 60 > "$room/in"
  disked DISK_LATE="$room/late" DISK_MUTE=1 "$hlr" --journal "$journal" < "$room/in" > /dev/null
  [ "$(bytes_of "$room/late")" -gt 0 ] || fail 'the preload sees no reply'
}

# told: what the replies in $room/out tell of the rows, in the form of the answers to `asked`.
told() {
  awk -F, '{ if ($0 == "ok") { s = (NR - 1) % 50 + 1; if (NR <= 50) is[s] = 1; at[s] = NR } }
    END { for (s = 1; s <= 50; s++) print (s in is) ? s "," at[s] : "none" }' "$room/out"
}

# With each piece of memory refused while a snapshot is made, a restart has what was replied to.
no_memory_for_a_snapshot() {
  local call=0
  while true; do
    call=$((call + 1))
    long_begun
    probed refuse $call "$hlr" --journal "$journal" --snapshot-at 1 < <(records 80001 80020) > "$room/out" 2> "$room/err"
    status=$?
    [ -f "$room/probed" ] || break
    if [ $status != 0 ]; then is "memory $call refused" "$(cat "$room/err")" 'hlr: no memory'; fi
    kept "a journal with a snapshot due, with memory $call refused" 80000
  done
  echo "$((call - 1)) pieces of memory refused while a snapshot is due"
}

# With each piece of memory refused, a restart has what was replied to, and nothing else.
no_memory() {
  local call=0
  records 1 60 > "$room/in"
  while true; do
    call=$((call + 1))
    begun
    probed refuse $call "$hlr" --journal "$journal" < "$room/in" > "$room/out" 2> "$room/err"
    status=$?
    [ -f "$room/probed" ] || break
    if [ $status != 0 ]; then is "memory $call refused" "$(cat "$room/err")" 'hlr: no memory'; fi
    asked
    awk -F, '{ print ($1 == "subscriber") ? $2 "," $NF : "none" }' "$room/rows" > "$room/at"
    told > "$room/want"
    same "a restart with memory $call refused before" "$room/at" "$room/want"
  done
  echo "$((call - 1)) pieces of memory refused"
}

with_threads() {
  hlr_on --journal "$journal" --threads < /dev/null
  ends '--journal with --threads' 2 '' $'hlr: --journal can\'t be used with --threads\n'
}

built "$hlr" 'run rt run in crates/hlr' || finish
tool gcc 'a journal' || finish
probe_made || finish
disk_made || finish
restarts
all_kinds
snapshots
kills
lost_writes
each_call
each_image
no_room_for_a_snapshot
copies
locked
other_files
long_lines
failing_disks
in_time
no_memory
no_memory_for_a_snapshot
with_threads
finish
