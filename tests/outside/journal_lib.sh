# shellcheck shell=bash disable=SC2034,SC2154
# What the parts share that test journals. It is read after lib.sh and c_lib.sh.
#
# The records are numbered. Those from 1 to 50 add the subscribers of these s_ids, and each later one moves the next of them
# to the location of its number. So the locations tell which records a journal has.
rounds=${ROUNDS:-100}
journal=$room/rows.journal
# the last record that the journal is known to have
reached=0
# how often a power failure has left other bytes, or another file, than were written
lost=0
renamings_lost=0

# records FROM TO: these records, as fast as they are read.
records() {
  awk -v from="$1" -v to="$2" 'BEGIN {
    for (j = from; j <= to; j++) {
      s = (j - 1) % 50 + 1
      if (j > 50) printf "ul,%015d,%d\n", s, j
      else printf "sub,%d,%015d,0000000000,0000000000,00000000000000000000,1,%d\n", s, s, j
    }
  }'
}

# begun: there is no journal, and nothing of one.
begun() {
  rm -rf "$journal" "$journal.new" "$journal.next" "$room"/synced.*
  reached=0
}

# disked WORD .. COMMAND: runs it over the preload of a disk, with variables of that.
disked() { env LD_PRELOAD="$room/disk.so" "$@"; }

# begins PROCESS: waits for its first reply, and then for a while.
begins() {
  local turn
  for ((turn = 0; turn < 1000; turn++)); do
    [ ! -s "$room/out" ] || break
    kill -0 "$1" 2> /dev/null || break
    sleep 0.01
  done
  sleep "0.0$((RANDOM % 90 + 10))"
}

# killed COMMAND ..: the command replies to records behind $reached until it is killed.
killed() {
  local process
  : > "$room/out"
  "$@" <&0 > "$room/out" &
  process=$!
  begins "$process"
  kill -9 "$process" 2> /dev/null
  wait "$process" 2> /dev/null
}

# left SEED: the journal is what a power failure leaves of it. A renaming that isn't on the disk is lost by each odd seed.
left() {
  local synced=$room/synced.named
  if [ -e "$synced" ] && (($1 % 2)); then
    mv "$synced" "$journal"
    lost=$((lost + 1))
    renamings_lost=$((renamings_lost + 1))
  fi
  rm -f "$synced"
  synced=$room/synced.$(stat -c %i "$journal" 2> /dev/null)
  [ -e "$synced" ] || return 0
  cmp -s "$synced" "$journal" || lost=$((lost + 1))
  "$room/mix" "$synced" "$journal" "$room/left" "$1" && mv "$room/left" "$journal"
}

# disk_made: compiles the preload of a disk, and what mixes the bytes that a power failure leaves.
disk_made() {
  compiled disk.so -shared -fPIC tests/preload/disk.c -ldl && compiled mix tests/preload/mix.c
}
