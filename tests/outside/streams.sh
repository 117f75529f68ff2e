#!/usr/bin/env bash
# What can go wrong with the streams: they end, fail, close or are full, anywhere.
. "$(dirname "$0")/lib.sh" || exit 1

# cut_off LINES STATUS ERR [OPTION ..]: the program on $room/in, whose answers are read no further than so many lines.
cut_off() {
  local name="standard output closed after $1 lines, with ${*:4} "
  ("$hlr" "${@:4}" < "$room/in" 2> "$room/err"; echo $? > "$room/status") | head -n "$1" > "$room/out"
  status=$(cat "$room/status")
  head -n "$1" "$room/wanted" > "$room/front"
  is "$name: status" "$status" "$2"
  same "$name" "$room/out" "$room/front"
  is "$name: standard error" "$(cat "$room/err")" "$3"
}

# What can go wrong with the streams.
streams() {
  local most=1048576 subscribers=10000 blocks
  "$hlr" "$@" <<< views > /dev/full 2> "$room/err"
  is "a full device $*: status" "$?" 1
  is "a full device $*: standard error" "$(cat "$room/err")" 'hlr: write fault'
  hlr_on "$@" < /
  ends "a folder as input $*" 1 '' $'hlr: read fault\n'
  hlr_on "$@" < /dev/null
  ends "an empty input $*" 0 '' ''
  yes views | head -n "$most" > "$room/in"
  yes views,0 | head -n "$most" > "$room/wanted"
  hlr_on "$@" < "$room/in"
  is "the most records $*: status" "$status" 0
  same "the most records $*" "$room/out" "$room/wanted"
  cut_off 1 1 'hlr: write fault' "$@"
  hlr_on "$@" < <(yes views)
  is "records without an end $*: status" "$status" 1
  same "records without an end $*" "$room/out" "$room/wanted"
  is "records without an end $*: standard error" "$(cat "$room/err")" 'hlr: read fault'
  # with threads 4,096 of these are pending again and again, and the last ones at the end
  yes refused,3,NoSubscriber | head -n "$most" > "$room/wanted"
  hlr_on "$@" < <(yes gsd,7)
  is "events without an end $*: status" "$status" 1
  same "events without an end $*" "$room/out" "$room/wanted"
  is "events without an end $*: standard error" "$(cat "$room/err")" 'hlr: read fault'
  # an index of 300 KB, of which a pipe holds 64
  seq "$subscribers" | awk '{ printf "sub,%d,%015d,0000000000,0000000000,00000000000000000000,1,1\n", $1, $1 }' > "$room/in"
  echo index >> "$room/in"
  hlr_on "$@" < "$room/in"
  is "a long index $*: status" "$status" 0
  seq "$subscribers" | awk '{ print "ok" } END { for (i = 1; i <= NR; i++) printf "number,%015d,%d\n", i, i; print "index," NR }' > "$room/wanted"
  same "a long index $*" "$room/out" "$room/wanted"
  cut_off $((subscribers + 3)) 1 'hlr: write fault' "$@"
  # a file that takes so many KB: less than a block, one and a half, and four and a half
  for blocks in 1 96 288; do
    (trap '' XFSZ; ulimit -f "$blocks"; exec "$hlr" "$@" < "$room/in" > "$room/out" 2> "$room/err")
    is "a device with $blocks KB $*: status" "$?" 1
    head -c "$((blocks * 1024))" "$room/wanted" > "$room/front"
    same "a device with $blocks KB $*" "$room/out" "$room/front"
    is "a device with $blocks KB $*: standard error" "$(cat "$room/err")" 'hlr: write fault'
  done
}

program_built || finish
streams
streams --threads
finish
