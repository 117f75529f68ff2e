#!/usr/bin/env bash
# The program with threads, while memory is refused with which workers are started.
. "$(dirname "$0")/lib.sh" || exit 1
. tests/outside/c_lib.sh || exit 1
. tests/outside/refused_lib.sh || exit 1
. tests/outside/refused_scripts.sh || exit 1

# Where a run with threads ends whose workers only read: after how many answers, with which fault, and how often. The
# third record starts the first worker, and the fourth the second one; the report brings them home, and the last two
# records start them again. A start wants a worker's queue, its list of replies and what it shares, and a piece for the
# thread itself; before the first record and the one behind the report the engine makes room for its replies too. The lists
# of workers that came home are kept, so behind the report a start wants one piece less. The first start of all also wants
# the count of pops that the workers share.
starts_refused() {
  local command=("$hlr" --threads --parts 2 --zone 4) call=0 status lines all each
  begin
  {
    row 7
    row 100
    printf 'gsd,7\ngsd,100\nviews\ngsd,7\ngsd,100\n'
  } > "$room/script"
  "${command[@]}" < "$room/script" > "$room/wanted" || exit 1
  : > "$room/ends"
  while true; do
    call=$((call + 1))
    probed refuse $call "${command[@]}" < "$room/script" > "$room/got" 2> "$room/err"
    status=$?
    [ -f "$room/probed" ] || break
    lines=$(wc -l < "$room/got")
    cmp -s "$room/got" <(head -n "$lines" "$room/wanted") || fail "the answers with allocation $call of an engine refused"
    if [ $status != 0 ]; then
      has_ended "allocation $call of an engine refused" 'hlr: no thread'
      echo "$lines: $(cat "$room/err")" >> "$room/ends"
    fi
  done
  all=$(wc -l < "$room/wanted")
  each=$(grep -c '^2: hlr: no memory$' "$room/ends")
  [ "$each" -gt 2 ] || fail "only $each growths of a worker's start were refused"
  for lines in 2 3 $((all - 2)) $((all - 1)); do
    call=$((each - 1))
    if [ "$lines" = 2 ]; then call=$each; fi
    if [ "$lines" = $((all - 1)) ]; then call=$((each - 2)); fi
    [ "$(grep -c "^$lines: hlr: no memory$" "$room/ends")" = "$call" ] || fail "growths of a worker's start after $lines answers"
    [ "$(grep -c "^$lines: hlr: no thread$" "$room/ends")" = 1 ] || fail "the memory of a thread after $lines answers"
  done
  ! grep -qvE "^(0|2|3|$((all - 2))|$((all - 1))): " "$room/ends" || fail 'a run of an engine ended elsewhere'
  right
  echo "hlr --threads: the first start of a worker ended $each times with no memory, a later one $((each - 2)) times, and each once with no thread"
}

program_built || finish
probe_made || finish
starts_refused
finish
