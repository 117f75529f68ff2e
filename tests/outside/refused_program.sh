#!/usr/bin/env bash
# The program, with memory refused. It runs a script in which each record that may want memory stands twice. With one piece
# refused it answers all as it does with memory, but for one such record that is refused,1,Memory and done where it stands
# again; or it ends with 'hlr: no memory' after the whole answers to the first records. With --threads a growth that the
# engine itself wants ends the run so, and with 'hlr: no thread' where it is wanted by the start of a thread.
. "$(dirname "$0")/lib.sh" || exit 1
. tests/outside/c_lib.sh || exit 1
. tests/outside/refused_lib.sh || exit 1
. tests/outside/refused_scripts.sh || exit 1

# alike ANSWERS: those to $room/script are as in $room/wanted, but for what was refused; prints what was.
alike() { awk -v wanted="$room/wanted" -v script="$room/script" -f tests/outside/alike.awk "$1"; }

# program NAME WORDS OPTION ..: the program with these options answers $room/script, whichever allocation is refused;
# each of the words, one a line, is of a record that is refused in some run.
program() {
  local name=$1 words=$2 command=("$hlr" "${@:3}") call=0 ended=0 refused=0 unseen=0 status word thread=
  if [ "$3" = --threads ]; then thread='hlr: no thread'; fi
  begin
  : > "$room/words"
  "${command[@]}" < "$room/script" > "$room/wanted" || exit 1
  ! grep -q '^refused,2,Field$' "$room/wanted" || fail 'a record of the script has a field out of range'
  alike "$room/wanted" || fail 'the answers are not those of the script'
  while true; do
    call=$((call + 1))
    probed refuse $call "${command[@]}" < "$room/script" > "$room/got" 2> "$room/err"
    status=$?
    [ -f "$room/probed" ] || break
    if ! alike "$room/got" >> "$room/words"; then
      fail "the answers of $name with allocation $call refused"
    elif [ $status = 0 ]; then
      if cmp -s "$room/got" "$room/wanted"; then unseen=$((unseen + 1)); else refused=$((refused + 1)); fi
      [ "$(wc -l < "$room/got")" = "$(wc -l < "$room/wanted")" ] || fail "answers of $name are missing with allocation $call refused"
      [ ! -s "$room/err" ] || fail "a complaint of $name with allocation $call refused: $(cat "$room/err")"
    else
      ended=$((ended + 1))
      has_ended "allocation $call of $name refused" "$thread"
    fi
  done
  while IFS= read -r word; do
    grep -q "^$word$" "$room/words" || fail "no $word of $name was refused"
  done <<< "$words"
  [ $ended -gt 0 ] || fail "no run of $name was ended"
  right
  echo "$name: $((call - 1)) allocations refused: $refused times one record, $ended times the run ended, $unseen times all answers were as with memory"
  sort "$room/words" | uniq -c | sort -rn | awk '{ count = $1; $1 = ""; printf " %s: %d", $0, count } END { print "" }'
}

# The program without threads.
program_alone() {
  script > "$room/script"
  program hlr $'sub\nacc\nfac\nicf\nnumber\ngive\ntake\ndivide\ndissolve\nrecut\nwhole recut,2\nloose recut,1\nwhole recut,1\nloose recut,0' --parts 3 --zone 16
}

# The program with threads.
program_threaded() {
  short_script > "$room/script"
  program 'hlr --threads' $'sub\nacc\nfac\nicf\nnumber\ngive\ntake\ndivide\ndissolve\nrecut' --threads --parts 3 --zone 16
}

# The program, which wants memory at once, ends with all refused.
all_refused() {
  local status
  begin
  probed refuse_from 0 "$hlr" < /dev/null > "$room/got" 2> "$room/err"
  status=$?
  has_ended 'all memory refused'
  [ ! -s "$room/got" ] || fail 'an answer with all memory refused'
  right
}

program_built || finish
probe_made || finish
all_refused
program_alone
program_threaded
finish
