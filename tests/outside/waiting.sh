#!/usr/bin/env bash
# Front ends that wait for each answer, and terminals.
. "$(dirname "$0")/lib.sh" || exit 1

# asks RECORD ANSWER: writes the record to the waiting program, and has the answer before it writes on.
asks() {
  local answer=nothing
  printf '%b' "$1" 2> /dev/null 1>&"$to"
  IFS= read -r -t 5 answer <&"$from"
  is "the answer to $1 before the next record" "$answer" "$2"
}

# asks_block NAME BLOCK ANSWER: the same of a block, which is written at once: printf would write each line by itself.
asks_block() {
  local answer=nothing
  printf '%b' "$2" | dd bs=64K iflag=fullblock status=none 2> /dev/null 1>&"$to"
  IFS= read -r -t 5 answer <&"$from"
  is "the answer to $1" "$answer" "$3"
}

# waiting [OPTION ..]: a front end that waits for each answer.
waiting() {
  local turn from to ended
  coproc HLR { "$hlr" "$@"; echo "status $?"; }
  exec {from}<&"${HLR[0]}" {to}>&"${HLR[1]}"
  # shellcheck disable=SC1083,SC2093
  exec {HLR[1]}>&-
  trap '' PIPE
  asks 'views\n' 'views,0'
  asks 'sub,7,000000000000007,0000000000,0000000000,00000000000000000000,1,268435456\n' 'ok'
  asks 'post,0,51\r\n' 'posted,2'
  asks '\r\ngsd,8\r\n\r\n' 'refused,3,NoSubscriber'
  asks '\n\ngsd,9\n\n\n' 'refused,3,NoSubscriber'
  asks '"gsd","10"\n' 'refused,3,NoSubscriber'
  asks 'gsd,10\n"a\n' 'refused,3,NoSubscriber'
  asks '"\ngsd' 'refused,19,Syntax'
  asks ',12\n' 'refused,3,NoSubscriber'
  for turn in 1 2 3 4 5 6 7 8 9 10; do
    asks "number$turn\n" 'refused,19,Syntax'
  done
  exec {to}>&-
  IFS= read -r -t 5 ended <&"$from"
  is "the end of the input ends the program $*" "$ended" 'status 0'
  exec {from}<&-
  wait "$HLR_PID" 2> /dev/null
}

# letters N: so many letters, which are a record that no command has.
letters() { head -c "$1" /dev/zero | tr '\0' x; }

# The program reads blocks of 65,536 bytes. A record that ends with a block is answered at once; so are the records before
# one that is cut where a block ends, of which the rest comes later.
blocks() {
  local from to ended block=65536
  coproc HLR { "$hlr" "$@"; echo "status $?"; }
  exec {from}<&"${HLR[0]}" {to}>&"${HLR[1]}"
  # shellcheck disable=SC1083,SC2093
  exec {HLR[1]}>&-
  trap '' PIPE
  asks_block 'a record that ends with a block' "$(letters $((block - 1)))\n" 'refused,19,Syntax'
  asks_block 'a record before one that is cut where a block ends' "$(letters $((block - 4)))\ngsd" 'refused,19,Syntax'
  asks ',7\n' 'refused,3,NoSubscriber'
  exec {to}>&-
  IFS= read -r -t 5 ended <&"$from"
  is "the end of the input ends the program $* behind blocks" "$ended" 'status 0'
  exec {from}<&-
  wait "$HLR_PID" 2> /dev/null
}

# A terminal: Ctrl-D ends the input at the beginning of a line, and Ctrl-C the program. Behind half a record the first
# Ctrl-D hands it on, the next one ends the record, and one more the run, since a terminal goes on after an end.
terminal() {
  tool python3 'a terminal' || return
  python3 tests/outside/terminal.py "$hlr" "$@" > "$room/out"
  cat > "$room/want" <<'TEXT'
('views,0\n', 0)
('views,0\nrefused,19,Syntax\n', 0)
('views,0\nrefused,3,NoSubscriber\n', -2)
TEXT
  same "a terminal $*" "$room/out" "$room/want"
}

program_built || finish
terminal
terminal --threads
waiting
waiting --threads
blocks
blocks --threads
finish
