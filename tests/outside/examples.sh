#!/usr/bin/env bash
# Scripts with their answers, and the clients that ask and wait. A script is NAME.csv; NAME.csv.stdout is what it must print,
# and NAME.csv.args its options, a word a line, where it has any, as `rt try --cases` has them.
. "$(dirname "$0")/lib.sh" || exit 1

# scripts [OPTION ..]: each script, with these options beside its own.
scripts() {
  local script words
  for script in examples/*.csv tests/scripts/*.csv; do
    words=()
    if [ -f "$script.args" ]; then mapfile -t words < "$script.args"; fi
    hlr_on ${words[@]+"${words[@]}"} "$@" < "$script"
    is "$script $*: status" "$status" 0
    same "$script $*" "$room/out" "$script.stdout"
    is "$script $*: standard error" "$(bytes_of "$room/err")" 0
  done
}

# clients [OPTION ..]: the clients of examples/ ask and wait.
clients() {
  local moved='subscriber,7,000000000000007,0000000000,0000000000,00000000000000000000,1,536870912'
  is "client.sh $*" "$(examples/client.sh "$hlr" "$@")" $'ok\nok\n'"$moved"
  tool python3 'client.py and day.sh of examples' || return
  is "client.py $*" "$(python3 examples/client.py "$hlr" "$@")" $'ok\nok\n'"$moved"$'\nrefused,3,NoSubscriber\ncell,26,0,1\ncell,40,0,1\nviews,2'
  examples/library/day.sh "$hlr" "$@" > "$room/out"
  is "day.sh $*: its bounds moved" "$(grep -c '^recut,[1-3]$' "$room/out")" 1
  is "day.sh $*: its last line" "$(tail -n 1 "$room/out" | grep -c '^views,')" 1
}

# lost TEXT COMMAND ..: a client whose program or library isn't there says so in one sentence.
lost() {
  "${@:2}" > "$room/out" 2> "$room/err" < /dev/null
  status=$?
  ends "${*:2}" 1 '' "$1"$'\n'
}

# What clients say where there is no program, no library, or a file that is neither.
lost_clients() {
  local none=$room/none file=$room/file client
  : > "$file"
  for client in examples/client.sh examples/library/day.sh; do
    lost "there is no program at $none: run rt run in crates/hlr" "$client" "$none"
    lost "there is no program at $file: run rt run in crates/hlr" "$client" "$file"
  done
  tool python3 'what client.py and day.py say where they find nothing' || return
  lost "there is no program at $none: run rt run in crates/hlr" python3 examples/client.py "$none"
  lost "there is no program at $file: run rt run in crates/hlr" python3 examples/client.py "$file"
  lost 'give the path of libhlr.so: docs/LIBRARY.md tells how it is made' python3 examples/library/day.py
  lost "there is no library at $none: docs/LIBRARY.md tells how it is made" python3 examples/library/day.py "$none"
  lost "there is no library at $file: docs/LIBRARY.md tells how it is made" python3 examples/library/day.py "$file"
}

lost_clients
program_built || finish
scripts
scripts --threads
clients
clients --threads
finish
