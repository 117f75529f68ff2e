#!/usr/bin/env bash
# What the pages show: in a fence each line after a $ is a command that prints what stands below it, up to the next $ or the
# fence's end. A backslash at its end carries a command on. A command that names a path of the repository runs at the top.
# Any other one runs in a copy of the examples that dist.sh installs, with the installed program and libraries, as the pages
# tell their readers. The commands of a page run in their order and in one folder, so that one may use what another made.
# redis-cli talks to a server that is started with the module and the settings of docs/REDIS.md, and begins each page empty.
. "$(dirname "$0")/lib.sh" || exit 1
. tests/outside/c_lib.sh || exit 1
top=$PWD
tree=$room/installed/dist

# shown PAGE: writes each command of a page to $room/PAGE.NN, and what stands below it to $room/PAGE.NN.want; prints these
# names without .want.
shown() {
  awk -v name="$room/$(basename "$1")" '
    /^ *```/ { to = ""; is_open = !is_open; next }
    is_open && /^[$] / { to = sprintf("%s.%02d", name, ++count); print to; $0 = substr($0, 3); is_command = 1 }
    to == "" { next }
    is_command { print > to; is_command = /\\$/; if (!is_command) printf "" > (to ".want"); next }
    { print > (to ".want") }' "$1"
}

# at_top COMMAND: whether it names a path of the repository.
at_top() { grep -qE '(^|[^A-Za-z0-9_/.-])(\./)?(bench|crates|docs|examples|python|tests|tools)/|\./[a-z]+\.sh|=python ' <<< "$1"; }

# needs COMMAND: whether the built programs that it names are there, and the server if it asks one.
needs() {
  local programs program
  if [[ $1 =~ redis-cli|redis/ && -z $server ]]; then return 1; fi
  if [[ $1 == /usr/bin/python3* ]] && ! (cd / && /usr/bin/python3 -c 'import redis' 2> /dev/null); then
    skip python3-redis "$1"
    return 1
  fi
  if [[ $1 == *-lhiredis* && ! -f /usr/include/hiredis/hiredis.h ]]; then
    skip libhiredis-dev "$1"
    return 1
  fi
  mapfile -t programs < <(grep -oE 'crates/[a-z_]+/out/[A-Za-z_.]+' <<< "$1" | sort -u)
  for program in ${programs[@]+"${programs[@]}"}; do
    built "$program" "run rt run in ${program%/out/*}" || return
  done
}

# run_page PAGE: runs its commands, and compares what they print.
run_page() {
  local each command folder
  folder=$room/pages/$(tr / _ <<< "$1")
  mkdir -p "$room/pages"
  cp -r "$tree/share/doc/hlr/examples" "$folder"
  [ -z "$server" ] || redis-cli FLUSHALL > "$room/out"
  for each in $(shown "$1"); do
    shown=$((shown + 1))
    command=$(cat "$each")
    needs "$command" || continue
    if at_top "$command"; then cd "$top" || exit 1; else cd "$folder" || exit 1; fi
    bash -c "$command" > "$room/out" 2>&1 < /dev/null
    cd "$top" || exit 1
    same "$1: $command" "$room/out" "$each.want"
  done
}

# server_started: starts a server on a free port with the lines of docs/REDIS.md, and makes redis-cli talk to it as at a terminal.
server_started() {
  local port settings=$room/server/redis.conf program
  for needed in redis-server redis-cli; do tool "$needed" 'what the pages show of the module' || return; done
  program=$(command -v redis-cli)
  mkdir -p "$room/server" "$room/bin"
  sed -n '/^loadmodule /,/^```$/p' docs/REDIS.md | sed "/^\`\`\`$/d; s,/usr/lib/redis,$tree/lib/redis," > "$settings"
  is 'settings of docs/REDIS.md' "$(grep -c . "$settings")" 11
  # none of those that the system gives to others meanwhile
  port=$(cd tests/outside/redis && python3 -c 'import servers; print(servers.free_port())')
  # shellcheck disable=SC2016
  printf '#!/bin/sh\nexec %s -p %s --no-raw "$@"\n' "$program" "$port" > "$room/bin/redis-cli"
  chmod +x "$room/bin/redis-cli"
  redis-server "$settings" --bind 127.0.0.1 --port "$port" --dir "$room/server" > "$room/server/log" 2>&1 &
  server=$!
  export REDIS_URL=redis://127.0.0.1:$port PATH=$room/bin:$PATH
  for _ in {1..200}; do [ "$(redis-cli PING 2>&1)" != PONG ] || return 0; sleep 0.05; done
  fail 'the server of the pages'
  tail -n 5 "$room/server/log"
}

for needed in gcc g++ python3 pkg-config; do tool "$needed" 'what the pages show' || finish; done
program_built || finish
archive_built || finish
installable installed
is 'dist.sh' "$("$room/installed/dist.sh" 2>&1 | grep -v 'no Debian package')" ''
unset HLR_LIBRARY
export PATH=$tree/bin:$PATH LD_LIBRARY_PATH=$tree/lib PKG_CONFIG_PATH=$tree/lib/pkgconfig
export PYTHONPATH=$tree/lib/python3/dist-packages PYTHONDONTWRITEBYTECODE=1
server=
trap '[ -z "$server" ] || { kill "$server"; wait "$server"; }; rm -rf "$room"' EXIT
server_started
shown=0
for page in README.md CONTRIBUTING.md CHANGELOG.md docs/*.md examples/README.md bench/README.md; do run_page "$page"; done
is 'pages show commands' "$([ "$shown" -gt 20 ] && echo yes)" yes
finish
