# shellcheck shell=bash
# For the benches that write files: folders for them, medians, and what other stores take for groups of events.
#
#   . bench/stores.sh; open_files; start_stores KIND; write_store STORE GROUP GROUPS SUBSCRIBERS     at the top
#
# open_files makes the folders $files, on the disk that is to be measured (FILES, or /tmp/bench), and $memory, in
# /dev/shm. start_stores sets the array `stores`: SQLite in both ways to sync, with KIND insert or update, if
# libsqlite3-dev is there, and Redis if redis-server and redis-benchmark are. write_store prints the nanoseconds that an
# event takes by the clock.
files='' memory='' server='' stores=()

open_files() {
  mkdir -p "${FILES:-/tmp/bench}"
  files=$(mktemp -d "${FILES:-/tmp/bench}/files.XXXXXX")
  memory=$(mktemp -d /dev/shm/files.XXXXXX)
  trap close_files EXIT
}

close_files() {
  [ -z "$server" ] || kill "$server"
  rm -rf "$files" "$memory"
}

# note NAME VALUE: adds a value to those that were measured under a name.
note() { echo "$2" >> "$files/noted_$1"; }

# median NAME: of the values under a name.
median() { sort -n "$files/noted_$1" | awk '{ value[NR] = $1 } END { print value[int((NR + 1) / 2)] }'; }

# a_second NAME: how often a second, by the median of nanoseconds, with commas between thousands.
a_second() {
  awk -v took="$(median "$1")" 'BEGIN { printf "%.0f\n", 1e9 / took }' \
    | sed -E ':more; s/([0-9])([0-9]{3})(,|$)/\1,\2\3/; t more'
}

start_stores() {
  if gcc -O2 bench/sqlite_journal.c -lsqlite3 -o "$files/sqlite_journal" 2> /dev/null; then
    stores=("sqlite_full_$1" "sqlite_normal_$1")
  else
    echo "SQLite is left out, because libsqlite3-dev isn't there."
  fi
  if command -v redis-server > /dev/null && command -v redis-benchmark > /dev/null; then
    start_redis
    stores+=(redis)
  else
    echo "Redis is left out, because redis-server and redis-benchmark aren't there."
  fi
}

# Redis replies at a socket of its own, once its file is synced.
start_redis() {
  redis-server --port 0 --unixsocket "$files/redis" --dir "$files" --save '' --appendonly yes --appendfsync always \
    --daemonize no > "$files/redis.log" &
  server=$!
  for _ in $(seq 100); do
    [ ! -S "$files/redis" ] || return 0
    sleep 0.1
  done
  return 1
}

write_store() {
  local synchronous kind
  case $1 in
    redis)
      redis-benchmark -s "$files/redis" -c 1 -P "$2" -n $(($2 * $3)) -r "$4" -d 15 -t set --csv \
        | awk -F '"' 'END { printf "%.0f\n", 1e9 / $4 }'
      ;;
    *)
      IFS=_ read -r _ synchronous kind <<< "$1"
      "$files/sqlite_journal" "$files/db" "$synchronous" "$kind" "$4" "$2" "$3"
      ;;
  esac
}
