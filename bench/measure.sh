#!/usr/bin/env bash
# Measures what docs/SPEED.md has in seconds, on a machine where nothing else runs: the program compared with others, parts, an
# engine, the program with threads, the library for C, threads with lent parts, and the Redis module. First it prints the
# machine, the day and the commit.
#
#   bash bench/measure.sh write      builds the programs to measure beside, and writes the loads; once, before
#   bash bench/measure.sh [NAME ..]  measures: beside, parts, engine, threads, library, sparse, owners, redis; without a name all of
#                                    them but redis, which needs dist.sh before
#
# At the repository's top, once `rt run` ran in crates/hlr and `rt lib --cpu x86-64` in crates/hlr_c; it works in /tmp/bench (ROOM). HLR is
# another program, ENGINE an engine_bench that is built (bench/engine/run.sh builds it).
set -eu
export ROOM=${ROOM:-/tmp/bench}
hlr=${HLR:-crates/hlr/out/hlr}
engine=${ENGINE:-$ROOM/engine/crates/engine_bench/out/engine_bench}
mkdir -p "$ROOM"

write() {
  rustc --edition 2021 -O bench/plain.rs -o "$ROOM/plain"
  rustc --edition 2021 -O --cfg hash bench/plain.rs -o "$ROOM/plain_hash"
  cc -O2 bench/sqlite.c -lsqlite3 -o "$ROOM/sqlite"
  python3 bench/beside.py write
  python3 bench/tatp.py write
  python3 bench/threads.py write
}

measure() {
  case $1 in
    beside) python3 bench/beside.py "$hlr" "$ROOM/plain" "$ROOM/plain_hash" "$ROOM/sqlite" 7 ;;
    parts) python3 bench/tatp.py parts "$hlr" 1,4,16 5 ;;
    engine) PROGRAM=$engine bash bench/engine/run.sh 5 ;;
    threads) python3 bench/threads.py "$hlr" 3 3 ;;
    library) python3 bench/library.py calls 5 ;;
    sparse) python3 bench/library.py sparse 3 100000 ;;
    owners) python3 bench/library.py owners 5 ;;
    redis) over_network dist/lib/redis/modules/hlr.so ;;
  esac
}

# over_network MODULE: the Redis module compared with hashes and scripts, and how registers are saved, loaded and moved.
over_network() {
  python3 bench/redis/run.py "$1" mix --each
  python3 bench/redis/run.py "$1" mix --subscribers 1000000 --turns 3
  python3 bench/redis/run.py "$1" room --subscribers 1000000
  python3 bench/redis/run.py "$1" files --subscribers 1000000 --turns 3
  python3 bench/redis/run.py "$1" move --subscribers 100000
}

# machine: prints on what it is measured, when, and what.
machine() {
  lscpu | sed -n 's/^\(Model name\|CPU(s)\|L[123].* cache\): */\1: /p'
  sed -n 's/^MemTotal: */memory: /p' /proc/meminfo
  echo "kernel: $(uname -r)"
  echo "day: $(date +%F)"
  echo "commit: $(git describe --always --dirty 2> /dev/null || echo 'that is not known')"
  echo
}

if [ "${1:-}" = write ]; then
  write
  exit
fi
machine
for name in "${@:-beside parts engine threads library sparse owners}"; do
  for one in $name; do
    echo "$one, at $(date +%T), $(cut -d' ' -f1 /proc/loadavg) programs ready:"
    measure "$one" || echo "$one failed"
    echo
  done
done
date +%T
