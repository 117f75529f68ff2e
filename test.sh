#!/usr/bin/env bash
# All tests: `rt ci` (every proof, the must-fail edits, the tests), then the built program from outside.
#
#   ./test.sh [--no-install]            both; the last line is 'N passed, N failed'
#   ./test.sh [--no-install] program    the built programs and the library alone, as they stand in crates/*/out
#
# CONTRIBUTING.md says how long they take. The parts of the second are scripts of tests/outside, which run side by side; each
# can be run alone.
#
# Where root runs it and apt-get is there, it first installs from Debian's packages those of the tools below that are missing,
# and says which; --no-install leaves that out. A part that lacks a tool says what it skips for that reason, and the last line
# is then 'N skipped, N passed, N failed'.
. "$(dirname "$0")/tests/outside/lib.sh" || exit 1

# The packages of Debian 12 that have the tools which the parts call. What every Debian system has isn't listed.
packages=(binutils chromium clang g++ gcc graphviz libhiredis-dev man-db openssl pkg-config python3 python3-redis redis-sentinel
  redis-server redis-tools shellcheck valgrind)

# installed: installs the packages that are missing.
installed() {
  local package missing=()
  for package in "${packages[@]}"; do
    # shellcheck disable=SC2016
    [ "$(dpkg-query -W -f='${db:Status-Status}' "$package" 2> /dev/null)" = installed ] || missing+=("$package")
  done
  [ "${#missing[@]}" != 0 ] || return 0
  echo "installs from Debian's packages (--no-install leaves it): ${missing[*]}"
  export DEBIAN_FRONTEND=noninteractive
  if apt-get update -q > "$room/apt" 2>&1 && apt-get install -q -y --no-install-recommends "${missing[@]}" >> "$room/apt" 2>&1; then
    pass 'the packages are installed'
  else
    fail "apt-get installs ${missing[*]}"
    tail -n 5 "$room/apt"
  fi
}

# jobs: prints how many proofs may run at once: one for each processor, and for each 5 GB of memory that are free.
jobs() {
  {
    nproc
    awk '/^MemAvailable:/ { print int($2 / 5e6) }' /proc/meminfo
    cat /sys/fs/cgroup/memory.max /sys/fs/cgroup/memory/memory.limit_in_bytes 2> /dev/null | awk '/^[0-9]+$/ { print int($1 / 5e9) }'
  } | sort -n | head -n 1
}

install=yes
if [ "${1:-}" = --no-install ]; then
  install=no
  shift
fi
if [ "$#" -gt 1 ] || [ "${1:-program}" != program ]; then
  echo "test.sh: it takes --no-install and the word program, and not '$*'" >&2
  exit 1
fi
if [ "$install" = yes ] && [ "$(id -u)" = 0 ] && command -v apt-get > /dev/null; then installed; fi
# These parts need only the program, so that the library for C can be built beside them.
first=(options streams bytes waiting views memory journal shell refused_program refused_starts refused_tests)
if [ "${1:-all}" = all ]; then
  # By itself rt ci reckons with up to three times as much memory for a proof, and leaves processors idle for lack of it.
  if [ -z "${RT_JOBS:-}" ] && [ "$(jobs)" -ge 2 ]; then
    RT_JOBS=$(jobs)
    export RT_JOBS
  fi
  counted rt ci
  first+=(archive)
fi
parts "${first[@]}"
parts examples readme docs journal_c threads library blocks dist python live refused_library
# A thread that is woken has to run within 5 ms for wakes to see that it was woken too early. The servers of redis choose
# another master where one doesn't answer in time, and its tests count what is written within a fraction of a second.
parts_alone wakes redis
finish
