#!/usr/bin/env bash
# The Redis module's blocks of rows, and threads that load them, without a server.
. "$(dirname "$0")/lib.sh" || exit 1
. tests/outside/c_lib.sh || exit 1

# blocks NAME WORD ..: rows as bytes, and threads that load them, without a server.
blocks() {
  compiled "$1" -std=gnu11 -g -Wconversion -pthread -Wl,--wrap=malloc "${@:2}" -Iredis -Icrates/hlr_c \
    tests/outside/redis/blocks.c redis/{loading,rows,walk}.c "$archive" "$(kit_archive)"
}

# bytes: blocks of rows under sanitizers and valgrind, with blocks and chunks of the usual size and with small ones, so that
# a register of few rows is cut into many parts.
bytes() {
  local small=(-DBLOCK_BYTES=4096 -DCHUNK_BLOCKS=2)
  blocks blocks "${sanitizers[@]}" && ended 'blocks of rows' /dev/null "$room/blocks" 20000
  blocks small "${sanitizers[@]}" "${small[@]}" && ended 'small blocks of rows' /dev/null "$room/small" 2000
  blocks raced -fsanitize=thread "${small[@]}" && ended 'threads that load' /dev/null "$room/raced" 10
  tool valgrind 'blocks of rows under it' || return
  blocks plain && ended 'blocks of rows under valgrind' /dev/null valgrind -q --leak-check=full --error-exitcode=9 "$room/plain" 300
}

tool gcc 'blocks of rows' || finish
archive_built || finish
bytes
finish
