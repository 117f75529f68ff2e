#!/usr/bin/env bash
# The Redis module hlr.so, with real servers of Redis. blocks.sh tests its blocks of rows without a server.
#
# The servers listen on loopback and on free ports, have folders of their own, and end with the test, by their process ids. A
# server that the machine runs already isn't used or disturbed. The tests run in two rows side by side, which takes a minute
# on four processors.
. "$(dirname "$0")/lib.sh" || exit 1
. tests/outside/c_lib.sh || exit 1
here=tests/outside/redis
export PYTHONDONTWRITEBYTECODE=1

# module NAME COMPILER WORD ..: builds the module.
module() {
  CC=$2 redis/build.sh "$room/$1" "${@:3}" "$archive" "$(kit_archive)" > "$room/out" 2>&1 && [ ! -s "$room/out" ] && return
  fail "$1 isn't built by $2"
  cat "$room/out"
  return 1
}

# What makes of the module one that can refuse memory.
refusing=(-DTRY_ALLOC=refusing_alloc -DRedisModule_OnLoad=load_module "$here/refuse.c")

# compilers: the module by gcc and by clang, of which it gives out one name and asks for what a C library has.
compilers() {
  local compiler
  for compiler in gcc clang; do
    tool "$compiler" "the module by it" || continue
    module "$compiler.so" "$compiler" -Wl,-z,defs || continue
    is "names of the module by $compiler" "$(nm -D --defined-only "$room/$compiler.so" | awk '{ print $3 }')" RedisModule_OnLoad
    is "malloc in the module by $compiler" "$(nm -D -u "$room/$compiler.so" | awk '$2 ~ /^(malloc|calloc|realloc|free)(@|$)/ { print $2 }')" ''
  done
}

# python_found: a python3 that has python3-redis, or else any. Only hlr.remote needs it. It is looked for from elsewhere,
# because the folder redis of the repository has the same name.
python_found() {
  for python in python3 /usr/bin/python3; do
    if (cd / && "$python" -c 'import redis' 2> /dev/null); then return 0; fi
  done
  python=python3
  skip python3-redis 'the package hlr.remote'
  return 1
}

# row NAME=MODULE ..: runs these tests one after another. What they print goes to files.
row() {
  local one
  for one in "$@"; do timeout -k 10 170 "$python" -W error "$here/${one%%=*}.py" "$room/${one#*=}" > "$room/$one.said" 2>&1; done
}

# servers: all tests with servers, in two rows.
servers() {
  local one first=(replica=gcc.so cluster=gcc.so commands=clang.so)
  local second=(commands=sanitized.so memory=sanitized.so crash=gcc.so hostile=sanitized.so kept=gcc.so rights=gcc.so)
  [ -f "$room/clang.so" ] || cp "$room/gcc.so" "$room/clang.so"
  if python_found && shared libhlr.so.1; then
    export PYTHONPATH=$PWD/python HLR_LIBRARY=$room/libhlr.so.1
    first+=(remote=gcc.so)
  fi
  HLR_PRELOAD=$(gcc -print-file-name=libasan.so):$(gcc -print-file-name=libubsan.so)
  export HLR_PRELOAD
  row "${first[@]}" &
  row "${second[@]}"
  wait
  for one in "${first[@]}" "${second[@]}"; do
    echo "${one/=/ of }:"
    counted cat "$room/$one.said"
  done
}

tool gcc 'the module hlr.so' || finish
archive_built || finish
compilers
for needed in redis-server redis-sentinel redis-cli openssl python3; do tool "$needed" 'the module hlr.so in servers' || finish; done
module sanitized.so gcc "${refusing[@]}" "${sanitizers[@]}" || finish
[ ! -f "$room/gcc.so" ] || servers
finish
