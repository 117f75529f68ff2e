#!/usr/bin/env bash
# Builds the Redis module hlr.so. It needs a C compiler alone, and nothing of Redis.
#
#   redis/build.sh OUT WORD ..    OUT is the module; the words go to the compiler, among them the library's archives or object
#
# CC may name another compiler than gcc. The module gives out RedisModule_OnLoad and nothing else (hlr.map). Its malloc,
# realloc and free are those of memory.c, so that registers have the server's memory.
set -euo pipefail
top=$(cd "$(dirname "$0")/.." && pwd)
out=$1
shift
exec "${CC:-gcc}" -std=gnu11 -O2 -pthread -fPIC -fvisibility=hidden -Wall -Wextra -Wconversion -Werror -I"$top/crates/hlr_c" -I"$top/redis" -shared -o "$out" \
  "$top"/redis/{add,fields,hlr_redis,loading,memory,reads,replies,rows,type,walk,writes}.c "$@" -Wl,--wrap=malloc,--wrap=realloc,--wrap=free \
  -Wl,--version-script="$top/redis/hlr.map" -Wl,-z,relro -Wl,-z,now -Wl,-z,noexecstack -Wl,--build-id=none
