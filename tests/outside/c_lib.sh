# shellcheck shell=bash disable=SC2034,SC2154
# What the parts share that compile C: the library's archive, and the preload of tests/preload. It is read behind lib.sh.
archive=crates/hlr_c/out/libhlr_c.a
sanitizers=(-g -fsanitize=address -fsanitize=undefined -fno-sanitize-recover=undefined)

archive_built() { built "$archive" 'run crates/hlr_c/archive.sh behind rt ci, or rt lib --cpu x86-64 in crates/hlr_c'; }

# compiled NAME WORD ..: gcc with these words makes $room/NAME.
compiled() {
  gcc -O2 -Wall -Wextra -Werror "${@:2}" -o "$room/$1" || { fail "$1 isn't compiled"; return 1; }
}

# ended NAME OUT COMMAND ..: a command says what the file OUT has, nothing else, and ends well.
ended() {
  "${@:3}" > "$room/out" 2> "$room/err"
  is "$1: status" "$?" 0
  same "$1: standard output" "$room/out" "$2"
  is "$1: standard error" "$(cat "$room/err")" ''
}

# kit_archive: prints where the kit has what the library for C asks of the C library.
kit_archive() { echo "$(dirname "$(rt doc)")/c/liblibc_c.a"; }

# files_made: compiles the calls that use files to $room/hlr_file.o.
files_made() { compiled hlr_file.o -std=c99 -Wconversion -Icrates/hlr_c -c crates/hlr_c/hlr_file.c; }

# shared NAME: makes the library for C a shared object, $room/NAME, with the calls that use files.
shared() {
  compiled "$1" -shared -fPIC -std=c99 -Icrates/hlr_c crates/hlr_c/hlr_file.c -Wl,--whole-archive "$archive" \
    -Wl,--no-whole-archive "$(kit_archive)" -Wl,-z,defs
}

# probe_made: compiles the preload, tests/preload/probe.c.
probe_made() { compiled probe.so -shared -fPIC tests/preload/probe.c -ldl; }

# probed MODE CALL COMMAND ..: runs it under the preload; $room/probed is what that wrote.
probed() {
  rm -f "$room/probed"
  PROBE_MODE=$1 PROBE_CALL=$2 PROBE_FILE=$room/probed LD_PRELOAD=$room/probe.so "${@:3}"
}

# installable NAME: what dist.sh reads of the repository, in the folder $room/NAME.
installable() {
  mkdir "$room/$1"
  cp --parents dist.sh tools/man.awk crates/hlr/src/options.rt crates/hlr_c/hlr{.h,.hpp,_file.c} "$archive" crates/hlr/out/hlr \
    python/hlr/*.py examples/live/*.* examples/redis/*.* examples/library/*.{c,cc,py} examples/*.csv examples/client.* \
    tests/outside/library/day.cc redis/* README.md CHANGELOG.md docs/*.{md,svg,png} examples/README.md "$room/$1"
}
