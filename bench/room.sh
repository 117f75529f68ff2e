# shellcheck shell=bash
# For the benches: a repository in /tmp/bench in which a bench is a crate beside copies of the crates that it stands on.
#
#   . bench/room.sh; open_room NAME LIBRARY ..; build_program WORDS     at the repository's top
#
# open_room makes /tmp/bench/NAME (ROOM/NAME) with bench/NAME/main.rt.txt as the program NAME_bench, which uses these
# libraries, and the crates of crates.txt below it, with what `rt check` left in their out/. build_program proves and builds it,
# running it once with the words, and leaves its path in $program. Where BUILD names a command, that builds it as
# `BUILD FILE CRATE`, run in the room.
room=${ROOM:-/tmp/bench}

# copy_crate NAME: the crate, and first those that it uses; a library of the kit is no folder here.
copy_crate() {
  local line used
  [ -d "crates/$1" ] && [ ! -d "$room/crates/$1" ] || return 0
  line=$(grep -E "^$1[ :]" crates.txt)
  for used in ${line#*:}; do copy_crate "$used"; done
  cp -r "crates/$1" "$room/crates/"
  echo "$line" >> "$room/crates.txt"
}

open_room() {
  local name=$1 used
  shift
  room=$room/$name
  rm -rf "$room/crates" "$room/crates.txt"
  mkdir -p "$room/crates/${name}_bench/src"
  cp HANDLES "$room/"
  for used in "$@"; do copy_crate "$used"; done
  echo "${name}_bench: $*" >> "$room/crates.txt"
  cp "bench/$name/main.rt.txt" "$room/crates/${name}_bench/src/main.rt"
  git -C "$room" init -q
  program=$room/crates/${name}_bench/out/${name}_bench
}

# add_invariants MODULE: the file bench/NAME/MODULE.antt.txt, for the loops of that function.
add_invariants() {
  local crate
  crate=$room/crates/$(basename "$room")_bench
  mkdir -p "$crate/proofs/$1"
  cp "bench/$(basename "$room")/$1.antt.txt" "$crate/proofs/$1/Invariants.antt"
}

# add_proofs: each file bench/NAME/PLACE.antt.txt as proofs/PLACE.antt, where a dot in PLACE stands for a slash.
add_proofs() {
  local bench file place proofs
  bench=bench/$(basename "$room")
  proofs=$room/crates/$(basename "$room")_bench/proofs
  for file in "$bench"/*.antt.txt; do
    place=$(basename "$file" .antt.txt)
    place=$proofs/${place//.//}.antt
    mkdir -p "$(dirname "$place")"
    cp "$file" "$place"
  done
}

build_program() {
  local crate
  crate=$(basename "$program")
  mkdir -p "$(dirname "$program")"
  if [ -n "${BUILD:-}" ]; then
    (cd "$room" && "$BUILD" "$program" "$crate")
  else
    (cd "$room/crates/$crate" && rt run -- "$@" > /dev/null)
  fi
}

# instructions PROGRAM WORDS: of a run, by callgrind.
instructions() {
  valgrind --tool=callgrind --callgrind-out-file=/dev/null "$@" 2>&1 > /dev/null | sed -n 's/.*Collected : //p'
}
