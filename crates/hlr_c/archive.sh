#!/usr/bin/env bash
# Proves hlr_c and builds out/libhlr_c.a, for every x86-64 processor, over the libraries that `rt ci` left in
# crates/*/out. `rt lib --cpu x86-64` does so too, but it doesn't take those libraries, and proves all of them again.
set -eu
cd "$(dirname "$0")"
mkdir -p out
rm -f out/libhlr_c.a
kit=$(dirname "$(rt doc)")
words=(--crate-name hlr_c src/lib.rt --crate-type staticlib -L "dependency=$kit/rlibs")
for used in std $(sed -n 's/^hlr_c .*: *//p' ../../crates.txt); do
  if [ -d "$kit/rlibs/$used.rlib" ]; then
    words+=(--extern "$used=$kit/rlibs/$used.rlib")
  else
    words+=(--extern "$used=../$used/out/rlib/$used.rlib")
  fi
done
for library in ../*/out/rlib; do
  words+=(-L "dependency=$library")
done
exec "$kit/bin/rattle" build "${words[@]}" --antt-project "$kit/rattle/logic/antt-project.json" \
  --logic-built "$kit/logic_built" --toolchain "$kit/toolchain" --backend llvm --cpu x86-64 --jobs "$(nproc)" -o out/libhlr_c.a
