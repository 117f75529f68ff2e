#!/usr/bin/env bash
# The library for C is built over the libraries that `rt ci` proved. test.sh runs this part only behind `rt ci`, because
# crates/hlr_c/archive.sh replaces the archive that stands.
. "$(dirname "$0")/lib.sh" || exit 1
if crates/hlr_c/archive.sh > "$room/out" 2>&1; then pass 'the archive is built'; else
  fail 'crates/hlr_c/archive.sh'
  tail -n 5 "$room/out"
fi
finish
