#!/usr/bin/env bash
# The demonstration examples/live, over the shared object: what it answers and how it ends, and its page in Chromium.
. "$(dirname "$0")/lib.sh" || exit 1
. tests/outside/c_lib.sh || exit 1
export PYTHONDONTWRITEBYTECODE=1 PYTHONPATH=$PWD/python HLR_LIBRARY=$room/libhlr.so.1

tool python3 'examples/live' || finish
tool gcc 'examples/live over the library' || finish
archive_built || finish
shared libhlr.so.1 || finish
python=python3
if redis-server --version > "$room/out" 2>&1 && (cd / && /usr/bin/python3 -c 'import redis' 2> "$room/err"); then
  redis/build.sh "$room/hlr.so" "$archive" "$(kit_archive)" || fail "the module isn't built"
  export HLR_MODULE=$room/hlr.so
  python=/usr/bin/python3
else
  skip 'redis-server or python3-redis' 'examples/live over a server'
fi
browser=()
if tool chromium 'the page of examples/live in a browser'; then browser=(chromium); fi
counted timeout 300 "$python" -W error tests/outside/live.py ${browser[@]+"${browser[@]}"}
finish
