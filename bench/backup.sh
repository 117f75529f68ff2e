#!/usr/bin/env bash
# How long it takes to load the records of SUBSCRIBERS and to save them again, in C by save.c of the examples and in Python
# by hlr.load and hlr.save: processor time, three times each.
#
#   bench/backup.sh [SUBSCRIBERS]     20000, and at most 100000; at the top, once `rt lib --cpu x86-64` ran in crates/hlr_c
set -eu
cd "$(dirname "$0")/.."
library=${LIBRARY:-crates/hlr_c/out/libhlr_c.a}
kit=$(dirname "$(rt doc)")/c/liblibc_c.a
room=$(mktemp -d)
trap 'rm -rf "$room"' EXIT

python3 bench/tatp_load.py "${1:-20000}" 0 | grep -v views > "$room/records"
echo "$(wc -l < "$room/records") records, $(wc -c < "$room/records") bytes"
gcc -O2 -Icrates/hlr_c -Iexamples/library bench/backup.c "$library" "$kit" -o "$room/backup"
gcc -shared -fPIC -Icrates/hlr_c crates/hlr_c/hlr_file.c -Wl,--whole-archive "$library" -Wl,--no-whole-archive "$kit" -o "$room/libhlr.so.1"
cat > "$room/backup.py" << 'END'
import sys, time, hlr
start = time.process_time()
with open(sys.argv[1]) as records, hlr.load(records) as register:
    loaded = time.process_time()
    with open(sys.argv[2], "w") as file:
        hlr.save(register, file)
    print(f"Python: load {loaded - start:.2f} s, save {time.process_time() - loaded:.2f} s")
END
for _ in 1 2 3; do
  "$room/backup" "$room/records" "$room/rows.csv"
  HLR_LIBRARY=$room/libhlr.so.1 PYTHONPATH=python python3 "$room/backup.py" "$room/records" "$room/rows.csv"
done
