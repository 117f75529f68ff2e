#!/usr/bin/env bash
# The library for C, and its header: clients in C, also under valgrind and with a small stack, and one in Python.
. "$(dirname "$0")/lib.sh" || exit 1
. tests/outside/c_lib.sh || exit 1
header=crates/hlr_c/hlr.h
in_library=tests/outside/library
strict=(-Wconversion -Wsign-conversion -Wpedantic)

# client NAME WORD ..: compiles a client with the library.
client() { compiled "$1" -std=c11 -pthread -Icrates/hlr_c "${@:2}" "$archive" "$(kit_archive)"; }

# The header is read by C++, and has the library's layout, codes, names of codes, parameters and refusals, as its sources
# have them, and the program's version.
headers() {
  if tool g++ 'hlr.h in C++'; then
    printf '#include "hlr.h"\nhlr handle = HLR_CLOSED;\n' > "$room/header.cc"
    is 'hlr.h is read by C++' "$(g++ -Wall -Wextra -Werror -fsyntax-only -Icrates/hlr_c "$room/header.cc" 2>&1; echo "$?")" 0
  fi
  awk -f "$in_library/layout.awk" crates/hlr_c/src/{rows,kept,kept_part,handle,part,owing,codes}.rt crates/tatp_rows/src/{refusal,ranges}.rt \
    crates/tatp_actions/src/cells.rt crates/part_table/src/{region,bounds}.rt > "$room/layout.h"
  is "hlr.h has the library's layout" "$(gcc -std=c11 -Wall -Wextra -Werror -fsyntax-only -I"$room" -Icrates/hlr_c "$in_library/layout.c" 2>&1; echo "$?")" 0
  awk -f "$in_library/calls.awk" "$header" | sort > "$room/declared"
  awk -f "$in_library/calls.awk" crates/hlr_c/src/*.rt | sort > "$room/wanted"
  is 'calls of hlr.h that are compared' "$(wc -l < "$room/declared")" "$(grep '^uint8_t ' "$header" | grep -vcE ' hlr_(file_[a-z_]*|journal|snapshot|sync|journal_end)\(')"
  same "hlr.h has the library's calls" "$room/declared" "$room/wanted"
  is 'the version of hlr.h' "$(sed -n 's/^#define HLR_VERSION_[A-Z]* //p' "$header" | paste -sd .)" \
    "$(sed -n 's/^const VERSION: &str = "\(.*\)";$/\1/p' crates/hlr/src/options.rt)"
  awk -f "$in_library/names.awk" crates/tatp_rows/src/refusal.rt > "$room/names"
  if compiled names.run -std=c11 -Icrates/hlr_c "$in_library/names.c"; then ended 'names of codes' "$room/names" "$room/names.run"; fi
}

# A day in C: as it is, under valgrind, and in a thread with a small stack.
days() {
  local day=examples/library/day
  client day "$day.c" || return
  ended 'a day in C' "$day.stdout" "$room/day"
  if tool valgrind 'a day in C under it'; then
    ended 'a day in C under valgrind' "$day.stdout" valgrind -q --leak-check=full --error-exitcode=9 "$room/day"
  fi
  compiled day.o -std=c11 -Icrates/hlr_c -Dmain=day_main -c "$day.c" || return
  client small_stack "$in_library/small_stack.c" "$room/day.o" || return
  ended 'a day in C with a small stack' "$day.stdout" "$room/small_stack"
}

# program_of HEADER: prints the program in the first comment of a header.
program_of() { sed -n '/^ \*     #include </,/^ \*     }$/s/^ \* \{0,5\}//p' "crates/hlr_c/$1"; }

# output_of HEADER: prints what that comment says of the program's output.
output_of() { sed -n 's/^ \* It prints "\([^"]*\)".*/\1/p' "crates/hlr_c/$1"; }

# The programs with which hlr.h and hlr.hpp begin are compiled, and print what is said there.
heads() {
  program_of hlr.h > "$room/head.c"
  if client head "${strict[@]}" "$room/head.c"; then ended 'the program in hlr.h' <(output_of hlr.h) "$room/head"; fi
  tool g++ 'the program in hlr.hpp' || return
  program_of hlr.hpp > "$room/head.cc"
  files_made || return
  if g++ -std=c++17 -O2 -Wall -Wextra "${strict[@]}" -Werror -Icrates/hlr_c "$room/head.cc" "$room/hlr_file.o" "$archive" "$(kit_archive)" \
    -o "$room/head_cc"; then
    ended 'the program in hlr.hpp' <(output_of hlr.hpp) "$room/head_cc"
  else
    fail "the program in hlr.hpp isn't compiled"
  fi
}

# The examples of the pages, by the strictest warnings; the one with threads also under valgrind.
examples() {
  if client first "${strict[@]}" examples/library/first.c; then
    ended 'first.c' <(printf 'Done, Done, Done\nsubscribers in area 2: 1\n') "$room/first"
  fi
  client parts "${strict[@]}" examples/library/parts.c || return
  printf '128 subscribers in area 1\n1 bound moved: part 1 begins at 33 now\n' > "$room/parts.want"
  ended 'parts.c' "$room/parts.want" "$room/parts"
  if tool valgrind 'parts.c under it'; then
    ended 'parts.c under valgrind' "$room/parts.want" valgrind -q --leak-check=full --error-exitcode=9 "$room/parts"
  fi
}

# Each field comes back as it went in; many questions are answered as one is; pages show each row once; and a handle that
# goes from thread to thread, which tells 1,000 rows in both cells.
clients() {
  if client rows "$in_library/rows.c"; then ended 'rows go in and come back' /dev/null "$room/rows"; fi
  if client many "$in_library/many.c"; then ended 'many questions in one call' /dev/null "$room/many"; fi
  if client pages "$in_library/pages.c"; then ended 'rows by pages' /dev/null "$room/pages"; fi
  if client handed "$in_library/handed.c"; then ended 'a handle that is handed over' <(echo 0 1000 1000 0 254) "$room/handed"; fi
}

# Parts that are lent to threads, by two registers, and without memory: as it is, and under valgrind.
lent() {
  client lent "$in_library/lent.c" -Wl,--wrap=malloc,--wrap=realloc || return
  ended 'parts that are lent' /dev/null "$room/lent"
  if tool valgrind 'parts that are lent under it'; then
    ended 'parts that are lent under valgrind' /dev/null valgrind -q --fair-sched=try --leak-check=full --error-exitcode=9 "$room/lent"
  fi
}

# Calls that read take and give back no memory, here and in a forked child, nor do those that change a row in place.
no_memory() {
  client no_memory -D_GNU_SOURCE -Wconversion "$in_library/no_memory.c" -Wl,--wrap=malloc,--wrap=realloc,--wrap=free || return
  ended 'calls that take no memory' /dev/null "$room/no_memory"
}

# Registers of 1 to 16 parts are closed, and give all their memory back: valgrind tells what is left.
closed() {
  client closed "$in_library/closed.c" || return
  ended 'registers of 1 to 16 parts are closed' /dev/null "$room/closed"
  if tool valgrind 'registers of 1 to 16 parts under it'; then
    ended 'registers of 1 to 16 parts are closed under valgrind' /dev/null valgrind -q --leak-check=full --error-exitcode=9 "$room/closed"
  fi
}

# Trees of height 4 and 5, with keys that fall and keys that are drawn.
tall() {
  client tall "$in_library/tall.c" || return
  ended 'tall trees' /dev/null "$room/tall"
}

# A register that can't be saved leaves the file as it was, and save.c says why. Loose pieces are saved as well.
backups() {
  client backups "${strict[@]}" -Iexamples/library "$in_library/saved.c" || return
  printf "save: rows.csv isn't replaced: %s\n" Away Away NotOpen > "$room/told"
  printf 'save: %s\n' 'there can be no file /nowhere/rows.csv.new' "rows.csv isn't replaced: the new file can't be written" >> "$room/told"
  (cd "$room" && ./backups rows.csv > out 2> err)
  status=$?
  ends 'backups in C' 0 '' "$(cat "$room/told")"$'\n'
}

# A register is saved as records, which the client itself and the program load again: each record is as it was.
saved() {
  tool python3 'a register that is saved' || return
  client save "${strict[@]}" examples/library/save.c || return
  python3 bench/tatp_load.py 300 0 2> /dev/null | grep -E '^(sub|acc|fac|icf),' > "$room/records"
  "$room/save" < "$room/records" > "$room/saved"
  is 'a register is saved' "$?" 0
  same 'what is saved' <(sort "$room/saved") <(sort "$room/records")
  "$room/save" < "$room/saved" > "$room/again"
  same 'what is saved again' "$room/again" "$room/saved"
  program_built || return
  { cat "$room/saved"; echo scan; } | "$hlr" | grep -v '^ok$' > "$room/scanned"
  { cat "$room/records"; echo scan; } | "$hlr" | grep -v '^ok$' > "$room/wanted"
  same 'the counts of what is saved' "$room/scanned" "$room/wanted"
  [ -s "$room/scanned" ] || fail 'nothing is counted of what is saved'
}

# A day in Python, by the shared library.
python() {
  tool python3 'day.py of examples/library' || return
  shared libhlr.so || return
  is 'a day in Python' "$(python3 examples/library/day.py "$room/libhlr.so")" \
    $'hlr_open 0\nhlr_add_subscriber 0\nhlr_update_location 0\nhlr_subscriber_data 0\n7 7 1 536870912\nhlr_add_access 0\nhlr_access_data 0\n255 4 ABC VWXYZ\nhlr_subscriber_data 3\nhlr_close 0\nhlr_close 254'
}

tool gcc 'the library for C' || finish
headers
archive_built || finish
heads
days
examples
clients
lent
no_memory
closed
tall
backups
saved
python
finish
