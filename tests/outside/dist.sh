#!/usr/bin/env bash
# dist.sh: what it makes, twice alike, and what it installs; clients in C, C++ and Python by pkg-config, with the archive and
# with the shared library; the names that both give out; the manual page; and what it refuses.
. "$(dirname "$0")/lib.sh" || exit 1
. tests/outside/c_lib.sh || exit 1
in_library=tests/outside/library
header=crates/hlr_c/hlr.h
module=lib/redis/modules/hlr.so
version=$(sed -n 's/^const VERSION: &str = "\(.*\)";$/\1/p' crates/hlr/src/options.rt)
unset SOURCE_DATE_EPOCH

# alike NAME FOLDER FOLDER: both have the same files, with the same bytes and modes.
alike() {
  is "$1" "$(diff -r --no-dereference "$2" "$3" 2>&1)" ''
  is "$1: modes" "$(cd "$2" && find . -printf '%M %p %l\n' | sort)" "$(cd "$3" && find . -printf '%M %p %l\n' | sort)"
}

# made: two copies make the same packages, also with other rights, times and places; they have the time that is given.
made() {
  installable one
  installable two
  is 'dist.sh' "$("$room/one/dist.sh" 2>&1; echo "$?")" "$(without_deb; echo 0)"
  is 'dist.sh again' "$(cd / && umask 077 && TZ=Asia/Tokyo LC_ALL=C.UTF-8 "$room/two/dist.sh" 2>&1; echo "$?")" "$(without_deb; echo 0)"
  for package in "hlr-$version-x86_64-linux.tar.gz" ${deb:+"$deb"}; do
    same "$package is the same twice" "$room/one/dist/$package" "$room/two/dist/$package"
  done
  alike 'dist/ is the same twice' "$room/one/dist" "$room/two/dist"
  SOURCE_DATE_EPOCH=1000000000 "$room/two/dist.sh" > /dev/null
  has 'the page has the version and the day' "$room/two/dist/share/man/man1/hlr.1" ".TH HLR 1 \"2001-09-09\" \"hlr $version\""
  is 'owners and days of the tar ball' "$(tar --numeric-owner -tvzf "$room/two/dist/hlr-$version-x86_64-linux.tar.gz" |
    awk '{ print $2, $4 }' | sort -u)" '0/0 2001-09-09'
  [ -z "$deb" ] || is 'owners and days of the Debian package' "$(dpkg-deb -c "$room/two/dist/$deb" | awk '{ print $2, $4 }' | sort -u)" \
    'root/root 2001-09-09'
}

# without_deb: prints what dist.sh says where there is no dpkg-deb.
without_deb() { [ -n "$deb" ] || echo 'no Debian package, since there is no dpkg-deb'; }

# The calls that hlr.h declares, and nothing else, are what archive and shared library give out; hlr.hpp has them all, and
# all codes.
names() {
  local one=$room/one/dist/lib
  sed -n 's/^uint8_t \(hlr_[a-z_]*\)(.*/\1/p' "$header" | sort > "$room/called"
  nm -g --defined-only "$one/libhlr.a" | awk 'NF == 3 { print $3 }' | sort > "$room/global"
  same 'global names of libhlr.a' "$room/global" "$room/called"
  nm -D --defined-only "$one/libhlr.so.1" | awk '{ print $3 }' | sort > "$room/exported"
  { echo HLR_1; sed 's/$/@@HLR_1/' "$room/called"; } | sort > "$room/versioned"
  same 'names that libhlr.so.1 exports' "$room/exported" "$room/versioned"
  ar p "$one/libhlr.a" hlr.o > "$room/hlr.o"
  is 'names that hlr.o asks for' "$(nm -u "$room/hlr.o" | awk 'NF == 2 { print $2 }' | sort | paste -sd ' ')" \
    'free malloc memcpy memmove memset realloc'
  is 'what libhlr.a has' "$(ar t "$one/libhlr.a" | paste -sd ' ')" 'hlr.o hlr_file.o'
  is 'the name that the Redis module exports' "$(nm -D --defined-only "$room/one/dist/$module" | awk '{ print $3 }')" RedisModule_OnLoad
  is 'what the Redis module asks for of malloc' "$(nm -D -u "$room/one/dist/$module" | grep -cE ' (malloc|calloc|realloc|free)(@|$)')" 0
  is 'soname' "$(readelf -dW "$one/libhlr.so.1" | sed -n 's/.*(SONAME).*\[\(.*\)\]$/\1/p')" libhlr.so.1
  grep -o 'hlr_[a-z_]*(' crates/hlr_c/hlr.hpp | tr -d '(' | sort -u > "$room/wrapped"
  # A program in C++ that writes a journal in a way of its own makes the calls hlr_tape_.. on a handle of hlr.h.
  grep -v '^hlr_tape_' "$room/called" > "$room/wanted"
  same 'calls of hlr.hpp' "$room/wrapped" "$room/wanted"
  sed -n 's/^    HLR_\([A-Z_]*\) = [0-9].*/\1/p' "$header" > "$room/codes"
  sed -n 's/^    [a-z_]* = HLR_\([A-Z_]*\),\{0,1\}$/\1/p' crates/hlr_c/hlr.hpp > "$room/wrapped"
  same 'codes of hlr.hpp' "$room/wrapped" "$room/codes"
}

# installed: to a folder, and below another one for use elsewhere.
installed() {
  local python=lib/python3/dist-packages/hlr files
  files=$(printf '%s\n' bin/hlr include/hlr.h include/hlr.hpp lib/libhlr.a lib/libhlr.so lib/libhlr.so.1 lib/pkgconfig/hlr.pc $module \
    python/hlr/*.py $python/built.txt $python/libhlr.so.1 share/man/man1/hlr.1 examples/day.{c,cc,py} \
    examples/first.{c,cc,py} examples/kept.{c,cc,py} examples/parts.{c,py} examples/save.c examples/backup.py examples/*.csv \
    examples/client.{py,sh} examples/live/*.* examples/redis/*.* README.md CHANGELOG.md docs/*.{md,svg,png} examples/README.md |
    sed "s,^python/hlr,$python,; s,^\(README\.\|CHANGELOG\.\|docs/\|examples/\),share/doc/hlr/&," | sort)
  is 'dist.sh install' "$(PREFIX=$room/prefix "$room/one/dist.sh" install 2>&1; echo "$?")" 0
  is 'what it installs' "$(cd "$room/prefix" && find . ! -type d | sed 's/^..//' | sort)" "$files"
  is 'dist.sh install below a folder' "$(umask 077; PREFIX=/opt/hlr DESTDIR=$room/root "$room/one/dist.sh" install 2>&1; echo "$?")" 0
  has 'hlr.pc has the prefix' "$room/root/opt/hlr/lib/pkgconfig/hlr.pc" 'prefix=/opt/hlr'
  sed -i "s,^prefix=.*,prefix=$room/prefix," "$room/root/opt/hlr/lib/pkgconfig/hlr.pc"
  chmod 644 "$room/root/opt/hlr/lib/pkgconfig/hlr.pc"
  alike 'both installs' "$room/root/opt/hlr" "$room/prefix"
  is 'the installed program' "$("$room/prefix/bin/hlr" --version)" "hlr $version"
}

# linked_pages: each link of an installed page leads to a file that is installed, and the pages have all of their words.
linked_pages() {
  local page target lost='' count=0
  for page in "$room/prefix/share/doc/hlr"/{,docs/,examples/}*.md; do
    while read -r target; do
      count=$((count + 1))
      [ -e "${page%/*}/$target" ] || lost+=" ${page##*/}:$target"
    done < <(grep -oE '\]\([^)#: ]+' "$page" | sed 's/^](//')
  done
  is 'links of the installed pages that lead nowhere' "$lost" ''
  is 'the installed pages have links' "$([ "$count" -gt 100 ] && echo yes)" yes
  for page in README.md CHANGELOG.md docs/*.md examples/README.md; do
    is "words of the installed $page" "$(sed 's/\](\([^)]*\))/]/g; s/[][]//g' "$room/prefix/share/doc/hlr/$page" | cksum)" \
      "$(sed 's/\](\([^)]*\))/]/g; s/[][]//g' "$page" | cksum)"
  done
}

# linked NAME PROGRAM WANTED: whether it asks for the shared library, 1 or 0.
linked() { is "$1: asks for libhlr.so.1" "$(readelf -dW "$2" | grep -c 'NEEDED.*libhlr.so.1')" "$3"; }

# clients TREE: the clients, by the hlr.pc of a tree.
clients() {
  local tree=$1 words archived
  export PKG_CONFIG_PATH=$tree/lib/pkgconfig
  is "$tree: version of hlr.pc" "$(pkg-config --modversion hlr)" "$version"
  in_redis "$tree"
  read -ra words < <(pkg-config --cflags --libs hlr)
  in_python "$tree"
  archived=('-Wl,-Bstatic' "${words[@]}" '-Wl,-Bdynamic')
  if compiled day -std=c11 examples/library/day.c "${words[@]}"; then
    ended "$tree: a day in C, shared" examples/library/day.stdout env LD_LIBRARY_PATH="$tree/lib" "$room/day"
    linked "$tree: a day in C, shared" "$room/day" 1
  fi
  if compiled day -std=c11 examples/library/day.c "${archived[@]}"; then
    ended "$tree: a day in C, static" examples/library/day.stdout "$room/day"
    linked "$tree: a day in C, static" "$room/day" 0
  fi
  tool g++ "a day in C++ by the tree $tree" || return
  if in_cpp "$tree: a day in C++, shared" "${words[@]}"; then
    ended "$tree: a day in C++, shared" "$in_library/day.stdout" env LD_LIBRARY_PATH="$tree/lib" "$room/day"
    linked "$tree: a day in C++, shared" "$room/day" 1
  fi
  if in_cpp "$tree: a day in C++, static" "${archived[@]}"; then
    ended "$tree: a day in C++, static" "$in_library/day.stdout" "$room/day"
    linked "$tree: a day in C++, static" "$room/day" 0
  fi
  printf '#include <hlr.hpp>\nint main() { hlrpp::store day; day.open(1, 1); }\n' > "$room/unread.cc"
  g++ -std=c++17 -fsyntax-only "$room/unread.cc" "${words[@]}" 2> "$room/err"
  has "$tree: a code that is left unread is told" "$room/err" '[-Wunused-result]'
}

# in_python TREE: the package and the example find the library of a tree.
in_python() {
  local folder
  tool python3 "the Python package of the tree $1" || return
  folder=$(realpath "$(pkg-config --variable=pythondir hlr)")
  # shellcheck disable=SC2030
  (cd / && unset HLR_LIBRARY && PYTHONPATH=$folder PYTHONDONTWRITEBYTECODE=1 python3 -m hlr) > "$room/out" 2>&1
  is "$1: python3 -m hlr" "$(head -n 2 "$room/out")" "hlr $version"$'\n'"library $folder/hlr/libhlr.so.1"
  is "$1: what the library was built from" "$(tail -n +3 "$room/out")" "libhlr.so.1 $(sha256sum < "$1/lib/libhlr.so.1" | cut -d ' ' -f 1)
libhlr_c.a $(sha256sum < "$archive" | cut -d ' ' -f 1)
commit that is not known
kit $(rt version)"
  python3 "$1/share/doc/hlr/examples/day.py" "$1/lib/libhlr.so.1" > "$room/out" 2>&1
  is "$1: a day in Python" "$(tail -n 1 "$room/out")" 'hlr_close 254'
  PYTHONPATH=$folder PYTHONDONTWRITEBYTECODE=1 timeout 60 python3 "$1/share/doc/hlr/examples/live" --minutes 0 --subscribers 100 > "$room/out" 2>&1
  is "$1: examples/live" "$(cut -d ' ' -f 2- "$room/out")" 'for 0 minutes'
}

# lines_of_page: what docs/LIBRARY.md has typed in the tar ball's folder, with the page of examples/live ended at once.
lines_of_page() {
  local tree=$room/hlr-$version
  tool g++ 'the lines for the tar ball' && tool python3 'the lines for the tar ball' || return
  sed -n '/^export LD_LIBRARY_PATH=/,/^```$/p' docs/LIBRARY.md | sed '/^```$/d; s,examples/live$,& --minutes 0,' > "$room/lines"
  is 'the lines for the tar ball' "$(wc -l < "$room/lines")" 4
  (cd "$tree" && unset HLR_LIBRARY PKG_CONFIG_PATH && bash -e "$room/lines") 2>&1 | sed '$s/^http:[^ ]*/page/' > "$room/out"
  { cat examples/library/day.stdout "$in_library/day.stdout"; echo 'page for 0 minutes'; } > "$room/want"
  same 'the lines for the tar ball' "$room/out" "$room/want"
}

# in_redis TREE: a server loads the module of a tree.
in_redis() {
  local socket=$room/redis.sock server
  tool redis-server "the Redis module of the tree $1" && tool redis-cli "the Redis module of the tree $1" || return
  redis-server --port 0 --unixsocket "$socket" --save '' --dir "$room" --loadmodule "$1/$module" > "$room/out" 2>&1 &
  server=$!
  for _ in {1..200}; do [ ! -S "$socket" ] || break; sleep 0.05; done
  is "$1: a register in Redis" "$(redis-cli -s "$socket" HLR.CREATE hlr; redis-cli -s "$socket" HLR.INFO hlr | head -n 2 | paste -sd ' ')" \
    $'OK\nsubscribers 0'
  kill "$server"
  wait "$server"
}

# in_cpp NAME WORD ..: g++ with these words makes $room/day of the day in C++.
in_cpp() {
  g++ -std=c++17 -O2 -Wall -Wextra -Wpedantic -Wconversion -Werror -fno-exceptions "$in_library/day.cc" "${@:2}" -o "$room/day" ||
    { fail "$1 isn't compiled"; return 1; }
}

# The Debian package has what is installed below /usr, with the manual page packed.
packaged() {
  local root=$room/unpacked file=$room/one/dist/$deb
  is 'the Debian package' "$(dpkg-deb -f "$file" Package Version Architecture Suggests)" \
    $'Package: hlr\nVersion: '"$version"$'\nArchitecture: amd64\nSuggests: python3, python3-redis, redis-server'
  dpkg-deb -x "$file" "$root"
  gunzip "$root/usr/share/man/man1/hlr.1.gz"
  PREFIX=/usr DESTDIR=$room/usr "$room/one/dist.sh" install
  alike 'the Debian package' "$root/usr" "$room/usr/usr"
}

# The manual page has all words of the help, in their order, and no fault.
manual() {
  local page=$room/one/dist/share/man/man1/hlr.1
  tool man 'the manual page' || return
  LC_ALL=C MANWIDTH=100 man --warnings -l "$page" > "$room/page" 2> "$room/err" < /dev/null
  is 'the manual page: status' "$?" 0
  is 'the manual page: faults' "$(cat "$room/err")" ''
  "$hlr" --help < /dev/null | grep -vE '^(Usage: .*|Options:|Examples:)$' | tr -s ' ' '\n' | grep . > "$room/words"
  tr -s ' ' '\n' < "$room/page" | awk 'FNR == NR { page[++last] = $0; next }
    { do at++; while (at <= last && page[at] != $0); if (at > last) { print; exit } }' - "$room/words" > "$room/lost"
  is 'the manual page: the first word of the help that it lacks' "$(cat "$room/lost")" ''
}

# refused TEXT COMMAND ..: it says why, and makes nothing.
refused() {
  "${@:2}" > "$room/out" 2> "$room/err"
  status=$?
  ends "dist.sh: $1" 1 '' "dist.sh: $1"$'\n'
}

refusals() {
  local copy=$room/three
  installable three
  refused "it takes the word install, or none, and not 'all'" "$copy/dist.sh" all
  refused "there is no $copy/dist/bin/hlr: run ./dist.sh" "$copy/dist.sh" install
  refused 'PREFIX is no path from the root: usr' env PREFIX=usr "$copy/dist.sh" install
  sed -i '/^uint8_t hlr_take(/d' "$copy/$header"
  refused "$archive hasn't the calls of $header: build it anew" "$copy/dist.sh"
  sed -i 's/^const VERSION: &str = .*/const VERSION: \&str = "99.0.0";/' "$copy/crates/hlr/src/options.rt"
  refused "crates/hlr/out/hlr isn't version 99.0.0: build it anew" "$copy/dist.sh"
  rm "$copy/$archive"
  refused "there is no $archive: run crates/hlr_c/archive.sh behind rt ci, or rt lib --cpu x86-64 in crates/hlr_c" "$copy/dist.sh"
  rm "$copy/crates/hlr/out/hlr"
  refused 'there is no crates/hlr/out/hlr: run rt run in crates/hlr' "$copy/dist.sh"
  is 'what is refused makes no dist/' "$([ -e "$copy/dist" ] && echo there)" ''
}

tool gcc 'dist.sh' || finish
program_built || finish
archive_built || finish
deb=
if tool dpkg-deb 'the Debian package'; then deb=hlr_${version}_amd64.deb; fi
made
names
installed
linked_pages
if tool pkg-config 'clients by hlr.pc'; then
  clients "$room/prefix"
  # the tar ball, unpacked anywhere
  tar -xzf "$room/one/dist/hlr-$version-x86_64-linux.tar.gz" -C "$room"
  clients "$room/hlr-$version"
  lines_of_page
fi
[ -z "$deb" ] || packaged
manual
refusals
finish
