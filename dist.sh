#!/usr/bin/env bash
# What is handed on: the built program and library as a tree to install, a tar ball of it, and a Debian package.
#
#   ./dist.sh                                     makes dist/ over crates/hlr/out/hlr and crates/hlr_c/out/libhlr_c.a
#   PREFIX=/usr/local DESTDIR= ./dist.sh install  puts that tree below DESTDIR, to be used below PREFIX
#
# The tree works wherever it stands: bin/hlr, lib/libhlr.a, lib/libhlr.so.1, lib/redis/modules/hlr.so, lib/pkgconfig/hlr.pc,
# include/hlr.h, include/hlr.hpp, share/man/man1/hlr.1, the Python package in lib/python3/dist-packages, pages and examples
# in share/doc/hlr. The Redis module is built without Redis.
# Both packages come out byte for byte the same whenever they are made of the same files: their times are
# SOURCE_DATE_EPOCH, or else that of the last commit. It needs rt, gcc and binutils, and for the
# Debian package dpkg-deb. CC may name another compiler.
set -euo pipefail
cd "$(dirname "$0")"
umask 022
export LC_ALL=C TZ=UTC

stop() {
  echo "dist.sh: $1" >&2
  exit 1
}

dist=$PWD/dist
program=crates/hlr/out/hlr
library=crates/hlr_c/out/libhlr_c.a
header=crates/hlr_c/hlr.h
soname=libhlr.so.1
package=lib/python3/dist-packages/hlr
module=lib/redis/modules/hlr.so
pages=share/doc/hlr
examples=$pages/examples
version=$(sed -n 's/^const VERSION: &str = "\(.*\)";$/\1/p' crates/hlr/src/options.rt)
[ -n "$version" ] || stop 'crates/hlr/src/options.rt tells no VERSION'

# files TO PREFIX: copies the tree to a folder, for use below PREFIX.
files() {
  install -d "$1/bin" "$1/include" "$1/lib/pkgconfig" "$1/${module%/*}" "$1/share/man/man1" "$1/$package" \
    "$1/$pages/docs" "$1/$examples/live" "$1/$examples/redis"
  install -m 755 "$dist/bin/hlr" "$1/bin/"
  install -m 644 "$dist/include/hlr.h" "$dist/include/hlr.hpp" "$1/include/"
  install -m 644 "$dist/lib/libhlr.a" "$dist/lib/$soname" "$1/lib/"
  install -m 755 "$dist/$module" "$1/$module"
  ln -sf "$soname" "$1/lib/libhlr.so"
  install -m 644 "$dist/share/man/man1/hlr.1" "$1/share/man/man1/"
  install -m 644 "$dist/$package"/*.py "$dist/$package/built.txt" "$1/$package/"
  ln -sf "../../../$soname" "$1/$package/$soname"
  install -m 644 "$dist/$pages"/*.md "$1/$pages/"
  install -m 644 "$dist/$pages/docs"/* "$1/$pages/docs/"
  install -m 644 "$dist/$examples"/*.* "$1/$examples/"
  install -m 644 "$dist/$examples/live"/* "$1/$examples/live/"
  install -m 644 "$dist/$examples/redis"/* "$1/$examples/redis/"
  described "$2" > "$1/lib/pkgconfig/hlr.pc"
  chmod 644 "$1/lib/pkgconfig/hlr.pc"
}

# described PREFIX: prints hlr.pc.
described() {
  printf 'prefix=%s\n' "$1"
  printf '%s\n' "includedir=\${prefix}/include" "libdir=\${prefix}/lib" "pythondir=\${prefix}/${package%/hlr}" '' 'Name: hlr' \
    'Description: a home location register with live counts' "Version: $version" "Cflags: -I\${includedir}" \
    "Libs: -L\${libdir} -lhlr"
}

# called: prints the calls that hlr.h declares, in order.
called() { sed -n 's/^uint8_t \(hlr_[a-z_]*\)(.*/\1/p' "$header" | sort; }

# checked: the program and the library are there, and are those of the sources.
checked() {
  local tool
  for tool in "${CC:-gcc}" ld objcopy ar nm readelf; do
    command -v "$tool" > /dev/null || stop "there is no $tool"
  done
  [ -x "$program" ] || stop "there is no $program: run rt run in crates/hlr"
  [ -f "$library" ] || stop "there is no $library: run crates/hlr_c/archive.sh behind rt ci, or rt lib --cpu x86-64 in crates/hlr_c"
  command -v rt > /dev/null || stop 'there is no rt, whose kit has liblibc_c.a'
  [ "$("$program" --version)" = "hlr $version" ] || stop "$program isn't version $version: build it anew"
  called | grep -vE '^hlr_(file_.*|journal|snapshot|sync|journal_end)$' > "$room/called"
  nm -g --defined-only "$library" | awk 'NF == 3 { print $3 }' | sort > "$room/global"
  cmp -s "$room/called" "$room/global" || stop "$library hasn't the calls of $header: build it anew"
}

# linked: makes lib/libhlr.a, lib/libhlr.so.1 and the Redis module of the library and what the kit has for it of the C
# library. In the one object of both, whose code stays as it was built, nothing but the calls is global. The calls
# that use files are an object of their own, which the Redis module has no use for.
linked() {
  local kit
  kit=$(dirname "$(rt doc)")
  ld -r -o "$room/hlr.o" --whole-archive "$library" --no-whole-archive "$kit/c/liblibc_c.a"
  objcopy --wildcard --keep-global-symbol='hlr_*' "$room/hlr.o"
  "${CC:-gcc}" -std=c99 -O2 -fPIC -Wall -Wextra -Wconversion -Werror -c crates/hlr_c/hlr_file.c -o "$room/hlr_file.o"
  (cd "$room" && ar rcsD "$dist/lib/libhlr.a" hlr.o hlr_file.o)
  echo 'HLR_1 { global: hlr_*; local: *; };' > "$room/hlr.map"
  "${CC:-gcc}" -shared -o "$dist/lib/$soname" "$room/hlr.o" "$room/hlr_file.o" -Wl,-soname,"$soname" -Wl,--version-script="$room/hlr.map" \
    -Wl,-z,defs -Wl,-z,relro -Wl,-z,now -Wl,-z,noexecstack -Wl,--build-id=none
  redis/build.sh "$dist/$module" "$room/hlr.o" -Wl,-z,defs
  chmod 755 "$dist/$module" # Redis loads no module that isn't executable
}

# built: prints what the shared library was built from.
built() {
  local commit
  commit=$(git describe --always --dirty --abbrev=40 --exclude='*' 2> /dev/null) || commit='that is not known'
  printf '%s\n' "$soname $(sha256sum < "$dist/lib/$soname" | cut -d ' ' -f 1)" \
    "${library##*/} $(sha256sum < "$library" | cut -d ' ' -f 1)" "commit $commit" "kit $(rt version)"
}

# page FILE: copies a page of the repository to where it lies in the tree. A link to the header leads to the one that is
# installed, and one to a file of the sources alone becomes plain text.
page() {
  local top
  top=$(dirname "$1" | sed 's,^\.$,,; s,[^/][^/]*,..,g; s,$,/,; s,^/$,,')
  sed -e "s,](${top}crates/hlr_c/hlr\.h,](${top}../../../include/hlr.h,g" \
    -e "s,\[\([^]]*\)\](${top}\(crates/\|bench/\|CONTRIBUTING\.md\)[^)]*),\1,g" "$1" > "$dist/$pages/$1"
  chmod 644 "$dist/$pages/$1"
}

# tree: fills dist/ but for the packages.
tree() {
  local each
  rm -rf "$dist"
  install -d "$dist/bin" "$dist/include" "$dist/lib/pkgconfig" "$dist/${module%/*}" "$dist/share/man/man1" "$dist/$package" \
    "$dist/$pages/docs" "$dist/$examples/live" "$dist/$examples/redis"
  install -m 755 "$program" "$dist/bin/hlr"
  install -m 644 "$header" crates/hlr_c/hlr.hpp "$dist/include/"
  linked
  chmod 644 "$dist/lib/$soname"
  ln -s "$soname" "$dist/lib/libhlr.so"
  # shellcheck disable=SC2016
  described '${pcfiledir}/../..' > "$dist/lib/pkgconfig/hlr.pc"
  install -m 644 python/hlr/*.py "$dist/$package/"
  ln -s "../../../$soname" "$dist/$package/$soname"
  built > "$dist/$package/built.txt"
  install -m 644 examples/library/*.{c,cc,py} tests/outside/library/day.cc examples/*.csv examples/client.* "$dist/$examples/"
  install -m 644 examples/live/* "$dist/$examples/live/"
  install -m 644 examples/redis/* "$dist/$examples/redis/"
  for each in README.md CHANGELOG.md docs/*.md examples/README.md; do page "$each"; done
  install -m 644 docs/*.svg docs/*.png "$dist/$pages/docs/"
  "$program" --help < /dev/null | awk -v version="$version" -v day="$(date -d "@$epoch" +%F)" -f tools/man.awk > "$dist/share/man/man1/hlr.1"
}

# tar_ball: of the tree.
tar_ball() {
  local name=hlr-$version
  tar --sort=name --format=ustar --mtime="@$epoch" --owner=0 --group=0 --numeric-owner --mode=u+rw,go=u-w \
    --transform "s,^,$name/,S" -C "$dist" -cf - bin include lib share | gzip -9n > "$dist/$name-x86_64-linux.tar.gz"
}

# package: the Debian package, below /usr.
package() {
  local root=$room/root bytes libc
  files "$root/usr" /usr
  gzip -9n "$root/usr/share/man/man1/hlr.1"
  bytes=$(find "$root" -type f -printf '%s\n' | awk '{ sum += $1 } END { print int((sum + 1023) / 1024) }')
  libc=$(readelf -VW "$dist/bin/hlr" "$dist/lib/$soname" "$dist/$module" | grep -o 'GLIBC_[0-9][0-9.]*' | sed 's/GLIBC_//' | sort -uV | tail -n 1)
  install -d "$root/DEBIAN"
  printf '%s\n' 'Package: hlr' "Version: $version" 'Architecture: amd64' 'Maintainer: nobody <nobody@localhost>' \
    "Installed-Size: $bytes" "Depends: libc6 (>= $libc)" 'Suggests: python3, python3-redis, redis-server' 'Section: database' 'Priority: optional' \
    'Description: home location register with live counts' \
    ' The program hlr, and the register as a library for C, C++ and Python, and as' ' a module for Redis.' > "$root/DEBIAN/control"
  echo 'activate-noawait ldconfig' > "$root/DEBIAN/triggers"
  find "$root" -exec touch -h -d "@$epoch" {} +
  SOURCE_DATE_EPOCH=$epoch dpkg-deb --root-owner-group -Zgzip -z9 --build "$root" "$dist/hlr_${version}_amd64.deb" > /dev/null
}

case ${1:-} in
  '')
    room=$(mktemp -d)
    trap 'rm -rf "$room"' EXIT
    epoch=${SOURCE_DATE_EPOCH:-$(git log -1 --format=%ct 2> /dev/null || echo 0)}
    checked
    tree
    tar_ball
    if command -v dpkg-deb > /dev/null; then package; else echo 'no Debian package, since there is no dpkg-deb'; fi
    ;;
  install)
    prefix=${PREFIX:-/usr/local}
    case $prefix in /*) ;; *) stop "PREFIX is no path from the root: $prefix" ;; esac
    [ -f "$dist/bin/hlr" ] || stop "there is no $dist/bin/hlr: run ./dist.sh"
    files "${DESTDIR:-}$prefix" "$prefix"
    ;;
  *) stop "it takes the word install, or none, and not '$1'" ;;
esac
