#!/usr/bin/env bash
# Bytes that no one wrote with care, and lines without an end.
. "$(dirname "$0")/lib.sh" || exit 1

# Bytes that no one wrote with care.
bytes() {
  hlr_given 'views\r\n\r\ngs\r\nviews'
  ends 'CR LF' 0 $'views,0\nrefused,19,Syntax\nviews,0\n' ''
  hlr_given '\0357\0273\0277views\n'
  ends 'a byte order mark' 0 $'views,0\n' ''
  hlr_given '\0377\0376\n\0000\ngsd,7\0377\nviews\n'
  ends 'bytes that are no text' 0 $'refused,19,Syntax\nrefused,19,Syntax\nrefused,2,Field\nviews,0\n' ''
}

# long_line BYTES KB [OPTION ..]: one line of so many bytes, in so much memory.
long_line() {
  (printf 'gsd,' && head -c "$1" /dev/zero | tr '\0' 7 && printf '\nviews\n') |
    (ulimit -v "$2"; exec "$hlr" "${@:3}" > "$room/out" 2> "$room/err")
  status=$?
}

# A line of 64 MB wants three times as much memory, and nothing of it stays behind; with less the run ends.
long_lines() {
  long_line 64000000 230000 "$@"
  ends "a line of 64 MB $*" 0 $'refused,2,Field\nviews,0\n' ''
  long_line 64000000 150000 "$@"
  ends "a line of 64 MB in 150 MB of memory $*" 1 '' $'hlr: no memory\n'
}

program_built || finish
bytes
long_lines
long_lines --threads
finish
