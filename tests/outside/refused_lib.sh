# shellcheck shell=bash disable=SC2154
# What the parts of refuse_memory.sh share, which run a command again and again, each time with another call refused. It is
# read behind lib.sh and c_lib.sh, and ends a part where there is no gcc.
tool gcc 'memory that is refused' || finish

# begin, and right: what stands between them is one test, passed where nothing was wrong.
begin() { failed_before=$failed; }

right() { [ "$failed" != "$failed_before" ] || pass; }

# has_ended WHAT [COMPLAINT]: with that, a run of the program with status $status ended for want of memory, or so.
has_ended() {
  [ "$status" = 1 ] || fail "status $status with $1"
  case "$(cat "$room/err")" in
    'hlr: no memory' | "${2:-hlr: no memory}") ;;
    *) fail "with $1 it said '$(cat "$room/err")'" ;;
  esac
  [ "$(wc -l < "$room/err")" = 1 ] || fail "with $1 it said no whole line"
}
