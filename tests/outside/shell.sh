#!/usr/bin/env bash
# The scripts of the repository, but for those of bench/, which are run by hand: shellcheck finds nothing.
. "$(dirname "$0")/lib.sh" || exit 1

tool shellcheck 'the scripts' || finish
mapfile -t scripts < <(grep -rlE '^#!.*[/ ](ba)?sh$|^# shellcheck shell' --exclude-dir={.git,bench,dist,out} . | sort)
[ "${#scripts[@]}" -gt 20 ] || fail "only ${#scripts[@]} scripts are found"
for script in "${scripts[@]}"; do is "shellcheck $script" "$(shellcheck -f gcc "$script" 2>&1)" ''; done
finish
