#!/usr/bin/env bash
# Asks hlr one record after another, and waits for each answer: examples/client.sh [HLR [OPTION ..]]
[ $# -gt 0 ] || set -- crates/hlr/out/hlr
command -v "$1" > /dev/null || { echo "there is no program at $1: run rt run in crates/hlr" >&2; exit 1; }
coproc register { "$@"; }

# ask RECORD: one whose answer is one line
ask() {
  printf '%s\n' "$1" >&"${register[1]}"
  IFS= read -r answer <&"${register[0]}" && printf '%s\n' "$answer"
}

ask sub,7,000000000000007,0000000000,0000000000,00000000000000000000,1,268435456
ask ul,000000000000007,536870912
ask gsd,7
