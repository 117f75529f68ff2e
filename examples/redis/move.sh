#!/usr/bin/env bash
# Moves the hash slot of one register to another node of a cluster, with all registers in it. Clients may read and write
# meanwhile: they are redirected, as when redis-cli --cluster reshard moves hash slots. That can't choose one by its key.
#
#   move.sh KEY HOST:PORT     moves the register at KEY to the node that listens there
set -euo pipefail

stop() {
  echo "move.sh: $1" >&2
  exit 1
}

# at HOST:PORT COMMAND ..: runs a command on a node, and ends the script if the node replies an error.
at() {
  local reply
  reply=$(redis-cli -e -h "${1%:*}" -p "${1##*:}" "${@:2}" 2>&1) || stop "$1, ${*:2}: $reply"
  echo "$reply"
}

[ $# = 2 ] || stop 'give the key of a register and the HOST:PORT of a node'
key=$1 taker=$2
slot=$(at "$taker" CLUSTER KEYSLOT "$key")
taker_name=$(at "$taker" CLUSTER MYID)
# of each master: its name, its HOST:PORT, and its ranges of hash slots
masters=$(at "$taker" CLUSTER NODES | awk '$3 ~ /master/ { sub(/@.*/, "", $2); print }')
giver=$(awk -v slot="$slot" '{ for (i = 9; i <= NF; i++) { split($i, range, "-")
  if (slot >= range[1] + 0 && slot <= (range[2] == "" ? range[1] : range[2]) + 0) print $2 } }' <<< "$masters")
[ -n "$giver" ] || stop "no node has the hash slot $slot"
[ "$giver" != "$taker" ] || stop "$key is there already"
giver_name=$(at "$giver" CLUSTER MYID)

at "$taker" CLUSTER SETSLOT "$slot" IMPORTING "$giver_name" > /dev/null
at "$giver" CLUSTER SETSLOT "$slot" MIGRATING "$taker_name" > /dev/null
while keys=$(at "$giver" CLUSTER GETKEYSINSLOT "$slot" 1) && [ -n "$keys" ]; do
  at "$giver" MIGRATE "${taker%:*}" "${taker##*:}" '' 0 60000 KEYS "$keys" > /dev/null
done
# the new owner first, so that no node sends clients away from it
for node in "$taker" "$giver" $(awk '{ print $2 }' <<< "$masters"); do
  at "$node" CLUSTER SETSLOT "$slot" NODE "$taker_name" > /dev/null
done
echo "$key is at $taker, with hash slot $slot"
