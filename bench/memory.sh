#!/usr/bin/env bash
# Prints how much memory the heap keeps for each slot that ever had an object, beside the bytes of its miniheaps.
# A guest allocates a hundred thousand objects of 16 bytes, and holds them all, or frees each right away under a patch that puts
# these frees off. Then it spins, and what its process has in memory is compared with what it has where there is one object alone.
# Beside that the script prints the same where memory counts that was asked for and never written to.
#
# usage: bench/memory.sh
set -u
here=$(cd "$(dirname "$0")/.." && pwd) || exit 1
work=$(mktemp -d) || exit 1
trap 'rm -rf "$work"' EXIT
# shellcheck disable=SC1091 # it is checked by itself
. "$here/bench/guest.sh"
objects=100000
# 63 * 4,096 slots of 16 bytes, the first six miniheaps of the class: half of them are more than the objects
miniheaps=4128768
first=65536

# the guest: what sets x9; L: addi x10, x0, 16; jal x1, malloc; jal x1, free or addi x0, x0, 0; addi x9, x9, -1; bne x9, x0, L;
# S: jal x0, S
guest() {
    heap_guest "$1" 01000513 fe5ff0ef "$2" fff48493 fe0498e3 0000006f 00100073 00100073
}

# the kilobytes of a guest's process two seconds after its start: in memory, and asked for
kilobytes() {
    "$here/exterm" run --steps 1000000000000 "$@" </dev/null >"$work/out" 2>&1 &
    local process=$!
    sleep 2
    awk '/^RssAnon/ { has = $2 } /^VmData/ { asked = $2 } END { print has, asked }' "/proc/$process/status"
    kill "$process"
    wait "$process" 2>/dev/null
}

# what a slot takes
line() {
    local name=$1 bytes=$2 has asked
    read -r has asked <<<"$3"
    echo "$name: $(((1024 * (has - one_has) - bytes) / objects)) bytes a slot in memory, $(((1024 * (asked - one_asked) - bytes) / objects)) asked for"
}

"$here/exterm" >/dev/null 2>&1 # builds it
guest "00000493 00148493" 00000013 >"$work/one.elf" # addi x9, x0, 0; addi x9, x9, 1
guest "000184b7 6a048493" 00000013 >"$work/held.elf" # lui x9, 24; addi x9, x9, 1696
guest "000184b7 6a048493" fe5ff0ef >"$work/freed.elf"
printf 'exterm-patches 1\ndefer 22c31045 230b7249 1000000\n' >"$work/patches"
read -r one_has one_asked <<<"$(kilobytes "$work/one.elf")"
line "held" $((miniheaps - first)) "$(kilobytes "$work/held.elf")"
line "deferred" $((miniheaps - first)) "$(kilobytes --patches "$work/patches" "$work/freed.elf")"
