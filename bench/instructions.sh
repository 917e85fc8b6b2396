#!/usr/bin/env bash
# Counts the machine's own instructions a step, which doesn't depend on what else the machine does: of a loop of arithmetic, and
# of one in which six of eight instructions are loads or stores. Each is run for two numbers of rounds, and the difference is
# counted. Counts those of a whole run of nine instructions too.
#
# usage: bench/instructions.sh [YARDSTICK], where YARDSTICK is the C source of another RV32IM interpreter: it is built by
# gcc -O2 and counted on the same files. Valgrind has to be there.
set -u
here=$(cd "$(dirname "$0")/.." && pwd) || exit 1
work=$(mktemp -d) || exit 1
trap 'rm -rf "$work"' EXIT
command -v valgrind >/dev/null || { echo "bench: there is no valgrind" >&2; exit 1; }
few=$((0x20000)) many=$((0x60000)) # rounds of eight steps

# a file with its code at 0x10000 and a page at 0x200000: lui x8, 0x200; lui x9, rounds; the loop; exit 0
guest() {
    local rounds=$1 word
    shift
    local head="464c457f 00010101 00000000 00000000 00f30002 00000001 00010000 00000034 00000000 00000000 00200034 00000002 00000000 00000001 00000074 00010000 00010000 00000034 00000034"
    local tail="00000005 00000004 00000001 00000000 00200000 00200000 00000000 00001000 00000006 00000004"
    for word in $head $tail 00200437 "$(printf %08x $((rounds | 0x4b7)))" "$@" 00000513 05d00893 00000073; do
        printf '%b' "\\x${word:6:2}\\x${word:4:2}\\x${word:2:2}\\x${word:0:2}"
    done
}

# L: addi x5, x5, 3; xor x7, x5, x6; add x6, x6, x7; srli x28, x7, 5; sub x29, x6, x28; or x30, x7, x29; addi x9, x9, -1; bne x9, x0, L
arithmetic="00328293 0062c3b3 00730333 0053de13 41c30eb3 01d3ef33 fff48493 fe0492e3"
# L: lw x5, 0(x8); sw x5, 4(x8); lbu x10, 8(x8); sb x10, 12(x8); lw x6, 16(x8); sw x6, 20(x8); addi x9, x9, -1; bne x9, x0, L
memory="00042283 00542223 00844503 00a40623 01042303 00642a23 fff48493 fe0492e3"
for rounds in $few $many; do
    # shellcheck disable=SC2086 # each word of a loop is one of guest's
    guest $rounds $arithmetic >"$work/arithmetic.$rounds"
    # shellcheck disable=SC2086
    guest $rounds $memory >"$work/memory.$rounds"
done

# instructions of a command
count() {
    valgrind --tool=cachegrind --cache-sim=no --cachegrind-out-file=/dev/null "$@" </dev/null 2>&1 >/dev/null |
        sed -n 's/^.*I *refs: *//p' | tr -d ,
}

# instructions a step of a command on a loop
a_step() {
    local loop=$1 less more
    shift
    less=$(count "$@" "$work/$loop.$few")
    more=$(count "$@" "$work/$loop.$many")
    awk -v n=$(((more - less) * 100 / ((many - few) * 8))) 'BEGIN { printf "%.1f", n / 100 }'
}

"$here/exterm" >/dev/null 2>&1 # builds it
program=$here/crates/exterm_cli/out/exterm_cli
echo "exterm: arithmetic $(a_step arithmetic "$program" run), loads and stores $(a_step memory "$program" run) instructions a step"
echo "exterm: $(count "$program" run "$here/crates/exterm_cli/data/hi.elf") instructions for a run of nine steps"
[ $# -eq 0 ] && exit 0
gcc -O2 -o "$work/yardstick" "$1" || exit 1
echo "yardstick: arithmetic $(a_step arithmetic "$work/yardstick"), loads and stores $(a_step memory "$work/yardstick") instructions a step"
