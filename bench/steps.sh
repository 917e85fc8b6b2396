#!/usr/bin/env bash
# Times a counted loop of arithmetic, loads and stores, 150,994,949 steps, and the word counter of the examples, whose table and
# words are on the heap, on 200,000 words. Prints million steps a second of each.
#
# usage: bench/steps.sh [YARDSTICK], where YARDSTICK is the C source of another RV32IM interpreter: it is built by
# gcc -O2 and given the loop's file, and the ratio of the two is printed.
set -u
here=$(cd "$(dirname "$0")/.." && pwd) || exit 1
work=$(mktemp -d) || exit 1
trap 'rm -rf "$work"' EXIT
steps=150994949

# lui x8, 0x200; lui x9, 0x1000; L: lw x5, 0(x8); addi x5, x5, 3; xor x6, x5, x9; sw x6, 4(x8); add x7, x7, x6;
# sb x7, 8(x8); lbu x10, 8(x8); addi x9, x9, -1; bne x9, x0, L; exit 0
loop="00200437 010004b7 00042283 00328293 0092c333 00642223 006383b3 00740423 00844503 fff48493 fe0490e3 00000513 05d00893 00000073"
head="464c457f 00010101 00000000 00000000 00f30002 00000001 00010000 00000034 00000000 00000000 00200034 00000002 00000000 00000001 00000074 00010000 00010000 00000038 00000038"
tail="00000005 00000004 00000001 00000000 00200000 00200000 00000000 00001000 00000006 00000004"
for word in $head $tail $loop; do
    printf '%b' "\\x${word:6:2}\\x${word:4:2}\\x${word:2:2}\\x${word:0:2}"
done >"$work/loop.elf"

# words of two to eight letters, of 20,000 different ones
awk 'BEGIN {
    n = 1
    for (i = 0; i < 200000; i++) {
        n = n * 16807 % 2147483647
        word = ""
        for (k = n % 20000; k > 0; k = int(k / 26)) word = word substr("abcdefghijklmnopqrstuvwxyz", k % 26 + 1, 1)
        printf "%s%s%s", word, word, i % 12 == 11 ? "\n" : " "
    }
}' >"$work/words"

# nanoseconds that a command takes with a file as its input
time_of() {
    local before after input=$1
    shift
    before=$(date +%s%N)
    "$@" <"$input" >/dev/null 2>"$work/err" || return 1
    after=$(date +%s%N)
    echo $((after - before))
}

# million steps a second of a command that runs the loop
pace() {
    local time
    time=$(time_of /dev/null "$@" "$work/loop.elf") || return 1
    echo $((steps * 1000 / time))
}

"$here/exterm" >/dev/null 2>&1 # builds it
ours=$(pace "$here/exterm" run) || { echo "bench: the loop did not run: $(tail -n 1 "$work/err")" >&2; exit 1; }
echo "exterm: $ours million steps a second"
time=$(time_of "$work/words" "$here/exterm" run "$here/examples/wordcount.elf") ||
    { echo "bench: the word counter did not run: $(tail -n 1 "$work/err")" >&2; exit 1; }
counted=$(sed -n 's/^exterm: exit 0 after \([0-9]*\) steps$/\1/p' "$work/err")
echo "exterm, with a heap: $((counted * 1000 / time)) million steps a second"
[ $# -eq 0 ] && exit 0
if ! command -v gcc >/dev/null; then
    echo "bench: there is no gcc for the yardstick"
    exit 0
fi
gcc -O2 -o "$work/yardstick" "$1" || exit 1
theirs=$(pace "$work/yardstick") || { echo "bench: the yardstick did not run the loop" >&2; exit 1; }
echo "yardstick: $theirs million steps a second"
echo "ratio: $((ours * 100 / theirs)) percent"
