#!/usr/bin/env bash
# Times a million allocations of 1 to 1,024 bytes by the guest's heap, each with a free of one of 64 objects, without a guest,
# and the same by the host's malloc, and prints thousand pairs a second.
# Then times a guest that calls malloc and free a million times each, the free right behind its malloc, for objects of 16 and of
# 4,096 bytes, and prints thousand calls a second. Such a pair looks through three slots for broken canaries and fills one anew.
# But for that the two sizes have the same to do, so the time that the larger one takes more is canary work.
#
# usage: bench/heap.sh
set -u
here=$(cd "$(dirname "$0")/.." && pwd) || exit 1
work=$(mktemp -d) || exit 1
trap 'rm -rf "$work"' EXIT
# shellcheck disable=SC1091 # it is checked by itself
. "$here/bench/guest.sh"
pairs=1000000

# nanoseconds that a command takes, whose line goes to $work/line
time_of() {
    local before after
    before=$(date +%s%N)
    "$@" </dev/null >"$work/line" 2>"$work/err" || return 1
    after=$(date +%s%N)
    echo $((after - before))
}

# the guest: lui x9, 0xf4; addi x9, x9, 576; L: what sets x10 to the size; jal x1, malloc; jal x1, free; addi x9, x9, -1;
# bne x9, x0, L; exit 0
guest() {
    heap_guest 000f44b7 24048493 "$1" fe5ff0ef fe5ff0ef fff48493 fe0498e3 00000513 05d00893 00000073
}

# nanoseconds that the guest takes
guest_time() {
    time_of "$here/exterm" run "$1" || return 1
    [ "$(head -n 1 "$work/err")" = "exterm: heap allocations $pairs frees $pairs signals 0" ]
}

(cd "$here/crates/heap_bench" && rt run) >"$work/build" 2>&1 </dev/null # builds it
program=$here/crates/heap_bench/out/heap_bench
ours=$(time_of "$program") || { echo "bench: the heap did not run: $(tail -n 1 "$work/build")" >&2; exit 1; }
mv "$work/line" "$work/ours"
echo "exact_heap: $((pairs * 1000000 / ours)) thousand pairs a second"
if command -v gcc >/dev/null; then
    gcc -O2 -o "$work/host" "$here/bench/heap.c" || exit 1
    theirs=$(time_of "$work/host") || { echo "bench: the host's program did not run" >&2; exit 1; }
    cmp "$work/line" "$work/ours" || exit 1
    echo "malloc: $((pairs * 1000000 / theirs)) thousand pairs a second"
else
    echo "bench: there is no gcc for the host's malloc"
fi

"$here/exterm" >/dev/null 2>&1 # builds it
guest 01000513 >"$work/small.elf" # addi x10, x0, 16
guest 00001537 >"$work/large.elf" # lui x10, 1
small=$(guest_time "$work/small.elf") || { echo "bench: the guest did not run: $(tail -n 1 "$work/err")" >&2; exit 1; }
large=$(guest_time "$work/large.elf") || { echo "bench: the guest did not run: $(tail -n 1 "$work/err")" >&2; exit 1; }
echo "guest, 16 bytes: $((2 * pairs * 1000000 / small)) thousand calls a second"
echo "guest, 4096 bytes: $((2 * pairs * 1000000 / large)) thousand calls a second"
echo "canary work of 4096 bytes: $(((large - small) * 100 / large)) percent, $(((large - small) / pairs)) nanoseconds a pair"
