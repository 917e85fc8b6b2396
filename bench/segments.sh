#!/usr/bin/env bash
# Times code that jumps through 60,000 segments of 32 bytes each, and the same code in a file with two segments: six additions
# and a jump by register in each part of 32 bytes, by rising addresses and in a shuffled order; the segments lie side by side,
# and then with a gap of 32 bytes behind each. Prints million steps a second of each, and how many times as fast the file with
# two segments is.
#
# usage: bench/segments.sh [ROUNDS], 100 if none is given: how often each part is run.
set -u
here=$(cd "$(dirname "$0")/.." && pwd) || exit 1
work=$(mktemp -d) || exit 1
trap 'rm -rf "$work"' EXIT
rounds=${1:-100}

python3 - "$work" "$rounds" <<'PYTHON' || exit 1
import random, struct, sys

work, rounds = sys.argv[1], int(sys.argv[2])
COUNT, BASE, SIZE = 60000, 0x10000, 32
APART = {"side by side": SIZE, "with gaps": 2 * SIZE}

def addi(rd, rs, n):
    return (n & 0xFFF) << 20 | rs << 15 | rd << 7 | 0x13

# lui x6 and jalr x0 to a part
def jump(part, apart):
    to = BASE + apart * part
    low = (to & 0xFFF) - (to & 0x800) * 2
    return [(to - low) & 0xFFFFF000 | 6 << 7 | 0x37, (low & 0xFFF) << 20 | 6 << 15 | 0x67]

def code(order, apart):
    parts = [None] * COUNT
    parts[0] = [addi(8, 0, rounds)] + jump(order[0], apart)
    for part, after in zip(order, order[1:]):
        parts[part] = [addi(9, 9, 1)] * 6 + jump(after, apart)
    # x8 counts the rounds; behind the last one exit with 0
    parts[order[-1]] = [addi(8, 8, -1), 0x00040663] + jump(order[0], apart) + [addi(10, 0, 0), addi(17, 0, 93), 0x00000073]
    return b"".join(struct.pack("<8I", *part, *[0] * (8 - len(part))).ljust(apart, b"\0") for part in parts)

# a file whose code is mapped in so many segments, and a page that may be written to
def file(code, count, apart):
    size = SIZE if count > 1 else len(code)
    at = 52 + 32 * (count + 1)
    head = struct.pack("<16sHHIIIIIHHHHHH", b"\x7fELF\x01\x01\x01", 2, 243, 1, BASE, 52, 0, 0, 52, 32, count + 1, 40, 0, 0)
    rows = [struct.pack("<8I", 1, at + apart * i, BASE + apart * i, 0, size, size, 5, 4) for i in range(count)]
    return head + b"".join(rows) + struct.pack("<8I", 1, at, 0x800000, 0, 0, 4096, 6, 4) + code

rising = list(range(1, COUNT))
shuffled = rising[:]
random.Random(1).shuffle(shuffled)
for name, order in ("rising", rising), ("shuffled", shuffled):
    for place, apart in APART.items():
        for count in 1, COUNT:
            with open(f"{work}/{name} {place}.{count}", "wb") as out:
                out.write(file(code(order, apart), count, apart))
PYTHON

# million steps a second of a file, to two places
pace() {
    local before after steps
    before=$(date +%s%N)
    "$here/exterm" run "$1" </dev/null 2>"$work/err" || return 1
    after=$(date +%s%N)
    steps=$(sed -n 's/^exterm: exit 0 after \([0-9]*\) steps$/\1/p' "$work/err")
    echo $((steps * 100000 / (after - before)))
}

"$here/exterm" >/dev/null 2>&1 # builds it
for order in "rising side by side" "shuffled side by side" "rising with gaps" "shuffled with gaps"; do
    few=$(pace "$work/$order.1") && many=$(pace "$work/$order.60000") ||
        { echo "bench: a file did not run: $(tail -n 1 "$work/err")" >&2; exit 1; }
    echo "$order, two segments: $((few / 100)) million steps a second"
    echo "$order, 60,000 segments: $((many / 100)) million steps a second"
    echo "$order, ratio: $((few * 100 / many / 100)).$(printf %02d $((few * 100 / many % 100)))"
done
