#!/usr/bin/env bash
# Times the canary's fill and the search for a broken byte in intact runs of 16, 64 and 4,096 bytes, and beside them the C library's
# memset and memcmp on as many bytes. The two take turns, ten times each, and the least processor time of each counts. Prints
# nanoseconds a call and the ratio of the rates.
#
# usage: bench/canary.sh
set -u
here=$(cd "$(dirname "$0")/.." && pwd) || exit 1
work=$(mktemp -d) || exit 1
trap 'rm -rf "$work"' EXIT
TIMEFORMAT=%U

# milliseconds of processor time that a command takes, which prints how many turns it made
time_of() {
    local seconds
    seconds=$({ time "$@" </dev/null >"$work/out" 2>"$work/err"; } 2>&1) || return 1
    [ "$(cat "$work/out")" = "${!#}" ] || return 1
    echo $((10#${seconds/./}))
}

less() {
    if [ "$1" -eq 0 ] || [ "$2" -lt "$1" ]; then echo "$2"; else echo "$1"; fi
}

# nanoseconds a turn, with one decimal
nanoseconds() {
    local tenths=$(($1 * 10000000 / $2))
    echo "$((tenths / 10)).$((tenths % 10))"
}

(cd "$here/crates/canary_bench" && rt run) >"$work/build" 2>&1 </dev/null # builds it
program=$here/crates/canary_bench/out/canary_bench
gcc -O2 -o "$work/host" "$here/bench/canary.c" || exit 1
for job in "fill memset" "check memcmp"; do
    read -r kernel function <<<"$job"
    for bytes in 16 64 4096; do
        turns=$((16000000000 / (bytes + 400)))
        ours=0
        theirs=0
        for _ in 1 2 3 4 5 6 7 8 9 10; do
            took=$(time_of "$program" "$kernel" "$bytes" "$turns") || { echo "bench: $kernel did not run: $(tail -n 1 "$work/build")" >&2; exit 1; }
            ours=$(less "$ours" "$took")
            took=$(time_of "$work/host" "$kernel" "$bytes" "$turns") || { echo "bench: $function did not run" >&2; exit 1; }
            theirs=$(less "$theirs" "$took")
        done
        echo "$kernel, $bytes bytes: $(nanoseconds "$ours" "$turns") ns; $function: $(nanoseconds "$theirs" "$turns") ns; $((theirs * 100 / ours)) percent of its rate"
    done
done
