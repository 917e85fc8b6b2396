#!/usr/bin/env bash
# Times `exterm merge` of two patch files of a million lines each, half a million pads and half a million deferrals, and
# prints seconds. Their keys are the even and the odd sites, so that the join has two million lines.
#
# usage: bench/merge.sh
set -u
here=$(cd "$(dirname "$0")/.." && pwd) || exit 1
work=$(mktemp -d) || exit 1
trap 'rm -rf "$work"' EXIT

# the lines of sites from one on, every second site
lines() {
    awk -v from="$1" 'BEGIN {
        print "exterm-patches 2"
        for (i = 0; i < 500000; i++) printf "pad %08x %d\n", from + 2 * i, i % 1048576 + 1
        for (i = 0; i < 500000; i++) printf "defer %08x 239c3651 %d\n", from + 2 * i, i + 1
    }'
}

lines 0 >"$work/even"
lines 1 >"$work/odd"
"$here/exterm" >/dev/null 2>&1 # builds it
before=$(date +%s%N)
"$here/exterm" merge --out "$work/both" "$work/even" "$work/odd" || exit 1
after=$(date +%s%N)
{ cat "$work/even" && tail -n +2 "$work/odd"; } | sort >"$work/expected"
{ cat "$work/both"; } | sort | cmp - "$work/expected" || exit 1
echo "merge: $(((after - before) / 1000000)) milliseconds for $(wc -l <"$work/both") lines"
