#!/usr/bin/env bash
# Reads heap images by the program and by a second reader, images.py, which goes by docs/images.md, and compares what the two say: of
# an image of a run, and of each file that it becomes where a byte is changed, its end is cut off, or a byte follows.
#
# usage: examples/images.sh [EXTERM], where EXTERM is the program (./exterm). The last line is 'N passed, M failed'.
set -u
here=$(cd "$(dirname "$0")" && pwd) || exit 1
exterm=${1:-$here/../exterm}
case $exterm in
/*) ;;
*/*) exterm=$PWD/$exterm ;;
esac

if ! command -v python3 >/dev/null; then
    echo "images: skipped: there is no python3, so images aren't read by a second reader"
    echo "0 passed, 0 failed"
    exit
fi

# The launcher looks for changed sources at each call, and here are thousands; it builds the program at the first.
program=$here/../crates/exterm_cli/out/exterm_cli
"$exterm" >/dev/null 2>&1 </dev/null
if [ "$exterm" -ef "$here/../exterm" ] && [ -x "$program" ]; then
    exterm=$program
fi

work=$(mktemp -d) || exit 1
trap 'rm -rf "$work"' EXIT
PYTHONDONTWRITEBYTECODE=1 python3 "$here/images.py" "$exterm" "$work" >"$work/said"
cat "$work/said"
tail -n 1 "$work/said" | grep -q ' 0 failed$'
