#!/bin/sh
# Runs the program on real streams, files and words. No contract reaches these: the proof of `exterm` ends where `main` and the
# adapters hand them in. What is expected is worked out by the rules of docs/, and each check names its rule; nothing is taken from
# what the program printed, but for the number of a guest's steps, which is checked by running it on that budget.
#
# usage: examples/streams.sh [EXTERM [GUEST]], where EXTERM is the program (./exterm) and GUEST the guest (examples/streams.elf)
set -u
here=$(cd "$(dirname "$0")" && pwd) || exit 1

# absolute FILE: its path from the root, where it has a path
absolute() {
    case $1 in
    /*) echo "$1" ;;
    */*) echo "$PWD/$1" ;;
    *) command -v "$1" || echo "$1" ;;
    esac
}
exterm=$(absolute "${1:-$here/../exterm}")
guest=$(absolute "${2:-$here/streams.elf}")

work=$(mktemp -d) || exit 1
trap 'rm -rf "$work"' EXIT
mkdir "$work/files" && cd "$work/files" || exit 1
cp "$guest" echo.elf && cp "$here/../crates/exterm_cli/data/hi.elf" hi.elf || exit 1

passed=0
failed=0

# Prints the name of a check, and what is wrong.
wrong() {
    echo "streams: $*"
    failed=$((failed + 1))
}

# The program's answer to words, with standard input as it is.
answer() {
    "$exterm" "$@" >"$work/out" 2>"$work/err"
    status=$?
}

# out FORMAT [WORD ..], err FORMAT [WORD ..]: what is to be printed, as printf takes it
out() {
    # shellcheck disable=SC2059
    printf "$@" >"$work/out.wanted"
}

err() {
    # shellcheck disable=SC2059
    printf "$@" >"$work/err.wanted"
}

# right NAME STATUS: counts a check as passed where the status is STATUS, and both outputs are what is to be printed, byte for byte.
right() {
    if [ "$status" -ne "$2" ]; then
        wrong "$1: status $status for $2: $(tail -n 1 "$work/err")"
    elif ! cmp -s "$work/out.wanted" "$work/out"; then
        wrong "$1: standard output: $(cmp "$work/out.wanted" "$work/out" 2>&1)"
    elif ! cmp -s "$work/err.wanted" "$work/err"; then
        wrong "$1: standard error: $(cmp "$work/err.wanted" "$work/err" 2>&1)"
    else
        passed=$((passed + 1))
    fi
}

# same NAME FILE FILE: counts a check as passed where the files have the same bytes.
same() {
    if cmp -s "$2" "$3"; then
        passed=$((passed + 1))
    else
        wrong "$1: $(cmp "$2" "$3" 2>&1)"
    fi
}

# How many steps the last run told of.
steps_told() {
    sed -n 's/^exterm: exit [0-9]* after \([0-9]*\) steps$/\1/p' "$work/err"
}

# report BYTES: standard error after a run of the echoing guest that ended: its own line, and the two of the report (docs/program.md).
report() {
    steps=$(steps_told)
    err '%s\nexterm: heap allocations 0 frees 0 signals 0\nexterm: exit 200 after %s steps\n' "$1" "$steps"
}

# patches VERSION PAD SITE ..: a patch text (docs/patches.md) with these sites in order, which rise
patches() {
    version=$1
    pad=$2
    shift 2
    echo "exterm-patches $version"
    seq "$@" | awk -v pad="$pad" '{ printf "pad %08x %d\n", $1, pad }'
}

# A guest's bytes, its report and its status (docs/program.md). Its nine instructions run one after the other, so the steps are nine.
hi='hi\n'
hi_report='exterm: heap allocations 0 frees 0 signals 0\nexterm: exit 3 after 9 steps\n'
answer run hi.elf </dev/null
out "$hi"
err "$hi_report"
right "hi" 3

# The guest's words are those of the command line, byte for byte, behind the file's name (docs/guest.md, "Start"; docs/
# command-line.md, "Words": behind `--` they may be empty, and begin with `-`). A read answers the input's next bytes, or as many as
# are left, so the guest prints all of the input; what it writes to descriptor 2 is on standard error before the report. The exit
# code is the guest's modulo 256, so 200 is the status.
seq 40000 >"$work/input"
bytes=$(wc -c <"$work/input" | tr -d ' ')
answer run echo.elf -- '' 'a ' ' b' '-c' -- 'two words' "$(printf '\303\274')" <"$work/input"
out '[echo.elf]\n[]\n[a ]\n[ b]\n[-c]\n[--]\n[two words]\n[\303\274]\n'
cat "$work/input" >>"$work/out.wanted"
report "$bytes"
right "words and input" 200

# A budget of as many steps as were told of is enough, and one step less isn't (docs/guest.md, "One step" and "Whole runs"). Only the
# exit is missing then.
set -- '' 'a ' ' b' '-c' -- 'two words' "$(printf '\303\274')"
answer run --steps "$steps" echo.elf -- "$@" <"$work/input"
right "budget of all steps" 200
less=$((steps - 1))
answer run --steps "$less" echo.elf -- "$@" <"$work/input"
err '%s\nexterm: heap allocations 0 frees 0 signals 0\nexterm: budget after %s steps\n' "$bytes" "$less"
right "budget of a step less" 124

# A word may have as many bytes as the argument list (docs/command-line.md: 65,536 with a zero byte after each string).
long=$(seq -s . 12000 | cut -c 1-60000)
answer run echo.elf -- "$long" </dev/null
out '[echo.elf]\n[%s]\n' "$long"
report 0
right "a long word" 200

# The ELF file's name is the first string as it was given; it may have spaces at its ends, and lie in a folder.
mkdir folder
cp echo.elf 'folder/ e.elf '
answer run 'folder/ e.elf ' </dev/null
out '[folder/ e.elf ]\n'
report 0
right "a name with spaces at its ends" 200
rm 'folder/ e.elf '

# One write call is one piece, whatever its size (docs/program.md, step 6).
seq 0 131071 | awk '{ printf "%07d\n", $1 }' >"$work/flood"
answer run echo.elf -- flood </dev/null
cp "$work/flood" "$work/out.wanted"
err 'exterm: heap allocations 0 frees 0 signals 0\nexterm: exit 0 after %s steps\n' "$(steps_told)"
right "a write of 1,048,576 bytes" 0
"$exterm" run echo.elf -- flood </dev/null 2>"$work/err" | cat >"$work/out"
same "a write of 1,048,576 bytes into a pipe" "$work/flood" "$work/out"

# The input ends where the source answers nothing, and not where it answers less than was asked for (docs/outside.md, "Sources").
answer run echo.elf </dev/null
out '[echo.elf]\n'
report 0
right "no input" 200
for piece in 1 2 3 4 5; do
    printf '%s' "$piece"
    sleep 0.1
done | {
    answer run echo.elf
    out '[echo.elf]\n12345'
    report 5
    right "input in small pieces" 200
    echo "$passed $failed" >"$work/counts"
}
read -r passed failed <"$work/counts"
# shellcheck disable=SC2002 # it's to be a pipe
cat "$work/input" | {
    answer run echo.elf
    out '[echo.elf]\n'
    cat "$work/input" >>"$work/out.wanted"
    report "$bytes"
    right "input from a pipe" 200
    echo "$passed $failed" >"$work/counts"
}
read -r passed failed <"$work/counts"

# Of the input is taken what the guest reads, and what it doesn't read is left (docs/program.md, "Order", step 5), also by a repair,
# whose runs read no more than the first.
for words in 'run hi.elf' 'repair --out left.patches hi.elf'; do
    {
        # shellcheck disable=SC2086
        answer $words
        cat >"$work/rest"
    } <"$work/input"
    same "input after $words" "$work/input" "$work/rest"
done
rm left.patches

# A run keeps none of its input, so that may be of any length. A repair keeps what its runs read, at most 67,108,864 bytes, and is
# refused at the read past them (status 116); this guest reads 1,000 bytes at a time, and has printed those before it.
head -c 67108865 /dev/zero >"$work/more"
answer run echo.elf <"$work/more"
out '[echo.elf]\n'
cat "$work/more" >>"$work/out.wanted"
report 67108865
right "a long input" 200
answer repair --out long.patches echo.elf <"$work/more"
out '[echo.elf]\n'
head -c 67108000 "$work/more" >>"$work/out.wanted"
err 'exterm: input\n'
right "an input longer than what is kept" 116
[ ! -e long.patches ] || wrong "a repair that was refused has written its file"
rm "$work/more"

# A source that fails is told as `outside input` where the guest reads (status 127), and changes nothing where it doesn't. A descriptor
# that is closed, or a folder's, answers an error to every read.
out "$hi"
err "$hi_report"
answer run hi.elf <&-
right "closed input that isn't read" 3
answer run hi.elf <.
right "a folder as the input that isn't read" 3
out '[echo.elf]\n'
err 'exterm: outside input\n'
answer run echo.elf <&-
right "closed input" 127
answer run echo.elf <.
right "a folder as the input" 127

# Where no guest runs, nothing of the input is taken (docs/program.md, "Order" and "Answers").
printf 'exterm-patches 1\n' >empty.patches
for words in 'show hi.elf' 'merge empty.patches' 'run nowhere.elf' 'run --seed x hi.elf' 'run --patches hi.elf hi.elf' 'judge hi.elf'; do
    {
        # shellcheck disable=SC2086
        answer $words
        cat >"$work/rest"
    } <"$work/input"
    same "input after $words" "$work/input" "$work/rest"
done

# A table is written as its one text of version 2, to `--out`, and nothing is printed (docs/program.md, "Merge"; docs/patches.md). The
# join of the even and the odd sites has them all, also where one is of version 1. The file is made, or its old bytes are replaced,
# whether they were more or fewer.
patches 1 7 0 2 24998 >even.patches
patches 2 7 1 2 24999 >odd.patches
patches 2 7 0 24999 >"$work/all"
out ''
err ''
for name in joined ' with spaces ' "folder/$(printf '\303\274')" 'folder/with spaces '; do
    answer merge --out "$name" even.patches odd.patches
    right "merge --out '$name'" 0
    same "what '$name' has" "$work/all" "$name"
    seq 100000 >"$name"
    answer merge --out "$name" even.patches odd.patches
    same "what '$name' has, after more" "$work/all" "$name"
    # Each file is read whole, and joined with the empty table it is itself.
    cp "$work/all" "$work/out.wanted"
    answer merge "$name" empty.patches
    right "merge '$name'" 0
    out ''
done
# No other name was taken for these.
ls -A . folder >"$work/listed"
LC_ALL=C sort >"$work/listed.sorted" <"$work/listed"
printf '%s\n' '' ' with spaces ' .: echo.elf empty.patches even.patches folder folder: hi.elf joined odd.patches 'with spaces ' \
    "$(printf '\303\274')" | LC_ALL=C sort >"$work/listed.wanted"
same "the files that there are" "$work/listed.wanted" "$work/listed.sorted"

# A file that can't be opened, made or written to is told as `outside file` (docs/outside.md, "Adapters"; docs/program.md).
err 'exterm: outside file\n'
for words in 'run nowhere.elf' 'run nowhere/hi.elf' 'run --patches nowhere hi.elf' 'merge --out nowhere/joined even.patches' \
    'merge --out folder even.patches' 'merge --out /dev/full even.patches' 'merge empty.patches nowhere'; do
    # shellcheck disable=SC2086
    answer $words </dev/null
    right "$words" 127
done
answer run 'hi.elf ' </dev/null
right "a name that is another with a space behind it" 127

# A file is too long where more than 268,435,456 bytes were read of it (docs/outside.md); word 2 named it.
answer run /dev/zero </dev/null
err 'exterm: name 2 long\n'
right "a file without end" 113

# What fails on standard output is told as `outside output` (docs/program.md, status 127). A full device and a pipe that nobody reads
# take nothing.
out ''
err 'exterm: outside output\n'
mkfifo "$work/pipe"
# shellcheck disable=SC2094 # both ends of one pipe
exec 3<>"$work/pipe" 4>"$work/pipe" 3>&- # a writer that has no reader any more
: >"$work/out"
for words in 'run hi.elf' 'run echo.elf' 'show hi.elf' 'merge even.patches'; do
    # shellcheck disable=SC2086
    "$exterm" $words </dev/null >/dev/full 2>"$work/err"
    status=$?
    right "$words >/dev/full" 127
    # shellcheck disable=SC2086
    "$exterm" $words </dev/null >&4 2>"$work/err"
    status=$?
    right "$words on a closed pipe" 127
    # shellcheck disable=SC2086
    "$exterm" $words </dev/null >&- 2>"$work/err"
    status=$?
    right "$words with standard output closed" 127
done

# A put that fails has put a front of its bytes (docs/outside.md, "Sinks"). Here a file may have 262,144 bytes, 512 blocks of 512.
(
    trap '' XFSZ
    ulimit -f 512
    "$exterm" run echo.elf -- flood </dev/null >"$work/out" 2>"$work/err"
    echo $? >"$work/status"
)
status=$(cat "$work/status")
head -c 262144 "$work/flood" >"$work/out.wanted"
right "a file that is full" 127

# Where standard error fails, the status is 127, and nothing more is put on it; what was printed before stands (docs/program.md).
out "$hi"
err ''
: >"$work/err"
"$exterm" run hi.elf </dev/null >"$work/out" 2>/dev/full
status=$?
right "run 2>/dev/full" 127
"$exterm" run hi.elf </dev/null >"$work/out" 2>&4
status=$?
right "run with standard error on a closed pipe" 127
"$exterm" run hi.elf </dev/null >"$work/out" 2>&-
status=$?
right "run with standard error closed" 127
exec 4>&-

# Words that aren't text count as none (docs/program.md); the first refusal of no words is `command` at place 1, of an empty file
# name `name` at its own (docs/command-line.md).
out ''
err 'exterm: words 1 command\n'
answer </dev/null
right "no words" 120
answer "$(printf '\377')" </dev/null
right "a word that isn't UTF-8" 120
answer run hi.elf -- "$(printf '\303')" </dev/null
right "a guest's word that isn't UTF-8" 120
answer '' </dev/null
right "an empty command" 120
answer ' run' hi.elf </dev/null
right "a command with a space before it" 120
answer run '' </dev/null
err 'exterm: words 2 name\n'
right "an empty name" 120

[ "$failed" -gt 0 ] || echo "streams: the program does on real streams, files and words what the rules say, in $passed checks"
echo "$passed passed, $failed failed"
[ "$failed" -eq 0 ]
