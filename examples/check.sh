#!/bin/sh
# Checks the built program: on real streams, files and words (streams.sh), at a terminal (prompt.py), on heap images (images.sh), and by
# the examples. These are run as guests, the files of this folder and ones built anew, and what they print and their status are
# compared with those of the same sources built for this machine. Those with a heap are run under the seeds 1 to 20: without a signal,
# and with signals where they have a bug. A buggy one with its patches has to do as the one without the bug does, both with those that
# stand here and with those that repairs find, and without any where replicas of it vote. So have the twelve programs of bugs.c under the seeds 1 to 50, but for two that a
# repair can't help. The programs that are made from the numbers 0 to 40 are run under five seeds each, and may have no signal.
# What needs a tool that isn't here is skipped, with a line that says so. The last line is 'N passed, M failed'.
#
# usage: examples/check.sh [EXTERM], where EXTERM is the program to run them by (./exterm)
set -u
cd "$(dirname "$0")" || exit 1
exterm=${1:-../exterm}
case $exterm in /*) ;; */*) [ $# -gt 0 ] && exterm=$OLDPWD/$exterm ;; esac

work=$(mktemp -d) || exit 1
trap 'rm -rf "$work"' EXIT
passed=0
failed=0

say() {
    echo "examples: $*"
}

right() {
    say "$@"
    passed=$((passed + 1))
}

wrong() {
    say "$@"
    failed=$((failed + 1))
}

finish() {
    echo "$passed passed, $failed failed"
    [ "$failed" -eq 0 ]
    exit
}

# counted SCRIPT GUEST: runs a script of this folder with this guest, and adds what it counts.
counted() {
    "./$1" "$exterm" "$2" >"$work/counted"
    sed '$d' "$work/counted"
    tail -n 1 "$work/counted" >"$work/counts"
    read -r ok _ bad _ <"$work/counts"
    case $ok$bad in
    '' | *[!0-9]*) wrong "$1 doesn't say what passed" ;;
    *) passed=$((passed + ok)) failed=$((failed + bad)) ;;
    esac
}

# What a program prints on this machine, and its status.
want() {
    "$work/host/$1" <"inputs/$1.txt" >"$work/wanted"
    wanted=$?
}

# run FILE PROGRAM [OPTION ..]: whether the guest does as the program does on this machine.
run() {
    file=$1 input=inputs/$2.txt
    shift 2
    "$exterm" run "$@" "$file" <"$input" >"$work/printed" 2>"$work/report"
    status=$?
    signals=$(sed -n 's/^exterm: heap allocations [0-9]* frees [0-9]* signals //p' "$work/report")
    [ "$status" -eq "$wanted" ] && cmp -s "$work/wanted" "$work/printed"
}

difference() {
    echo "differs, status $status for $wanted: $(tail -n 1 "$work/report")"
}

# quiet NAME FILE PROGRAM [OPTION ..]: the same under each seed, and without a signal.
quiet() {
    name=$1
    shift
    for seed in $seeds; do
        if ! run "$@" --seed "$seed"; then
            wrong "$name, seed $seed: $(difference)"
            return
        fi
        if [ "$signals" != 0 ]; then
            wrong "$name, seed $seed: $signals signals"
            return
        fi
    done
    right "$name: same as on this machine under 20 seeds, without a signal"
}

# noisy NAME FILE PROGRAM: signals under each seed, whatever is printed.
noisy() {
    name=$1
    shift
    same=0
    for seed in $seeds; do
        run "$@" --seed "$seed" && same=$((same + 1))
        case $signals in
        '' | 0)
            wrong "$name, seed $seed: no signal: $(tail -n 1 "$work/report")"
            return
            ;;
        esac
    done
    right "$name: signals under 20 seeds, $same times the same as without the bug"
}

# repaired NAME FILE PROGRAM: repairs one after the other, each with the patches of those before, until a run has no signal. With what
# they find it is quiet under 20 other seeds.
repaired() {
    name=$1 file=$2 program=$3 repairs=0
    echo 'exterm-patches 2' >"$work/found"
    while [ $repairs -lt 5 ]; do
        "$exterm" repair --patches "$work/found" --out "$work/found" "$file" <"inputs/$program.txt" >"$work/printed" 2>"$work/report"
        grep -q '^exterm: images 0 ' "$work/report" && break
        repairs=$((repairs + 1))
    done
    if [ $repairs -eq 0 ] || [ $repairs -eq 5 ]; then
        wrong "$name: $repairs repairs: $(tr '\n' ' ' <"$work/report")"
        return
    fi
    old_seeds=$seeds
    seeds="101 102 103 104 105 106 107 108 109 110 111 112 113 114 115 116 117 118 119 120"
    quiet "$name, after $repairs repairs" "$file" "$program" --patches "$work/found"
    seeds=$old_seeds
}

# voted FILE PROGRAM REPLICAS: alone it is wrong under some of the seeds, and where so many replicas vote it is right under each.
voted() {
    file=$1 program=$2 replicas=$3 garbage=0
    for seed in $seeds; do
        run "$file" "$program" --seed "$seed" || garbage=$((garbage + 1))
    done
    if [ $garbage -eq 0 ]; then
        wrong "$program with its bug: right alone under each seed, so there is nothing to outvote"
        return
    fi
    for seed in $seeds; do
        "$exterm" replicate --replicas "$replicas" --seed "$seed" "$file" <"inputs/$program.txt" >"$work/printed" 2>"$work/report"
        status=$?
        if [ "$status" -ne "$wanted" ] || ! cmp -s "$work/wanted" "$work/printed"; then
            wrong "$program with its bug, $replicas replicas, seed $seed: $(difference)"
            return
        fi
    done
    right "$program with its bug: wrong alone under $garbage of 20 seeds, right under each where $replicas replicas vote"
}

# repair_bug FILE NAME: repairs a program of bugs.c, and sets what was found: the images, the pads and the deferrals.
repair_bug() {
    rm -f "$work/found"
    "$exterm" repair --out "$work/found" "$1" -- "$2" </dev/null >"$work/printed" 2>"$work/report"
    found=$(sed -n 's/^exterm: images \([0-9]*\) pads \([0-9]*\) defers \([0-9]*\)$/\1 \2 \3/p' "$work/report")
}

# run_bug FILE NAME: runs a program of bugs.c with what was found under 50 seeds. How often it then has no signal, and how often it
# prints what the one without the error does.
run_bug() {
    silent=0 same=0 seed=0
    "$work/host/bugs" "$2" >"$work/wanted"
    while [ $seed -lt 50 ]; do
        seed=$((seed + 1))
        "$exterm" run --seed $seed --patches "$work/found" "$1" -- "$2" </dev/null >"$work/printed" 2>"$work/report" || continue
        grep -q ' signals 0$' "$work/report" && silent=$((silent + 1))
        cmp -s "$work/wanted" "$work/printed" && same=$((same + 1))
    done
}

# bug FILE NAME FOUND: a program of bugs.c is repaired by so many images, pads and deferrals.
bug() {
    repair_bug "$1" "$2"
    if [ "$found" != "$3" ]; then
        wrong "bugs $2: found $found and not $3: $(tr '\n' ' ' <"$work/report")"
        return
    fi
    run_bug "$1" "$2"
    if [ "$silent $same" = "50 50" ]; then
        right "bugs $2, repaired: right under 50 seeds, without a signal"
    else
        wrong "bugs $2, repaired: of 50 runs $silent without a signal, $same right"
    fi
}

# stays FILE NAME FOUND SILENT WHY: a program of bugs.c can't be repaired.
stays() {
    repair_bug "$1" "$2"
    run_bug "$1" "$2"
    if [ "$found" != "$3" ] || [ "$(wc -l <"$work/found")" -ne 1 ]; then
        wrong "bugs $2: found $found and not $3"
    elif [ "$4" = silent ] && [ "$silent" -eq 50 ] && [ "$same" -lt 50 ]; then
        right "bugs $2 isn't repaired: $5"
    elif [ "$4" = signals ] && [ "$silent" -lt 50 ]; then
        right "bugs $2 isn't repaired: $5"
    else
        wrong "bugs $2: of 50 runs $silent without a signal, $same right"
    fi
}

# made NUMBER ..: a made program prints the same under five seeds, without a signal.
made() {
    for number in "$@"; do
        "$exterm" make --out "$work/made.elf" "$number" || { wrong "make $number: status $?" && return; }
        for seed in 0 1 2 77 18446744073709551615; do
            "$exterm" run --seed "$seed" "$work/made.elf" </dev/null >"$work/sum.$seed" 2>"$work/report"
            status=$?
            if [ $status -ne 0 ] || ! grep -q ' signals 0$' "$work/report" || ! cmp -s "$work/sum.0" "$work/sum.$seed"; then
                wrong "made $number, seed $seed: status $status: $(tr '\n' ' ' <"$work/report")"
                return
            fi
        done
    done
    right "$# made programs: the same under 5 seeds, without a signal"
}

# Whether a guest's code is that of the file that stands here; patches name places in the code.
has_same_code() {
    [ "$1" = "./$2" ] && return
    riscv64-unknown-elf-objcopy -O binary "$1" "$work/code" &&
        riscv64-unknown-elf-objcopy -O binary "$2" "$work/code.here" &&
        cmp -s "$work/code" "$work/code.here"
}

# The first call builds the program where it isn't built, and says how far it is. It has no words, so it answers 120.
"$exterm" 2>&1 >/dev/null </dev/null | grep --line-buffered -v '^exterm: words 1 command$' >&2
"$exterm" >/dev/null 2>&1 </dev/null
if [ $? -ne 120 ]; then
    wrong "the program $exterm doesn't run"
    finish
fi

folders=.
if ! command -v make >/dev/null; then
    say "skipped: there is no make, so no guest is built anew"
elif ! command -v riscv64-unknown-elf-gcc >/dev/null; then
    say "skipped: there is no riscv64-unknown-elf-gcc, so no guest is built anew, and the files that stand here are run alone"
elif make -s guest GUEST="$work/guest"; then
    folders=". $work/guest"
else
    wrong "the guests can't be built"
fi
for folder in $folders; do
    counted streams.sh "$folder/streams.elf"
    if command -v python3 >/dev/null; then
        counted prompt.py "$folder/greet.elf"
    else
        say "python3 is missing, so no guest is talked with at a terminal"
    fi
done

counted images.sh ''

made 0 1 2 3 4 5 6 7 8 9 10 11 12 13 14 15 16 17 18 19 20 21 22 23 24 25 26 27 28 29 30 31 32 33 34 35 36 37 38 39 40

for tool in cc make; do
    if ! command -v $tool >/dev/null; then
        say "skipped: there is no $tool, so the examples aren't compared with this machine's"
        finish
    fi
done
if ! make -s host HOST="$work/host"; then
    wrong "the examples can't be built for this machine"
    finish
fi

for program in primes textstat calc greet; do
    want $program
    for folder in $folders; do
        if run "$folder/$program.elf" $program; then
            right "$program: same as on this machine"
        else
            wrong "$program: $(difference)"
        fi
    done
done

seeds="1 2 3 4 5 6 7 8 9 10 11 12 13 14 15 16 17 18 19 20"
for program in wordcount trees sortlines; do
    want $program
    bug=${program}_bug
    for folder in $folders; do
        quiet "$program" "$folder/$program.elf" "$program"
        noisy "$bug" "$folder/$bug.elf" "$program"
        repaired "$bug" "$folder/$bug.elf" "$program"
        if has_same_code "$folder/$bug.elf" $bug.elf; then
            quiet "$bug with its patches" "$folder/$bug.elf" "$program" --patches "$bug.patches"
        else
            say "$bug: this compiler's code isn't that of the file here, so the patches don't fit it"
        fi
    done
done
want sortlines
voted sortlines_bug.elf sortlines 5
for folder in $folders; do
    guest=$folder/bugs.elf
    for name in one seventeen record grown under4 under32; do
        bug "$guest" $name "3 1 0"
    done
    for name in freed0 freed7 freed40; do
        bug "$guest" $name "3 0 1"
    done
    bug "$guest" two "3 1 1"
    stays "$guest" reads "0 0 0" silent "a read breaks no canary, so no image is taken"
    stays "$guest" far "3 0 0" signals "the store is more than 65,536 bytes past its object"
done
want life
for folder in $folders; do
    quiet life "$folder/life.elf" life
done
finish
