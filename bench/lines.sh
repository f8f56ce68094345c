#!/usr/bin/env bash
# Measures how long two programs take for the same million commands.
#
#   bench/lines.sh OURS SECOND
#
# OURS and SECOND read commands to one line as text on standard input and
# answer on standard output. The commands are made by `compare`, which lies
# beside SECOND (or is named by COMPARE): data, requests, polls, reads and
# clearings on terminals and printers in turn, first on plain lines, then on
# losing ones, where what is lost is sent again. Nothing is built here.
#
# Each program reads a file and writes to nowhere. The two run in turn, five
# times each, and the median of the elapsed times counts: starting the program,
# reading the text, the commands themselves and writing the answers. Before
# that their answers are compared once, so that only equal work is measured.
# Elapsed time takes in what else the machine does; so the processor time, the
# program's own and the system's for it, is summed over the five runs besides.
#
# Printed for plain and for losing lines: both medians, the ratio of ours to the
# other, the same ratio of the processor times, and our elapsed time for one
# command, also as a share of the 5.09 microseconds that one word takes on the
# coax (12 bits at 2.3587 MHz).

set -euo pipefail
export LC_ALL=C

if [ $# -ne 2 ]; then
    echo "usage: bench/lines.sh OURS SECOND" >&2
    exit 2
fi
ours=$1
second=$2
compare=${COMPARE:-$(dirname -- "$second")/compare}
commands=1000000
seed=1
times=5

scratch=$(mktemp -d)
trap 'rm -rf -- "$scratch"' EXIT

# What one run of a program takes for the input file: microseconds elapsed, then
# seconds of the processor, the program's own and the system's.
measure() {
    local TIMEFORMAT='%3U %3S'
    local begun=${EPOCHREALTIME/./}
    { time "$1" <"$scratch/input" >/dev/null; } 2>"$scratch/spent"
    local ended=${EPOCHREALTIME/./}
    echo "$((ended - begun)) $(<"$scratch/spent")"
}

median() {
    sort -n "$1" | sed -n "$(((times + 1) / 2))s/ .*//p"
}

processor() {
    awk '{ spent += $2 + $3 } END { print spent }' "$1"
}

for kind in plain losing; do
    "$compare" --commands "$seed" "$commands" "$kind" >"$scratch/input"

    "$ours" <"$scratch/input" >"$scratch/ours"
    "$second" <"$scratch/input" >"$scratch/second"
    if ! cmp -s "$scratch/ours" "$scratch/second"; then
        echo "$kind: the answers differ" >&2
        exit 1
    fi

    : >"$scratch/ours"
    : >"$scratch/second"
    for _ in $(seq "$times"); do
        measure "$ours" >>"$scratch/ours"
        measure "$second" >>"$scratch/second"
    done

    awk -v kind="$kind" -v commands="$commands" \
        -v ours="$(median "$scratch/ours")" -v second="$(median "$scratch/second")" \
        -v our_processor="$(processor "$scratch/ours")" \
        -v second_processor="$(processor "$scratch/second")" 'BEGIN {
            each = ours / commands
            printf "%s: ours %.1f ms, Rust %.1f ms, ours : Rust %.2f, ", \
                kind, ours / 1000, second / 1000, ours / second
            printf "processor time %.2f, ", our_processor / second_processor
            printf "%.4f microseconds a command, %.2f %% of 5.09\n", each, 100 * each / 5.09
        }'
done
