#!/bin/sh
# Runs all measurements, each with its own lines, and ends with a table of what they say together, as docs/PERFORMANCE.md has it: the most
# telling lines, with the size of what a run reads, its time, its speed, how many times as long it takes for so many times the size, and its
# most memory. Fails where one of the measurements does, and names it.
# usage: table.sh BENCH PROGRAM, the program for measuring and the program `cue2schema`
set -eu

scripts=$(dirname "$0")
bench=$1
command=$2
lines=$(mktemp -d)
trap 'rm -rf "$lines"' EXIT
failed=

# measure NAME WORDS: a script with its words; its lines are shown as they come, and kept
measure() {
    script=$1
    shift
    { sh "$scripts/$script.sh" "$@" || echo "$script" > "$lines/failed"; } | tee "$lines/$script"
    if [ -e "$lines/failed" ]; then failed="$failed $script"; fi
    rm -f "$lines/failed"
}

measure front "$bench"
measure packages "$bench"
measure documents "$bench"
measure judges "$bench" "$command"
measure exports "$command" "$bench"
measure lines "$command"
measure why "$command"
measure questions "$command"

echo
awk -f "$scripts/table.awk" "$lines/front" "$lines/packages" "$lines/documents" "$lines/exports" "$lines/judges" "$lines/lines" "$lines/why" "$lines/questions"
[ -z "$failed" ] || { echo "not within their limits:$failed"; exit 1; }
