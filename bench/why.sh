#!/bin/sh
# Times `--why` by whole runs of the program, beside the same runs without it: a fleet of 5.79 MB with one fault, by `vet` and
# `validate`, and by `vet` where each of its apps is refused for a misspelt key; the largest table in which each pair is refused
# and reached; and the most missing names that are told. A line for each: the milliseconds of the processor for both runs, how many
# times as long the one with `--why` takes, its most memory in MB, and the bytes of its document. Fails where one fault takes more than 1.5 times as long as
# the verdict, where another run takes more than 300 MB, or where the answer isn't the one that is wanted. Other work on the machine
# makes it fail too.
# usage: why.sh PROGRAM
set -eu

. "$(dirname "$0")/timing.sh"
. "$(dirname "$0")/fleets.sh"
failed=0

# The milliseconds of one run: the least of five.
run_time() { # words
    "$taken" 5 1 /dev/null "$folder/said" "$program" "$@" | awk '{ printf "%.1f", $1 / 1e6 }'
}

# The most memory of a run in KiB.
peak_of() { # words
    /usr/bin/time -f %M -o "$folder/peak" "$program" "$@" > /dev/null || true
    tail -n 1 "$folder/peak"
}

# measure NAME TIMES MEGABYTES LAST WORDS: a line, and what it may take; LAST is in the last line that is printed
measure() {
    name=$1 times=$2 megabytes=$3 last=$4
    shift 4
    before= bytes=
    for word in "$@"; do
        if [ "$before" = --doc ]; then bytes=$(wc -c < "$word"); fi
        before=$word
    done
    plain=$(run_time "$@")
    why=$(run_time "$@" --why)
    if ! tail -n 1 "$folder/said" | grep -qF -- "$last"; then
        echo "$name: the last line isn't the one that is wanted: $(tail -n 1 "$folder/said" | cut -c 1-200)"
        failed=1
    fi
    peak=$(peak_of "$@" --why)
    awk -v name="$name" -v plain="$plain" -v why="$why" -v peak="$peak" -v bytes="$bytes" -v times="$times" -v megabytes="$megabytes" 'BEGIN {
        share = why / plain
        fault = share > times ? "  more than " times " times" : (peak > megabytes * 1024 ? "  more than " megabytes " MB" : "")
        printf "%-28s %9.0f %9.0f %8.2f %8.0f %9d%s\n", name, plain, why, share, peak / 1024, bytes, fault
        exit (fault != "")
    }' || failed=1
}

[ -x /usr/bin/time ] || { echo "there is no GNU time at /usr/bin/time" >&2; exit 1; }
printf '%-28s %9s %9s %8s %8s %9s\n' why 'ms' 'ms --why' times MB bytes
fleet_package > "$folder/fleet.cue"
fleet 12624 > "$folder/good"
sed '6000s/"cpu":[0-9]*/"cpu":"much"/' "$folder/good" > "$folder/one"
sed 's/"count":/"coumt":/' "$folder/good" > "$folder/all"
"$program" export --root '#Fleet' "$folder/fleet.cue" > "$folder/fleet.json"
measure 'one fault: vet' 1.5 300 '/apps/5999/size/cpu: found "much", want int' vet --root '#Fleet' --doc "$folder/one" "$folder/fleet.cue"
measure 'one fault: validate' 1.5 300 '/apps/5999/size/cpu: found "much", want integer' validate --schema "$folder/fleet.json" --doc "$folder/one"
measure 'a fault in each app: vet' 1000 300 'more; --most N tells more' vet --root '#Fleet' --doc "$folder/all" "$folder/fleet.cue"

# 8,192 values by 8,191 rules.
awk 'BEGIN { printf "#P: [...(_|_"; for (i = 1; i < 8188; i++) printf " & _|_"; print ")]" }' > "$folder/never.cue"
awk 'BEGIN { printf "[0"; for (i = 1; i < 8191; i++) printf ",0"; print "]" }' > "$folder/zeros"
measure 'all pairs refused: vet' 1000 300 '67067888 more; --most N tells more' vet --root '#P' --doc "$folder/zeros" "$folder/never.cue"

# 8,192 values by 8,192 names that each map lacks: the most missing names that are told.
awk 'BEGIN { printf "{\"items\":{\"required\":["; for (i = 0; i < 8192; i++) printf "%s\"k%d\"", (i ? "," : ""), i; print "]}}" }' > "$folder/names.json"
awk 'BEGIN { printf "[{}"; for (i = 1; i < 8191; i++) printf ",{}"; print "]" }' > "$folder/maps"
measure 'all names missing: validate' 1000 300 '67100652 more; --most N tells more' validate --schema "$folder/names.json" --doc "$folder/maps"
exit "$failed"
