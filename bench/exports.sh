#!/bin/sh
# Times `export` by whole runs of the program, on packages near their limits: many definitions, a struct with many labels,
# alternatives of many texts, in order and in no order, and a conjunction of many limits. A line for each: the size of the
# source; what the run takes beyond the program's start; the megabytes of source in a second; the same as a multiple of what
# a tenth of the package takes, which is 10 where the time is linear; the most memory, and how many bytes of it there are
# for each byte of source beyond those of a small run. Then what each step takes beyond the one before, in milliseconds: tokens,
# parsing, resolving, the guard, the schema, its document, its text. Fails where ten times the package takes more than 16 times as long.
# usage: exports.sh PROGRAM BENCH
set -eu

. "$(dirname "$0")/timing.sh"
bench=$2

# The nanoseconds of one run on a source: the least of some.
run_time() { # source
    "$taken" 9 0 /dev/null /dev/null "$program" export --root '#A0' "$1"
}

# The most memory of a run in KiB, by GNU's time, where it is there.
if [ "$(/usr/bin/time -f %M true 2>&1 || true)" -gt 0 ] 2> /dev/null; then
    peak_of() { # source
        /usr/bin/time -f %M -o "$folder/peak" "$program" export --root '#A0' "$1" > /dev/null
        tail -n 1 "$folder/peak"
    }
else
    peak_of() { echo 0; }
    echo "no memory is measured: there is no GNU /usr/bin/time"
fi

# So many definitions, each with a struct of 23 labels that refers to the next definition.
definitions() { # count
    awk -v count="$1" 'BEGIN {
        for (i = 0; i < count; i++) {
            printf "#A%d: {", i
            for (k = 0; k < 22; k++) printf "field_%02d%s: int, ", (k * 7) % 22, (k % 3 ? "" : "?")
            if (i + 1 < count) printf "next?: #A%d, ", i + 1
            print "...}"
        }
    }'
}

# A struct of so many labels, none of them in order.
labels() { # count
    awk -v count="$1" 'BEGIN {
        printf "#A0: {"
        for (i = 0; i < count; i++) printf "%slabel_%06d: string", (i ? ", " : ""), i * 7919 % count
        print "}"
    }'
}

# An alternative of so many texts.
texts() { # count
    awk -v count="$1" 'BEGIN {
        printf "#A0: "
        for (i = 0; i < count; i++) printf "%s\"text %06d\"", (i ? " | " : ""), i
        print ""
    }'
}

# The same in no order, of texts that begin alike.
scattered() { # count
    awk -v count="$1" 'BEGIN {
        printf "#A0: "
        for (i = 0; i < count; i++) printf "%s\"enumerated text %05d\"", (i ? " | " : ""), i * 7919 % count
        print ""
    }'
}

# A conjunction of so many limits.
limits() { # count
    awk -v count="$1" 'BEGIN {
        printf "#A0: "
        for (i = 0; i < count; i++) printf "%s!=%d", (i ? " & " : ""), i
        print ""
    }'
}

echo '#A0: int' > "$folder/small"
start=$(run_time "$folder/small")
base=$(peak_of "$folder/small")
failed=0

measure() { # name count
    "$1" "$2" > "$folder/source"
    cp "$folder/source" "$folder/$1"
    "$1" "$(($2 / 10))" > "$folder/tenth"
    whole=$(run_time "$folder/source")
    tenth=$(run_time "$folder/tenth")
    whole=$((whole - start))
    tenth=$((tenth - start))
    [ "$tenth" -gt 0 ] || tenth=1
    bytes=$(wc -c < "$folder/source")
    awk -v name="$1" -v bytes="$bytes" -v taken="$whole" -v tenth="$tenth" -v peak="$(peak_of "$folder/source")" -v base="$base" 'BEGIN {
        slow = taken > 16 * tenth
        printf "%-12s %8d %9.2f %7.1f %7.1f %8d %7.0f%s\n", name, bytes, taken / 1e6, bytes / taken * 1e3, taken / tenth, peak,
            (peak - base) * 1024 / bytes, (slow ? "  grows faster than the source" : "")
        exit slow
    }' || failed=1
}

printf '%-12s %8s %9s %7s %7s %8s %7s\n' export bytes ms MB/s growth KiB B/B
measure definitions 1000
measure labels 24900
measure texts 49900
measure scattered 40000
measure limits 49900

# A line for a shape: the time of each step beyond that of the step before.
steps() { # name
    line=$(printf '%-12s' "$1")
    before=0
    for step in lex parse resolve guard compile document text; do
        whole=$(program=$bench; time_of "$folder/$1" "$step" 3)
        line="$line $(awk -v taken="$((whole - before))" 'BEGIN { printf "%8.2f", taken / 1e6 }')"
        before=$whole
    done
    echo "$line"
}

printf '%-12s %8s %8s %8s %8s %8s %8s %8s\n' ms lex parse resolve guard compile document text
for shape in definitions labels texts scattered limits; do steps "$shape"; done
exit $failed
