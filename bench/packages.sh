#!/bin/sh
# Times names and packages: how long a source takes from its bytes to a checked package, and to resolve and to guard beyond the step
# before; and how many times longer than a source of a tenth of its size. What a step takes beyond another one may be too little to be
# told beside other work on the machine: then it is 0 or less, and there is no ratio.
# usage: packages.sh PROGRAM, which takes `parse`, `resolve` or `guard` and how many times the source on standard input
set -eu

. "$(dirname "$0")/timing.sh"

# A source of a shape, of so many definitions or fields.
source_of() { # shape count
    awk -v shape="$1" -v count="$2" 'BEGIN {
        # 50 nodes a definition: the literal, a reference, and 16 times two operands joined by `&`; the references are
        # strong in chains of 64
        if (shape == "package") for (i = 0; i < count; i++) {
            line = "#Record_" i ": {" (i % 64 == 63 || i == count - 1 ? "next?" : "next") ": #Record_" (i + 1) % count
            for (j = 0; j < 16; j++) line = line ", field_" j ": int & <9"
            print line "}"
        }
        # one literal of so many fields, each with a name as its value
        if (shape == "literal") {
            printf "#Wide: {"
            for (i = 0; i < count; i++) printf "%sfield_%d: int", (i ? ", " : ""), i
            print "}"
        }
        # each definition refers twice to the next
        if (shape == "doubling") {
            for (i = 0; i < count; i++) print "#A" i ": #A" i + 1 " & #A" i + 1
            print "#A" count ": int"
        }
    }'
}

# The time of a step beyond that of the step before, or where that is `nothing` the time of all steps up to it.
beyond() { # source step before times
    before=0
    if [ "$3" != nothing ]; then before=$(time_of "$1" "$3" "$4"); fi
    whole=$(time_of "$1" "$2" "$4")
    echo $((whole - before))
}

# A line for a shape: a step's time, of the whole and of a tenth.
measure() { # shape step before count times
    name=$2
    if [ "$3" = nothing ]; then name=all; fi
    source_of "$1" $(($4 / 10)) > "$folder/small"
    source_of "$1" "$4" > "$folder/large"
    small=$(beyond "$folder/small" "$2" "$3" $(($5 * 10)))
    large=$(beyond "$folder/large" "$2" "$3" "$5")
    awk -v step="$name" -v shape="$1" -v count="$4" -v bytes="$(wc -c < "$folder/large")" -v small="$small" -v large="$large" 'BEGIN {
        ratio = small > 0 && large > 0 ? sprintf("%.1f", large / small) : "-"
        printf "%-8s %-9s %8d %9d %10.2f %8s\n", step, shape, count, bytes, large / 1e6, ratio
    }'
}

printf '%-8s %-9s %8s %9s %10s %8s\n' step shape count bytes ms ratio
measure package guard nothing 1000 20
measure package resolve parse 1000 20
measure literal resolve parse 49000 20
measure package guard resolve 1000 20
measure doubling guard resolve 60 2000
