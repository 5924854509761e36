#!/bin/sh
# Times the commands that ask questions about a package, by whole runs of the program: `compare` of a package with itself, on many
# definitions, a chain of them, a struct with many keys, a list with many fixed elements, tagged alternatives, constants and classes of
# integers; and `samples` of many definitions. A line for each: the bytes of the package; the milliseconds of the processor for the run
# beyond the program's start; the same as a multiple of what a tenth of the package takes, which is 10 where the time is linear and 100
# where it is the square; and the most memory in KiB. Fails where a run takes more than 10 s or 500 MB, or where the answer isn't the one
# that is wanted.
# usage: questions.sh PROGRAM
set -eu

. "$(dirname "$0")/timing.sh"
failed=0

# The nanoseconds of one run: the least of five. What it says is kept.
run_time() { # words
    "$taken" 5 0 /dev/null "$folder/said" "$program" "$@"
}

# The most memory of a run in KiB.
peak_of() { # words
    /usr/bin/time -f %M -o "$folder/peak" "$program" "$@" > /dev/null
    tail -n 1 "$folder/peak"
}

# So many definitions, each with a struct of 23 labels that refers to the next definition.
structs() { # count
    awk -v count="$1" 'BEGIN {
        for (i = 0; i < count; i++) {
            printf "#A%d: {", i
            for (k = 0; k < 22; k++) printf "field_%02d%s: int, ", (k * 7) % 22, (k % 3 ? "" : "?")
            if (i + 1 < count) printf "next?: #A%d, ", i + 1
            print "...}"
        }
    }'
}

# A chain of so many definitions.
chain() { # count
    awk -v count="$1" 'BEGIN {
        for (i = 0; i + 1 < count; i++) printf "#A%d: {next?: #A%d, name: string}\n", i, i + 1
        printf "#A%d: {name: string}\n", count - 1
    }'
}

# A struct of so many labels, none of them in order.
labels() { # count
    awk -v count="$1" 'BEGIN {
        printf "#A0: {"
        for (i = 0; i < count; i++) printf "%slabel_%06d: string", (i ? ", " : ""), i * 7919 % count
        print "}"
    }'
}

# A list of so many fixed elements.
elements() { # count
    awk -v count="$1" 'BEGIN {
        printf "#A0: ["
        for (i = 0; i < count; i++) printf "%sint", (i ? ", " : "")
        print "]"
    }'
}

# So many alternatives, each a struct with a tag of its own.
tagged() { # count
    awk -v count="$1" 'BEGIN {
        printf "#A0: "
        for (i = 0; i < count; i++) printf "%s{kind: \"kind %04d\", value: int & >=%d}", (i ? " | " : ""), i, i
        print ""
    }'
}

# So many constants, none of them in order.
constants() { # count
    awk -v count="$1" 'BEGIN {
        printf "#A0: "
        for (i = 0; i < count; i++) printf "%s\"code %05d\"", (i ? " | " : ""), i * 7919 % count
        print ""
    }'
}

# So many classes of integers.
ranges() { # count
    awk -v count="$1" 'BEGIN {
        printf "#A0: "
        for (i = 0; i < count; i++) printf "%sint & >=%d & <=%d", (i ? " | " : ""), i * 10, i * 10 + 8
        print ""
    }'
}

echo '#A0: int' > "$folder/small"

# measure COMMAND SHAPE COUNT LINES LAST: a line. The run prints so many lines, and LAST is in the last of them.
measure() {
    command=$1 shape=$2 count=$3 lines=$4 last=$5
    "$shape" "$count" > "$folder/whole"
    "$shape" "$((count / 10))" > "$folder/tenth"
    for size in small tenth whole; do
        case $command in
            compare) words="--old $folder/$size --new $folder/$size" ;;
            *) words=$folder/$size ;;
        esac
        # A command has a word or two, and the names of the files have no blanks: they are in a folder of mktemp.
        # shellcheck disable=SC2086
        eval "${size}_time=$(run_time $command --root '#A0' $words)"
    done
    # shellcheck disable=SC2086
    peak=$(peak_of $command --root '#A0' $words)
    if [ "$(wc -l < "$folder/said")" != "$lines" ] || ! tail -n 1 "$folder/said" | grep -qF -- "$last"; then
        echo "$command $shape: $lines lines are wanted, the last of them with $last: $(wc -l < "$folder/said") lines, $(tail -n 1 "$folder/said" | cut -c 1-200)"
        failed=1
    fi
    awk -v name="$command $shape" -v bytes="$(wc -c < "$folder/whole")" -v start="$small_time" -v tenth="$tenth_time" -v whole="$whole_time" -v peak="$peak" 'BEGIN {
        taken = whole - start
        tenth -= start
        is_slow = taken > 10e9
        is_large = peak > 500 * 1024
        printf "%-28s %8d %9.1f %7s %8d%s%s\n", name, bytes, taken / 1e6, (tenth > 0 ? sprintf("%.1f", taken / tenth) : "-"), peak,
            (is_slow ? "  more than 10 s" : ""), (is_large ? "  more than 500 MB" : "")
        exit is_slow || is_large
    }' || failed=1
}

printf '%-28s %8s %9s %7s %8s\n' question bytes ms times KiB
measure compare structs 1000 1 compatible
measure compare chain 1000 1 compatible
measure compare labels 4000 1 compatible
measure compare elements 20000 1 compatible
measure compare tagged 100 1 compatible
measure compare constants 20000 1 compatible
measure compare ranges 3000 1 compatible
# A limit of the search is met before there are 100 lines.
measure samples structs 100 64 field_
measure 'samples --invalid' structs 100 56 field_
exit $failed
