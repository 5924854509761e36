#!/bin/sh
# Times documents and tables: reading a text as a tree or straight into a list, flattening a document, filling a table. A line for each: its size; what it
# takes beyond the program's start, in all and for each byte, value or judgement; how many times longer that is than for a
# tenth of the size; and the most memory that the program takes, for each of them too. Fails where ten times the size
# takes more than twelve times as long, which other work on the machine can make it do.
# usage: documents.sh PROGRAM, which takes `read`, `list`, `flatten` or `fill` and how many times, and on standard input a JSON
# text, or how many items a table has
set -eu

. "$(dirname "$0")/timing.sh"

# A document of so many bytes or a little more, or a table's number of items.
source_of() { # shape size
    awk -v shape="$1" -v size="$2" 'BEGIN {
        if (shape == "table") { print size; exit }
        # texts of 100,000 characters
        if (shape == "long") for (i = 0; i < 5000; i++) letters = letters "abcdefghijklmnopqrst"
        for (bytes = 2; bytes < size; bytes += length(line) + 2) {
            # short texts and numbers, in lists and maps: ten values a line
            if (shape == "short") line = "{\"id\": " bytes ", \"name\": \"item " bytes "\", \"on\": true, \"tags\": [\"a\", \"bc\"], \"size\": [-12, 34567]}"
            if (shape == "long") line = "\"" letters "\""
            print (bytes == 2 ? "[" : ",") line
        }
        print "]"
    }'
}

# The nanoseconds of a step beyond those of a run on the least input, or for `flatten` of a run that only reads. Each is
# taken once a run: where it is repeated, the smaller input alone finds the memory again that it had before.
pass_time() { # source step runs
    case $2 in
    flatten) before=$(time_of "$1" read 1 "$3") ;;
    *) before=$(time_of "$folder/least" "$2" 1 "$3") ;;
    esac
    whole=$(time_of "$1" "$2" 1 "$3")
    echo $((whole - before))
}

# How the most memory that a run takes is found: by GNU's time, or by what the system says of a run that goes on.
if [ "$(/usr/bin/time -f %M true 2>&1 || true)" -gt 0 ] 2> /dev/null; then peaks=time
elif grep -q VmHWM /proc/self/status 2> /dev/null; then peaks=proc
else peaks=none; echo "no memory is measured: there is neither GNU's /usr/bin/time nor VmHWM in /proc/PID/status"
fi

# The most memory of a run, in bytes; 0 where it can't be found.
peak_of() { # source step
    peak=0
    case $peaks in
    time)
        /usr/bin/time -f %M -o "$folder/peak" "$program" "$2" 1 < "$1" > /dev/null
        peak=$(cat "$folder/peak") ;;
    proc)
        # Many passes, since the last look comes before the run's end.
        "$program" "$2" 20 < "$1" > /dev/null &
        while now=$(awk '/VmHWM/ { print $2; found = 1 } END { exit !found }' "/proc/$!/status" 2> /dev/null); do
            peak=$now
            sleep 0.01
        done
        wait "$!" ;;
    esac
    echo $((peak * 1024))
}

failed=0

# A line for a step and a shape.
measure() { # step shape size unit
    source_of "$2" $(($3 / 10)) > "$folder/small"
    source_of "$2" "$3" > "$folder/large"
    if [ "$2" = table ]; then echo 1; else echo null; fi > "$folder/least"
    small=$(pass_time "$folder/small" "$1" 40)
    large=$(pass_time "$folder/large" "$1" 10)
    if [ "$4" = byte ]; then count=$(wc -c < "$folder/large"); else count=$("$program" "$1" < "$folder/large"); fi
    memory=$(($(peak_of "$folder/large" "$1") - $(peak_of "$folder/least" "$1")))
    awk -v step="$1" -v shape="$2" -v unit="$4" -v count="$count" -v small="$small" -v large="$large" -v memory="$memory" 'BEGIN {
        speed = unit == "byte" ? sprintf("%.0f MB/s", count * 1e3 / large) : sprintf("%.2f ns", large / count)
        ratio = small > 0 ? sprintf("%.1f", large / small) : "-"
        each = memory > 0 ? sprintf("%.1f", memory / count) : "-"
        fault = small <= 0 ? "  no time for a tenth" : large > 12 * small ? "  more than 12 times" : ""
        printf "%-8s %-6s %9d %-10s %9.2f %10s %7s %11s%s\n", step, shape, count, unit "s", large / 1e6, speed, ratio, each, fault
        exit (fault != "")
    }' || failed=1
}

printf '%-8s %-6s %20s %9s %10s %7s %11s\n' step shape size ms speed ratio 'memory each'
# A tenth of these documents is already more than the processor keeps near it, so that both sizes wait for memory alike.
# That isn't so of 0.5 MB: 5 MB take ten times as many instructions to read, and up to 16 times as long. The largest run
# takes a GB.
measure read short 50000000 byte
measure read long 50000000 byte
measure list short 50000000 byte
measure list long 50000000 byte
measure flatten short 50000000 value
measure fill table 8192 judgement
exit $failed
