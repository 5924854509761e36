#!/bin/sh
# Times `vet --lines` by whole runs of the program: 1,000,000 lines of about 200 bytes against 12 rules, and against the one rule of
# `_`, which is little more than reading them. A line for each: the lines and the megabytes of a second, and the most memory at
# 10,000 lines and at 1,000,000. Fails where the 12 rules take more than 1.6 times as long as the one, where they take in less than
# 80 MB in a second, where the memory is above 8 MB or grows with the number of lines, or where a verdict isn't `valid`.
# usage: lines.sh PROGRAM [LINES]
set -eu

. "$(dirname "$0")/timing.sh"
most=${2-1000000}

# Twelve rules: the definition, its struct, the nine values of its fields, and the element of the list.
cat > "$folder/event.cue" << 'END'
#Event: {id: int, at: int, host: string, path: string, ok: bool, tags: [...string], code: int, agent: string, note?: string}
#Any: _
END

# So many events, a line each.
events() { # count
    awk -v count="$1" 'BEGIN {
        for (i = 0; i < count; i++)
            printf "{\"id\": %d, \"at\": %d, \"host\": \"web-%d.example.org\", \"path\": \"/api/v2/items/%d\", \"ok\": %s, \"tags\": [\"a\", \"bc\"], \"code\": %d, \"agent\": \"Mozilla/5.0 (X11; Linux x86_64)\"}\n",
                1000000 + i, 1790000000 + i, i % 90 + 10, i * 7919 % 90000 + 10000, (i % 3 ? "true" : "false"), 200 + i % 7
    }'
}

# The nanoseconds of one run: the least of three.
run_time() { # root file
    "$taken" 3 0 "$2" "$folder/verdicts" "$program" vet --root "$1" --lines "$folder/event.cue"
}

# The most memory of a run in KiB, by GNU's time, where it is there.
peak_of() { # root file
    if [ -x /usr/bin/time ]; then
        /usr/bin/time -f %M -o "$folder/peak" "$program" vet --root "$1" --lines "$folder/event.cue" < "$2" > /dev/null
        tail -n 1 "$folder/peak"
    else
        echo 0
    fi
}

[ -x /usr/bin/time ] || echo "no memory is measured: there is no GNU /usr/bin/time"
events "$most" > "$folder/many"
head -n $((most / 100)) "$folder/many" > "$folder/few"
bytes=$(wc -c < "$folder/many")
for root in '#Any' '#Event'; do
    run_time "$root" "$folder/many" > "$folder/time$root"
    if [ "$(wc -l < "$folder/verdicts") $(grep -c '^valid$' "$folder/verdicts")" != "$most $most" ]; then
        echo "lines: a verdict of $root isn't valid"
        exit 1
    fi
    echo "$(peak_of "$root" "$folder/few") $(peak_of "$root" "$folder/many")" > "$folder/memory$root"
done
awk -v lines="$most" -v bytes="$bytes" -v read="$(cat "$folder/time#Any")" -v judged="$(cat "$folder/time#Event")" \
    -v memory_read="$(cat "$folder/memory#Any")" -v memory_judged="$(cat "$folder/memory#Event")" '
function line(name, time, memory) {
    split(memory, peak, " ")
    printf "%-6s %7d lines of %d bytes %8.0f ms %9.0f lines/s %6.1f MB/s %6d KiB at a hundredth %6d KiB at all\n",
        name, lines, bytes / lines, time / 1e6, lines / (time / 1e9), bytes / time * 1e3, peak[1], peak[2]
    if (peak[2] > 8192 || peak[2] > peak[1] + 512) bad = 1
}
BEGIN {
    line("read", read, memory_read)
    line("judged", judged, memory_judged)
    printf "judged takes %.2f times as long as read\n", judged / read
    exit bad || judged > 1.6 * read || bytes / judged * 1e3 < 80
}'
