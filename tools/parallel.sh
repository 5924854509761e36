#!/bin/sh
# Whether lines may be cut into parts: runs `vet --lines` over 2,000,000 documents in one process, and then under GNU parallel in 1
# to 4 processes at once, as docs/USAGE.md shows it. The verdicts must be the same lines in the same order. Prints the time of each
# run. Does nothing where GNU parallel isn't installed (Debian's package `parallel`).
#
#     tools/parallel.sh PROGRAM [LINES]
set -eu
program=$(realpath "$1")
lines=${2-2000000}
if ! parallel --version 2> /dev/null | grep -q '^GNU parallel'; then
    echo "GNU parallel is not installed: nothing was tried"
    exit
fi
room=$(mktemp -d)
trap 'rm -rf "$room"' EXIT
cd "$room"
printf '#Event: {id: int, host: string, ok: bool, code: int & >=100 & <=599, tags: [...string]}\n' > event.cue
awk -v count="$lines" 'BEGIN {
    for (i = 0; i < count; i++)
        printf "{\"id\": %d, \"host\": \"web-%d.example.org\", \"ok\": true, \"code\": %d, \"tags\": [\"a\", \"bc\"]}%s\n",
            i, i % 90, i % 700, (i % 1000 ? "" : "]")
}' > events.jsonl

# timed NAME COMMANDS: runs them, and says how long they took. A status of 1 or 2 says that there are such lines; of GNU parallel it
# is the number of parts of which that is so.
timed() {
    begin=$(date +%s%N)
    sh -c "$2" || true
    end=$(date +%s%N)
    printf '%-26s %6d ms\n' "$1" $(((end - begin) / 1000000))
}

export program
timed 'one process' '"$program" vet --root "#Event" --lines event.cue < events.jsonl > alone'
[ "$(wc -l < alone)" -eq "$lines" ] || { echo "one process: not a line for each line"; exit 1; }
for jobs in 1 2 3 4; do
    timed "parallel, $jobs at a time" "parallel --will-cite --pipe --block 10M --keep-order -j $jobs \"\$program\" vet --root \"'#Event'\" --lines event.cue < events.jsonl > together"
    cmp alone together || { echo "parallel, $jobs at a time: other verdicts"; exit 1; }
done
sort alone | uniq -c
