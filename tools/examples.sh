#!/bin/sh
# Runs the program on the packages of examples/, and compares what it answers with what stands beside them. A line for each
# difference, and a closing count. examples/README.md says what a folder has. The README.md of each folder is run by
# tools/pages.sh.
#
#     tools/examples.sh PROGRAM [FOLDER..]        folders of examples/; all of them where none is named
#
# - `export` prints schema.json, whose root is the root of all runs, and `check --strict` prints nothing.
# - `export` with `--describe`, `--pretty`, `--openapi` and `--all` prints what tools/exported.py makes of schema.json and of the comments in
#   the sources; with the first two that is described.json. `-o` writes what is printed without it.
# - `list` prints what `listed` has: the definitions that the sources have at the beginning of a line, each with its place.
# - `vet`, `agree`, and `validate` by schema.json and by described.json find the documents of good/ valid, and those of bad/ invalid.
# - `vet --why` prints for each document of bad/ the lines that `expected` has for it, and that file has no others.
# - What else is shown of a package is a row of `runs`, as cases/README.md says.
set -eu
program=$(realpath "$1")
shift
tools=$(cd "$(dirname "$0")" && pwd)
examples=$(cd "$tools/../examples" && pwd)
. "$(dirname "$0")/wanted.sh"
# `expected` has the documents in this order.
LC_ALL=C
export LC_ALL

# run WORD..: the program on $room/in, $patience seconds at most
run() {
    status=0
    timeout "$patience" "$program" "$@" < "$room/in" > "$room/out" 2> "$room/said" || status=$?
}

# told LABEL STATUS PRINTED: counts the run that was just made
told() {
    if is_run "$2" "$3" ''; then count "$1" yes; else count "$1" no; fi
}

# verdicts FOLDER DOCUMENT VERDICT: by the definition, by the schema, and by both
verdicts() {
    run vet --root "$definition" --doc "$2" *.cue
    judge "$1/$2: vet" "$3"
    run validate --schema schema.json --doc "$2"
    judge "$1/$2: validate" "$3"
    run validate --schema described.json --doc "$2"
    judge "$1/$2: validate by described.json" "$3"
    run agree --root "$definition" --doc "$2" *.cue
    judge "$1/$2: agree" "$3"
}

# reasons FOLDER DOCUMENT: why a document is invalid, which is a line at least
reasons() {
    lines=$(grep -F "$2:" expected || true)
    run vet --why --root "$definition" --doc "$2" *.cue
    told "$1/$2: vet --why: wanted '$lines'" 1 "invalid
$lines"
}

# all_reasons FOLDER: why the documents of bad/ are invalid, in one run
all_reasons() {
    run vet --why --root "$definition" *.cue --docs bad/*.json
    grep -v '^bad/[^:]*: invalid$' "$room/out" > "$room/lines" || true
    well=no
    if [ "$status" -eq 1 ] && [ ! -s "$room/said" ] && cmp -s "$room/lines" expected; then well=yes; fi
    count "$1: vet --why .. --docs bad/*.json: wanted the lines of expected" "$well"
}

# same LABEL FILE FILE: counts whether the two are the same
same() {
    if cmp -s "$2" "$3"; then count "$1" yes; else count "$1" no; fi
}

# exported FOLDER WORDS [SCHEMA..]: what the run that was just made printed, an `export` with these words
exported() {
    label="$1: export $2" words=$2
    shift 2
    "$tools/exported.py" . $words "$@" > "$room/made"
    told "$label: wanted what tools/exported.py prints" 0 "$(cat "$room/made")"
}

# forms FOLDER: the schema in its other forms
forms() {
    for words in --describe --pretty --openapi '--openapi --describe --pretty' '--describe --pretty'; do
        run export $words --root "$definition" *.cue
        exported "$1" "$words"
    done
    same "$1: described.json: wanted what the last of these printed" described.json "$room/out"

    # Definitions that the root doesn't reach have the schemas of their own exports.
    rm -f "$room"/own-*
    for name in $(sed 's/.*: #\([^:]*\): .*/\1/' listed); do
        if ! grep -qF "\"$name\":{" schema.json; then
            "$program" export --root "#$name" *.cue > "$room/own-$name"
        fi
    done
    run export --all *.cue
    exported "$1" --all $(find "$room" -name 'own-*')

    rm -f "$room/written"
    run export -o "$room/written" --root "$definition" *.cue
    told "$1: export -o: wanted nothing" 0 ''
    same "$1: export -o: wanted schema.json in the file" schema.json "$room/written"
}

# listing FOLDER: the definitions and their places
listing() {
    run list *.cue
    told "$1: list: wanted what listed has" 0 "$(cat listed)"
    grep -n '^#' *.cue /dev/null | sed 's/^\([^:]*:[0-9]*\):\(#[^:]*\):.*/\1:1: \2/' > "$room/places"
    sed 's/: [^:]*$//' listed > "$room/listed"
    same "$1: listed: wanted the places of the definitions in the sources" "$room/listed" "$room/places"
}

# The rows of `runs`: a command line, and what is wanted of it.
runs() { # folder
    while IFS= read -r line || [ -n "$line" ]; do
        run_line "${line%% => *}"
        judge "$1: ${line%% => *}" "${line#* => }"
    done < runs
}

# What a folder has.
package() { # folder
    definition="#$(sed 's/.*"\$ref":"#\/\$defs\/\([^"]*\)",[^{}]*}$/\1/' schema.json)"
    run export --root "$definition" *.cue
    told "$1: export: wanted what schema.json has" 0 "$(cat schema.json)"
    forms "$1"
    listing "$1"
    run check --strict *.cue
    told "$1: check: wanted nothing" 0 ''
    for document in good/*.json; do verdicts "$1" "$document" valid; done
    for document in bad/*.json; do
        verdicts "$1" "$document" invalid
        reasons "$1" "$document"
    done
    all_reasons "$1"
    if [ -e runs ]; then runs "$1"; fi
}

: > "$room/in"
[ $# -gt 0 ] || set -- $(cd "$examples" && for it in */; do echo "${it%/}"; done)
for name in "$@"; do
    cd "$examples/$name"
    package "examples/$name"
done
closing
