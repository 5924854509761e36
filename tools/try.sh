#!/usr/bin/env bash
# Runs the program from its sources without the proofs, for a look at what it does: nothing is proved of it. Where `make test` has built
# it since the last change, it runs at once. Else it is built in about a minute, with checks, so it is slower then.
#
#     tools/try.sh WORD..        the program's words; a word that names a file becomes the file's name, since the program runs in a
#                                folder of its own, with a copy of it. Without words, the schema of examples/port.cue
set -euo pipefail
cd "$(dirname "$0")/.."
[ $# -gt 0 ] || set -- export --root '#P' examples/port.cue

if tools/unproved.py --is-new bin/unproved; then exec bin/unproved "$@"; fi

words=()
copies=()
declare -A named=()
for word in "$@"; do
    if [ -f "$word" ]; then
        file=$(realpath "$word")
        word=$(basename "$word")
        [ "${named[$word]-$file}" = "$file" ] || { echo "two files are named $word: rename one" >&2; exit 2; }
        named[$word]=$file
        copies+=(--data "$word=$file")
    fi
    words+=("$word")
done
cd crates/cue2schema
exec rt try "${copies[@]}" -- "${words[@]}"
