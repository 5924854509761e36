#!/bin/sh
# Whether want of memory is told each time. Makes each command of cases/growths, and each step below of cs_calls, with its first
# growth of memory refused, then with its second one, and so on, until a run meets no refusal. Each run that meets one must
# print nothing, say `error 15` (or with `--format` print that as an object) and end with status 5, and the last one must give the whole answer. A line for
# each command says how many growths it has, or what a run did instead; fails where there is such a run. Takes a minute on 4 processors.
#
# A run over many documents may answer 15 for one of them, and then it answers the others as they are wanted. One of `samples` may
# write those that it found before, and say so.
#
# A step `again` makes a call twice in one process, on the same inputs: where a growth of one of them is refused, that one has to
# answer 15, and the other one the whole answer.
#
#     tools/memory.sh PROGRAM CALLS        JOBS=N: so many commands side by side
#
# A growth is a call of `malloc` or `realloc`. The kit's compiler builds refused_growth.c, which refuses one of them.
set -eu

# Steps alone: what is read on standard input, and the count that is printed. The growths of reading the input, and for
# `flatten` and `copy` the document, come before those of the step.
steps='lex < tree.cue => 17
lex < forms.cue => 135
parse < tree.cue => 1
parse < forms.cue => 4
read < leaf.json => 2
flatten < leaf.json => 5
copy < leaf.json => 2
list < leaf.json => 5
read < all.json => 17
flatten < all.json => 42
list < all.json => 42
copy < all.json => 17
again export #T < tree.cue => {"T":{"additionalProperties":false,"properties":{"kids":{"items":{"$ref":"#/$defs/T"},"type":"array"},"v":{"type":"integer"}},"required":["v"],"type":"object"}}
again vet #T {"v":1,"kids":[{"v":2}]} < tree.cue => valid
again validate - {"v":1,"kids":[{}]} < tree.schema.json => invalid
again agree #T {"v":1,"kids":[{"v":2}]} < tree.cue => valid
again run #T {"v":1,"kids":[{"v":2}]} < tree.cue => valid
again agree #D {"a":1,"b":2} < either.cue => invalid
again export #W < choice.cue => {"W":{"allOf":[{"not":{"const":null}},{"enum":[1,"s",null]}]}}
again run #W null < choice.cue => invalid'

# run WORD..: the program on $room/in with each growth refused in turn. `growths` is how many there are. Stops at a run that
# meets a refusal and isn't refused.
run() {
    growths=0
    first=0
    second=0
    while :; do
        : > "$room/met"
        status=0
        LD_PRELOAD=$library REFUSED_GROWTH=$((growths + 1)) "$program" "$@" \
            < "$room/in" > "$room/out" 2> "$room/said" 9> "$room/met" || status=$?
        if [ ! -s "$room/met" ]; then return; fi
        growths=$((growths + 1))
        if ! is_refused && ! is_answered_once && ! is_refused_once && ! is_cut_short; then return; fi
    done
}

# whether the run was refused by want of memory: by a line, or in a format by an object in place of the answer
is_refused() {
    is_run 5 '{"error":15}' '' && return
    [ "$status" -eq 5 ] && [ ! -s "$room/out" ] \
        && { IFS= read -r said && [ "$said" = 'error 15' ] && ! read -r said && [ -z "$said" ]; } < "$room/said"
}

# Whether one of the two calls of a step `again` answered 15, and the other one all. `first` and `second` count which.
is_answered_once() {
    [ -n "$line" ] || return 1
    if is_run 0 "error 15
$line" ''; then
        first=$((first + 1))
    elif is_run 0 "$line
error 15" ''; then
        second=$((second + 1))
    else
        return 1
    fi
}

# Whether a run over many documents answered 15 for one of them, and all the others as they are wanted.
is_refused_once() {
    case $wanted in 'lines '*) ;; *) return 1 ;; esac
    listed=${wanted#lines }
    refused=2
    if [ "${listed%% *}" -eq 4 ]; then refused=4; fi
    [ "$status" -eq "$refused" ] && [ ! -s "$room/said" ] || return 1
    printf '%s\n' "${listed#* }" | tr ';' '\n' > "$room/wanted"
    paste -d ';' "$room/wanted" "$room/out" | awk -F ';' '
        $1 == $2 { next }
        { sub(/(valid|invalid|error [0-9]+)$/, "error 15", $1) }
        $1 == $2 { refused++; next }
        { wrong++ }
        END { exit wrong || refused != 1 }'
}

# Whether a run wrote the documents that it had found when memory ran out, and said that there may be more.
is_cut_short() {
    case $wanted in 'lines 0 '*) ;; *) return 1 ;; esac
    [ "$status" -eq 0 ] && [ -s "$room/out" ] && [ "$(head -n 1 "$room/said")" = 'maybe more; a limit was met' ] || return 1
    printf '%s\n' "${wanted#lines 0 }" | tr ';' '\n' > "$room/wanted"
    ! grep -qvxFf "$room/wanted" "$room/out"
}

# whether the last run met no refusal and did what is wanted
is_answered_well() {
    if [ -s "$room/met" ]; then return 1; fi
    if [ -n "$line" ]; then
        [ "$first" -gt 0 ] && [ "$second" -gt 0 ] && is_run 0 "$line
$line" ''
        return
    fi
    case $1 in
        [0-9]*) is_run 0 "$1" '' ;;
        *) is_wanted "$1" ;;
    esac
}

# line_of ROW: what a call of a step `again` answers, nothing for another row
line_of() {
    case $1 in
        again*' => {'*)
            root=${1#again * \#}
            root=${root%% *}
            printf '%s\n' "{\"\$defs\":${1#* => },\"\$ref\":\"#/\$defs/$root\",$dialect}"
            ;;
        again*) printf '%s\n' "${1#* => }" ;;
    esac
}

# one ROW: a command with all its growths
one() {
    line=$(line_of "$1")
    wanted=${1#* => }
    run_line "${1%% => *}"
    if [ "$growths" -gt 0 ] && is_answered_well "${1#* => }"; then
        printf '%5d growths: %s %s\n' "$growths" "$(basename "$program")" "${1%% => *}"
    else
        printf 'failed at growth %d: %s %s: status %d, printed %s, said %s\n' "$growths" "$(basename "$program")" \
            "${1%% => *}" "$status" "'$(head -c 300 "$room/out")'" "'$(head -c 300 "$room/said")'"
    fi
}

program=$(realpath "$1")
calls=$(realpath "$2")
here=$(cd "$(dirname "$0")" && pwd)
. "$here/wanted.sh"
cd "$here/../cases/growths"

# A part of the run: the row of that number, with the library that the whole one built.
if [ $# -eq 4 ]; then
    library=$3
    count=$(wc -l < runs)
    if [ "$4" -gt "$count" ]; then
        program=$calls
        one "$(echo "$steps" | sed -n "$(($4 - count))p")"
    else
        one "$(sed -n "${4}p" runs)"
    fi
    exit
fi

kit=$(dirname "$(dirname "$(realpath "$(command -v rt)")")")
"$kit/toolchain/bin/clang" -O1 -shared -fPIC -nostdlib --ld-path="$kit/toolchain/bin/ld.lld" -o "$room/refused_growth.so" \
    "$here/refused_growth.c"
rows=$(($(wc -l < runs) + $(echo "$steps" | wc -l)))
# A command that hangs is stopped after ten minutes.
seq "$rows" | xargs -P "${JOBS-1}" -I '{}' timeout 600 "$here/memory.sh" "$program" "$calls" "$room/refused_growth.so" '{}' \
    > "$room/lines" || true
sort -k 3 "$room/lines"
awk -v rows="$rows" '$2 == "growths:" { commands++; growths += $1 }
    END {
        print commands + 0 " commands passed, " rows - commands " failed; " growths + 0 " runs were refused"
        exit commands != rows
    }' "$room/lines"
