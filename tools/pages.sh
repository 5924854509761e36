#!/bin/sh
# Runs what the pages for users show, and compares what the program answers with what they say. A line for each difference,
# and a closing count.
#
#     tools/pages.sh PROGRAM [PAGE..]        pages of the repository; those for users where none is named
#
# - The blocks `sh` and `console` of a page are run in their order by one shell, in an empty folder, or for a page of a folder of
#   examples/ in a copy of that folder, with the program on the PATH as `cue2schema`. A block `sh` has to end with status 0. A line of a `console` block that
#   begins with `$ ` is a command, and the lines up to the next one are all that it prints.
# - In a table with a column `answer`, the column before it has the input: a `source`, a `schema` or a `document`. A cell that
#   begins with code is run, and its answer has to be the one in the row. What stands in a column `write instead` has to be
#   accepted. `<br>` parts lines, and `\|` is a `|`. A source is exported with its last definition as the root.
set -eu
program=$(realpath "$1")
shift
top=$(cd "$(dirname "$0")/.." && pwd)
. "$(dirname "$0")/wanted.sh"
status=-

# parts PAGE: the commands of the page as $room/session, with $room/N.command and what is wanted of each in $room/N.wanted,
# and its rows as $room/N.row with $room/N.input, N.answer and N.instead
parts() { # page
    awk -v room="$room" '
        function code(cell) {
            if (cell !~ /^`/) return ""
            gsub(/`<br>`/, "\n", cell)
            sub(/^`/, "", cell)
            sub(/`.*$/, "", cell)
            return cell
        }
        function write(name, text) { printf "%s", text > (room "/" name); close(room "/" name) }
        function begin(text) {
            number++
            write(number ".command", text)
            wanted = ""
            open = 1
            print "{" > session
            print text > session
        }
        function end(kind) {
            if (!open) return
            print "} > \"$room/" number ".out\" 2>&1" > session
            if (kind == "sh") print "echo $? > \"$room/" number ".status\"" > session
            if (kind == "console") printf "%s", wanted > (room "/" number ".wanted")
            close(room "/" number ".wanted")
            open = 0
        }
        BEGIN { session = room "/session"; printf "" > session }
        /^```/ && fence == "" {
            fence = $0 == "```" ? "text" : substr($0, 4)
            next
        }
        /^```/ {
            if (fence == "sh") { begin(block); end("sh") }
            if (fence == "console") end("console")
            fence = ""
            block = ""
            next
        }
        fence == "sh" { block = block (block == "" ? "" : "\n") $0; next }
        fence == "console" && /^\$ / { end("console"); begin(substr($0, 3)); next }
        fence == "console" { wanted = wanted $0 "\n"; next }
        fence != "" { next }
        !/^\|/ { answer = 0; instead = 0; header = 0; next }
        {
            line = $0
            gsub(/\\\|/, "\001", line)
            count = split(line, cells, "|")
            for (at = 1; at <= count; at++) {
                gsub(/^ +| +$/, "", cells[at])
                gsub("\001", "|", cells[at])
            }
        }
        !header {
            header = 1
            for (at = 1; at <= count; at++) {
                if (cells[at] == "answer") { answer = at; kind = cells[at - 1] }
                if (cells[at] == "write instead") instead = at
            }
            next
        }
        answer && code(cells[answer - 1]) != "" && code(cells[answer]) != "" {
            number++
            write(number ".row", kind)
            write(number ".input", code(cells[answer - 1]))
            write(number ".answer", code(cells[answer]) "\n")
            if (instead && code(cells[instead]) != "") write(number ".instead", code(cells[instead]))
        }
        END { print number + 0 > (room "/count") }
    ' "$1"
}

# compare LABEL OUT WANTED: whether the two files are the same
compare() {
    if cmp -s "$2" "$3"; then
        passed=$((passed + 1))
    else
        failed=$((failed + 1))
        printf '%s\n  wanted: %s\n  got:    %s\n' "$1" "$(head -c 300 "$3")" "$(head -c 300 "$2")"
    fi
}

# run_input KIND FILE: the program on a source, a schema or a document; what it prints and says, and its status
run_input() {
    status=0
    case $1 in
        source | 'ordinary source')
            root=$(sed -n 's/^\(#[A-Za-z0-9_$]*\).*/\1/p' "$2" | tail -n 1)
            profile=
            if [ "$1" != source ]; then profile=--profile=wide; fi
            "$program" export --root "${root:-#P}" $profile "$2" > "$room/out" 2> "$room/said" || status=$? ;;
        schema) echo null | "$program" validate --schema "$2" > "$room/out" 2> "$room/said" || status=$? ;;
        document)
            echo true > "$room/true.json"
            "$program" validate --schema "$room/true.json" --doc "$2" > "$room/out" 2> "$room/said" || status=$? ;;
        *)
            : > "$room/out"
            echo "no such kind of input: $1" > "$room/said" ;;
    esac
}

# row LABEL NUMBER: the row's input is refused by its answer, and what is to be written instead is accepted
row() {
    kind=$(cat "$room/$2.row")
    run_input "$kind" "$room/$2.input"
    compare "$1: $(head -n 3 "$room/$2.input" | tr '\n' ' ')" "$room/said" "$room/$2.answer"
    if [ -e "$room/$2.instead" ]; then
        run_input "$kind" "$room/$2.instead"
        accepted=no
        if [ "$status" -le 1 ] && [ -s "$room/out" ] && [ ! -s "$room/said" ]; then accepted=yes; fi
        count "$1: $(head -n 3 "$room/$2.instead" | tr '\n' ' ')" "$accepted"
    fi
}

# page NAME: its commands in one shell, which may end early, then what each of them printed, and each row
page() {
    case $1 in
        examples/*/*) cp -r "$top/${1%/*}" "$room/here" ;;
        *) mkdir "$room/here" ;;
    esac
    parts "$top/$1"
    (cd "$room/here" && room=$room PATH=$room/path:$PATH sh "$room/session") > "$room/stray" 2>&1 || true
    number=0
    for number in $(seq "$(cat "$room/count")"); do
        if [ -e "$room/$number.row" ]; then
            row "$1" "$number"
        elif [ -e "$room/$number.wanted" ]; then
            [ -e "$room/$number.out" ] || echo 'not run' > "$room/$number.out"
            compare "$1: $(cat "$room/$number.command")" "$room/$number.out" "$room/$number.wanted"
        else
            status=$(cat "$room/$number.status" 2> "$room/said" || echo none)
            mv "$room/$number.out" "$room/out" 2> "$room/said" || : > "$room/out"
            if [ "$status" = 0 ]; then count "$1" yes; else count "$1: $(head -n 1 "$room/$number.command") .." no; fi
        fi
    done
    status=-
    [ "$number" -gt 0 ] || count "$1: nothing to run" no
    rm -rf "$room/here" "$room"/[0-9]*
}

mkdir "$room/path"
: > "$room/out"
: > "$room/said"
ln -s "$program" "$room/path/cue2schema"
[ $# -gt 0 ] || set -- README.md docs/USAGE.md docs/PROFILE.md docs/REFUSALS.md $(cd "$top" && echo examples/*/README.md)
for name in "$@"; do page "$name"; done
closing
