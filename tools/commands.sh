#!/bin/sh
# Runs the program where pipes, rights, special files or little memory are needed, and compares what it prints, what it says
# on standard error and its status. A line for each run that goes wrong, and a closing count. Takes ten seconds, and Python for one run.
#
#     tools/commands.sh PROGRAM
set -eu
program=$(realpath "$1")
cases=$(cd "$(dirname "$0")/../cases" && pwd)
. "$(dirname "$0")/wanted.sh"
root=P
status=-

# run WORD..: the program, a minute at most; its status is kept
run() {
    code=0
    timeout "$((3 * patience))" "$program" "$@" || code=$?
    echo "$code" > "$room/status"
}

# feed NAME COMMAND..: a pipe of that name, which the command writes, a minute at most
feed() {
    mkfifo "$1"
    timeout 60 sh -c 'name=$1; shift; "$@" > "$name"' sh "$@" &
}

# obey COMMANDS: runs them in $room/here; one of them is `run`
obey() {
    echo none > "$room/status"
    (cd "$room/here" && eval "$1") > "$room/out" 2> "$room/said" || true
    status=$(cat "$room/status")
}

# try WANTED COMMANDS: one case; cases/README.md lists what may be wanted
try() {
    obey "$2"
    judge "commands: $2" "$1"
}

# try_run STATUS PRINTED SAID COMMANDS: one case, by its status and its texts
try_run() {
    obey "$4"
    if is_run "$1" "$2" "$3"; then count "commands: $4" yes; else count "commands: $4: wanted $1, '$2', '$3'" no; fi
}

# listed FORMAT: the numbers from 0 to 49,997 by a format of printf, with a comma between them
listed() {
    awk -v form="$1" 'BEGIN { for (i = 0; i < 49998; i++) printf "%s" form, (i ? "," : ""), i }'
}

# links FROM COUNT LINK: so many lines by a text, whose `<` stands for the number and `>` for the next one
links() {
    seq "$1" "$(($1 + $2 - 1))" | awk -v link="$3" '{ text = link; gsub("<", $1, text); gsub(">", $1 + 1, text); print text }'
}

# repeat COUNT TEXT: a text so many times
repeat() {
    yes "$2" | head -n "$1" | tr -d '\n'
}

# try_calls WANTED ROOT SOURCE DOCUMENT: a document by a definition, by its schema, and by both
try_calls() {
    "$program" export --root "$2" "$3" > exported.json
    for words in "vet --root '$2' --doc $4 $3" "agree --root '$2' --doc $4 $3" "validate --schema exported.json --doc $4"; do
        try "$1" "run $words # $3 $4"
    done
}

# try_refused WANTED ROOT SOURCE DOCUMENT: a package that is refused
try_refused() {
    for words in "export --root '$2' $3" "vet --root '$2' --doc $4 $3" "agree --root '$2' --doc $4 $3"; do
        try "$1" "run $words"
    done
}

# writes_of WORD..: in how many writes the program prints, by a socket that keeps each by itself; its status
writes_of() {
    python3 -c 'import socket, subprocess, sys
ours, theirs = socket.socketpair(socket.AF_UNIX, socket.SOCK_SEQPACKET)
run = subprocess.Popen(sys.argv[1:], stdout=theirs)
theirs.close()
print(sum(1 for _ in iter(lambda: ours.recv(1 << 20), b"")))
sys.exit(run.wait())' "$program" "$@"
}

mkdir "$room/here"
cd "$room/here"
port='{"P":{"maximum":65535,"minimum":1,"type":"integer"}}'
port_text="{\"\$defs\":$port,\"\$ref\":\"#/\$defs/P\",$dialect}"
printf '#P: int & >=1 & <=65535\n' > port.cue
printf '#P: int &' > syntax.cue
printf '%s\n' "$port_text" > port.json
printf true > true.json
printf '{"pattern":"x"}' > keyword.json
printf 80 > one
printf '[1' > cut.json
: > empty
mkdir folder
printf '#P: int' > "$(printf 'f\374r.cue')"
# A schema of 95,000 bytes, more than a pipe holds.
{ printf '#P: int'; yes '|int' | head -n 4999 | tr -d '\n'; } > wide.cue
# 5,000 operands, which are 5,002 rules and 10,002 schemas, and 8,001 values.
{ printf '#A: !=1'; yes '&!=1' | head -n 4999 | tr -d '\n'; } > twice.cue
{ printf '[0'; yes ',0' | head -n 7999 | tr -d '\n'; printf ']'; } > zeros.json
# 13,417 values.
{ printf '[0'; yes ',0' | head -n 13415 | tr -d '\n'; printf ']'; } > more-zeros.json
# 49,999 literals; 49,998 fields, whose schema has more than 5 MiB, and that schema.
{ printf '#P: 0'; seq 49998 | sed 's/^/|/' | tr -d '\n'; } > literals.cue
{ printf '#P: {'; listed 'field%08d:int64'; printf '}'; } > fields.cue
{
    printf '{"$defs":{"P":{"additionalProperties":false,"properties":{'
    listed '"field%08d":{"maximum":9223372036854775807,"minimum":-9223372036854775808,"type":"integer"}'
    printf '},"required":['
    listed '"field%08d"'
    printf '],"type":"object"}},"$ref":"#/$defs/P",%s}\n' "$dialect"
} > fields.json
# Inputs at the limits, which hold blanks alone, and one byte more; and ten GiB of zeros, which take no room.
head -c 1048576 /dev/zero | tr '\0' ' ' > source-limit
{ cat source-limit; printf ' '; } > source-over
head -c 67108864 /dev/zero | tr '\0' ' ' > input-limit
{ cat input-limit; printf ' '; } > input-over
truncate -s 10G zeros

# Paths.
try 'error 30' 'run export --root "#P" missing.cue'
try 'error 30' 'run export --root "#P" folder'
try 'error 30' 'run export --root "#P" port.cue folder'
try 'error 30' 'run export --root "#P" port.cue/in'
try 'error 30' 'run export --root "#P" ""'
try 'error 30' 'run export --root "#P" "$(head -c 5000 /dev/zero | tr "\0" a)"'
try 'error 30' 'ln -s loop loop; run export --root "#P" loop'
try 'error 30' 'run vet --root "#P" --doc missing port.cue'
try 'error 30' 'run vet --root "#P" --doc folder port.cue'
try 'error 30' 'run vet --root "#P" --doc "" port.cue'
try 'error 30' 'run validate --schema missing --doc one'
try 'error 30' 'run validate --schema folder --doc one'
try 'error 30' 'run validate --schema true.json --doc folder'
try 'error 30' 'run agree --root "#P" --doc folder port.cue'
try 'error 30' 'run agree --root "#P" --doc one folder'
try usage 'run export --root "$(printf "\377")" port.cue'
try usage 'run export --root "#P" "$(printf "f\374r.cue")"'
try usage 'run vet --root "#P" --doc "$(printf "\377")" port.cue'
try usage 'run validate --schema "$(printf "\377")" --doc one'
try usage 'run agree --root "#P" --doc one "$(printf "\377")"'
try usage 'run "$(printf "\377")"'
try "$port" 'ln -s port.cue link; run export --root "#P" link'
try "$port" 'run export --root "#P" /dev/stdin < port.cue'
try "$port" 'feed source cat port.cue; run export --root "#P" source'
try valid 'feed doc cat one; run vet --root "#P" --doc doc port.cue'
try valid 'feed schema cat port.json; run validate --schema schema < one'
try valid 'feed both cat port.cue; run agree --root "#P" --doc one both'
try 'error 13' 'run export --root "#P" /dev/null'
try 'error 25' 'run vet --root "#P" --doc /dev/null port.cue'
try 'error 20' 'run validate --schema /dev/null --doc one'

# Standard input.
try 'error 30' 'run export --root "#P" <&-'
try 'error 30' 'run vet --root "#P" --doc one <&-'
try 'error 30' 'run validate --schema true.json <&-'
try 'error 30' 'run agree --root "#P" --doc one <&-'
try 'error 30' 'run export --root "#P" < folder'
try 'error 30' 'run validate --schema true.json < folder'
try 'error 30' 'run export --root "#P" 0> written'
try "$port" 'run export --root "#P" port.cue <&-'
try valid 'run vet --root "#P" --doc one port.cue <&-'
try valid 'run validate --schema port.json --doc one <&-'
try valid 'run agree --root "#P" --doc one port.cue <&-'
try "$port" '(head -c 5 port.cue; sleep 0.2; tail -c +6 port.cue) | run export --root "#P"'
try valid '(printf 8; sleep 0.2; printf 0) | run validate --schema port.json'
try_run 0 "$port_text
3" '' '{ run export --root "#P" port.cue; printf abc | wc -c; } < one'
# What stands in the input after the run: it isn't read where all is named.
try_run 0 "$port_text
80" '' '{ run export --root "#P" port.cue; cat; echo; } < one'
try_run 0 'valid
80' '' '{ run vet --root "#P" --doc one port.cue; cat; echo; } < one'
try_run 0 'valid
80' '' '{ run validate --schema port.json --doc one; cat; echo; } < one'
try_run 0 'valid
80' '' '{ run agree --root "#P" --doc one port.cue; cat; echo; } < one'

# Standard output. A `written` that is full, closed or has no reader takes nothing; the status tells it.
for words in 'export --root "#P" port.cue' 'vet --root "#P" --doc one port.cue' 'validate --schema port.json --doc one' \
    'agree --root "#P" --doc one port.cue' 'vet --root "#P" --doc true.json port.cue'; do
    try 'error 31' "run $words > /dev/full"
    try 'error 31' "run $words >&-"
    try 'error 31' "run $words 1< one"
    try 'error 31' "rm -f gone; mkfifo gone; exec 8<> gone 9> gone 8<&-; run $words >&9"
done
try 'error 31' 'run export --root "#P" < port.cue > /dev/full'
try_run 4 '{' 'error 31' 'run export --root "#P" wide.cue | { head -c 1; echo; }'
try_run 4 '{' 'error 31' 'run export --root "#P" < wide.cue | { head -c 1; echo; }'
# A file that may not grow further: what it has is a front of the answer.
seq 1000 | sed 's/.*/#D&: int/' > declared.cue
seq 1000 | sed 's/.*/#D&: int \& string/' > contrary.cue
seq 1000 | sed 's/.*/#D&: *1 | int/' > defaults.cue
for words in 'export --root "#P" wide.cue' 'export --pretty --root "#P" wide.cue' 'export --all wide.cue' 'list declared.cue' 'widen declared.cue' \
    'check contrary.cue' 'export --all --profile wide defaults.cue' 'list --profile wide defaults.cue' 'widen --profile wide defaults.cue'; do
    try_run 4 'a front' 'error 31' "run $words > whole
    (trap '' XFSZ; ulimit -f 16; run $words > part)
    [ -s part ] && head -c \"\$(wc -c < part)\" whole | cmp - part && echo 'a front'"
done
# Help and the version are answers too.
try 'error 31' 'run --help > /dev/full'
try 'error 31' 'run agree --help >&-'
try 'error 31' 'run --version > /dev/full'
# A refusal comes before anything is written.
try 'error 4 at 9' 'run export --root "#P" syntax.cue > /dev/full'
try 'error 25' 'run vet --root "#P" --doc cut.json port.cue >&-'

# Standard error: what can't be said changes no status.
try_run 2 '' '' 'run export --root "#P" syntax.cue 2>&-'
try_run 2 '' '' 'run export --root "#P" syntax.cue 2> /dev/full'
try_run 4 '' '' 'run export --root "#P" missing.cue 2>&-'
try_run 4 '' '' 'run export --root "#P" port.cue > /dev/full 2>&1'
try_run 3 '' '' 'run paint 2>&-'
try_run 3 '' '' 'run paint 2> /dev/full'
try_run 3 '' '' 'run export --root "$(printf "\377")" 2>&-'
try_run 1 invalid '' 'run vet --root "#P" --doc true.json port.cue 2>&-'
try "$port" 'run export --root "#P" port.cue 2>&-'
try "$port" 'run export --root "#P" port.cue <&- 2>&-'
try_run 4 '' '' 'run export --root "#P" port.cue <&- >&- 2>&-'
try_run 2 '' '' 'run export --why --root "#P" syntax.cue 2>&-'
try_run 2 '' '' 'run export --why --root "#P" syntax.cue 2> /dev/full'

# What is told of reads and writes that fail.
try 'says 4 error 30⏎folder: this is a folder' 'run vet --why --root "#P" --doc folder port.cue'
try 'says 4 error 30⏎folder: this is a folder' 'run export --why --root "#P" port.cue folder'
try 'prints 4 {"error":30,"path":"folder","hint":"this is a folder"}' 'run vet --format json --root "#P" --doc folder port.cue'
try 'says 4 error 30⏎folder: this is a folder' 'run check port.cue folder'
try 'says 4 error 30⏎folder: this is a folder' 'run check --schema folder'
try 'says 4 error 30⏎new: folder: this is a folder' 'run compare --root "#P" --old port.cue --new port.cue folder'
try 'says 4 error 31⏎A write failed. What was written is the beginning of the text. Write elsewhere.' \
    'run export --why --root "#P" port.cue > /dev/full'
# A name of a file stays on its line.
try 'prints 0 x\ny.cue:1:1: warning: no document is an instance of #A: its operands are of different kinds' \
    'printf "#A: int & string\n" > "$(printf "x\ny.cue")"; run check "$(printf "x\ny.cue")"'
try 'says 4 error 31⏎A write failed. What was written is the beginning of the text. Write elsewhere.' \
    'run vet --why --root "#P" --doc one port.cue > /dev/full'
try 'error 31' 'run vet --format json --root "#P" --doc one port.cue > /dev/full'
try 'error 31' 'run vet --format json --root "#P" --doc one syntax.cue > /dev/full'
try 'error 31' 'run explain 31 > /dev/full'

# What `samples` leaves is said, and is a status with `--strict`. What can't be said changes none.
try_run 0 1 '1 more; --most N tells more' 'run samples --most 1 --root "#P" port.cue'
try_run 1 1 '1 more; --most N tells more' 'run samples --most 1 --strict --root "#P" port.cue'
try_run 0 '1
65535' '' 'run samples --most 2 --strict --root "#P" port.cue'
try_run 0 1 '' 'run samples --most 1 --root "#P" port.cue 2> /dev/full'
try_run 1 1 '' 'run samples --most 1 --strict --root "#P" port.cue 2>&-'
try 'error 31' 'run samples --root "#P" port.cue > /dev/full'

# Limits: the greatest input that is read, and one byte more.
try 'error 13' 'run export --root "#P" source-limit'
try 'error 13' 'run export --root "#P" < source-limit'
try 'error 1' 'run export --root "#P" source-over'
try 'error 1' 'run export --root "#P" < source-over'
try 'error 13' 'run export --root "#P" source-limit empty'
try 'error 1' 'run export --root "#P" one source-limit'
try 'error 1' 'run vet --root "#P" --doc one port.cue source-limit'
try 'error 1' 'run agree --root "#P" --doc one source-limit port.cue'
try 'says 2 error 1⏎The sources have more than 1,048,576 bytes together. Split the package: give only the files that the root needs.⏎one: 2 bytes⏎source-limit: 1048576 bytes' \
    'run export --why --root "#P" one source-limit'
try 'prints 2 {"error":28,"path":"input-over","hint":"A schema or a document has more than 67,108,864 bytes. It is read no further. Give a smaller one.","files":[{"path":"input-over","bytes":67108865}]}' \
    'run vet --format json --root "#P" --doc input-over port.cue'
try 'prints 2 error 14: 1,001 definitions, and 1,000 may be: split the package by roots' 'seq -f "#A%.0f: int" 1001 | run check'
try 'says 2 error 14⏎1,001 definitions, and 1,000 may be: split the package by roots' 'seq -f "#A%.0f: int" 1001 | run export --why --root "#P"'
try 'says 2 error 28⏎input-over: A schema or a document has more than 67,108,864 bytes. It is read no further. Give a smaller one.⏎input-over: 67108865 bytes' \
    'run vet --why --root "#P" --doc input-over port.cue'
try 'error 25' 'run vet --root "#P" --doc input-limit port.cue'
try 'error 28' 'run vet --root "#P" --doc input-over port.cue'
try 'error 25' 'run validate --schema true.json --doc input-limit'
try 'error 28' 'run validate --schema true.json --doc input-over'
try 'error 25' 'run validate --schema true.json < input-limit'
try 'error 28' 'run validate --schema true.json < input-over'
try 'error 20' 'run validate --schema input-limit --doc one'
try 'error 28' 'run validate --schema input-over --doc one'
try 'error 25' 'run agree --root "#P" --doc input-limit port.cue'
try 'error 28' 'run agree --root "#P" --doc input-over port.cue'

# Chains: 64 references in turn are judged, and one more is refused. The numbers begin with 10, so that their order is that of their texts.
root=A10
{ links 10 64 '#A<: {a: #A>}'; echo '#A74: int'; } > chain.cue
{ links 10 65 '#A<: {a: #A>}'; echo '#A75: int'; } > longer.cue
{ repeat 64 '{"a":'; printf 1; repeat 64 '}'; } > chain.json
{ repeat 64 '{"a":'; printf null; repeat 64 '}'; } > null-chain.json
try "{$(links 10 64 '"A<":{"additionalProperties":false,"properties":{"a":{"$ref":"#/$defs/A>"}},"required":["a"],"type":"object"},' | tr -d '\n')\"A74\":{\"type\":\"integer\"}}" \
    'run export --root "#A10" chain.cue'
try_calls valid '#A10' chain.cue chain.json
try_calls invalid '#A10' chain.cue null-chain.json
printf 1 > unit
try_refused 'error 16' '#A10' longer.cue unit
# The deepest schema that a source of 28 levels has.
deepest="#N: $(repeat 27 '{a: _, a: ')!=1$(repeat 27 ', ...}')"
printf '%s\n%s' "$deepest" "$deepest" > deepest.cue
try_run 0 114 '' 'run export --root "#N" deepest.cue | sed "s/\"[^\"]*\"//g" | grep -o "[][{}]" \
    | awk "/[[{]/ { if (++open > most) most = open } /[]}]/ { open-- } END { print most }"'
# Definitions that each refer twice to the next one.
printf 7 > seven
printf null > null.json
{ links 10 40 '#A<: #A> & #A>'; echo '#A50: int'; } > double.cue
try "{$(links 10 40 '"A<":{"allOf":[{"$ref":"#/$defs/A>"},{"$ref":"#/$defs/A>"}]},' | tr -d '\n')\"A50\":{\"type\":\"integer\"}}" \
    'run export --root "#A10" double.cue'
try_calls valid '#A10' double.cue seven
try_calls invalid '#A10' double.cue null.json
root=P
for mark in '&' '|'; do
    { links 0 64 "#A<: #A> $mark #A>"; echo '#A64: int'; } > double.cue
    { links 0 65 "#A<: #A> $mark #A>"; echo '#A65: int'; } > longer.cue
    try_calls valid '#A0' double.cue seven
    try_calls invalid '#A0' double.cue null.json
    try_refused 'error 16' '#A0' longer.cue seven
done
# 8,192 rules are judged for a list of 8,191 zeros, and have too many pairs with one of 8,192.
{ printf '#A0: '; repeat 8189 '_ & '; printf _; } > rules.cue
{ printf '['; repeat 8190 '0,'; printf '0]'; } > most.json
{ printf '['; repeat 8191 '0,'; printf '0]'; } > over.json
try_calls valid '#A0' rules.cue most.json
try_calls 'error 27' '#A0' rules.cue over.json
# Of more than fifty faults 50 are told.
{ printf '#A: {'; repeat 60 'a: *1, '; printf '}'; } > faults.cue
try_run 2 50 '' 'run check faults.cue | wc -l'

# Many files: each is read to its end and let go before the next one, and all of them have one limit.
try valid 'run vet --root "#P" --doc one $(yes port.cue | head -n 300)'
try valid 'ulimit -n 100; run vet --root "#P" --doc one $(yes port.cue | head -n 200)'
try 'error 1' 'run export --root "#P" source-limit one missing.cue'
try 'error 1' 'run export --root "#P" one source-limit missing.cue'

# Large answers that are given where there is memory.
try "{\"P\":{\"enum\":[$(seq -s , 0 49998)]}}" 'run export --root "#P" literals.cue'
try_run 0 'all of it' '' 'run export --root "#P" fields.cue | cmp - fields.json && echo "all of it"'
# On lines too, as components, and of 300 files.
{
    printf '{\n  "$defs": {\n    "P": {\n      "enum": [\n'
    seq 0 49997 | sed 's/.*/        &,/'
    printf '        49998\n      ]\n    }\n  },\n  "$ref": "#/$defs/P",\n  "$schema": "https://json-schema.org/draft/2020-12/schema"\n}\n'
} > literals.json
try_run 0 'all of it' '' 'run export --pretty --root "#P" literals.cue | cmp - literals.json && echo "all of it"'
tr -d '\n' < fields.json > fields.line
try_run 0 'all of it' '' 'run export --pretty --root "#P" fields.cue | tr -d " \n" | cmp - fields.line && echo "all of it"'
sed 's|"$ref":"#/$defs/P",||' fields.json > all.json
try_run 0 'all of it' '' 'run export --all fields.cue | cmp - all.json && echo "all of it"'
bodies='{"maximum":65535,"minimum":1,"type":"integer"}'
bodies="{\"P\":{\"allOf\":[$(repeat 299 "$bodies,")$bodies]}}"
try_run 0 "{\"\$defs\":$bodies,\"\$ref\":\"#/\$defs/P\",$dialect}" '' 'run export --root "#P" $(yes port.cue | head -n 300)'
try_run 0 "{\"\$defs\":$bodies,\"\$ref\":\"#/\$defs/P\",$dialect}" '' 'run export --describe --root "#P" $(yes port.cue | head -n 300)'
try_run 0 "{\"\$defs\":$bodies,$dialect}" '' 'run export --all $(yes port.cue | head -n 300)'
try_run 0 "{\"components\":{\"schemas\":$bodies}}" '' 'run export --openapi $(yes port.cue | head -n 300)'

# Too many pairs of values and schemas, where those of values and rules are few enough.
try invalid 'run vet --root "#A" --doc zeros.json twice.cue'
try 'error 27' 'run export --root "#A" twice.cue > twice.json; run validate --schema twice.json --doc zeros.json'
try 'error 27' 'run agree --root "#A" --doc zeros.json twice.cue'
pairs='8,001 values and 10,002 schemas make 80,026,002 pairs, and 67,108,864 may be: judge the parts of the document one by one, or'
try "says 2 error 27⏎zeros.json: $pairs split the package by roots" 'run agree --why --root "#A" --doc zeros.json twice.cue'
try "says 2 error 27⏎zeros.json: $pairs leave out definitions that nothing refers to" 'run validate --why --schema twice.json --doc zeros.json'
try "prints 2 {\"error\":27,\"file\":\"zeros.json\",\"hint\":\"$pairs split the package by roots\"}" \
    'run agree --format json --root "#A" --doc zeros.json twice.cue'
try 'says 2 error 27⏎more-zeros.json: 13,417 values and 5,002 rules make 67,111,834 pairs, and 67,108,864 may be: judge the parts of the document one by one, or split the package by roots' \
    'run vet --why --root "#A" --doc more-zeros.json twice.cue'

# As many pairs as may be, by 8,192 values and as many rules or schemas, and one value more.
{ printf '#A: _'; yes ' & _' | head -n 8189 | tr -d '\n'; } > most.cue
{ printf '{"allOf":[true'; yes ',true' | head -n 8190 | tr -d '\n'; printf ']}'; } > most.json
{ printf '[0'; yes ',0' | head -n 8190 | tr -d '\n'; printf ']'; } > most-zeros.json
sed 's/]$/,0]/' most-zeros.json > over-zeros.json
over='over-zeros.json: 8,193 values and 8,192'
try valid 'run vet --root "#A" --doc most-zeros.json most.cue'
try valid 'run validate --schema most.json --doc most-zeros.json'
try "says 2 error 27⏎$over rules make 67,117,056 pairs, and 67,108,864 may be: judge the parts of the document one by one, or split the package by roots" \
    'run vet --why --root "#A" --doc over-zeros.json most.cue'
try "says 2 error 27⏎$over schemas make 67,117,056 pairs, and 67,108,864 may be: judge the parts of the document one by one, or leave out definitions that nothing refers to" \
    'run validate --why --schema most.json --doc over-zeros.json'

# Faults of a schema: 50 are told, and none behind those whose places have more than 1,048,576 bytes together.
for count in 49 50 51; do
    { printf '{"title":"t"'; seq 0 $((count - 1)) | sed 's/.*/,"x&":1/' | tr -d '\n'; printf '}'; } > faults.json
    try_run 2 "$((count < 50 ? count : 50))" '' 'run check --schema faults.json | wc -l'
done
{ printf '{"properties":{"'; head -c 600000 /dev/zero | tr '\0' k; printf '":{"x":1,"y":1,"z":1}}}'; } > below.json
try_run 2 2 '' 'run check --schema below.json | wc -l'
try 'error 20' 'printf "\"\377\"" | run validate --schema /dev/stdin --doc one'

# Inputs without an end, in 400 MB of memory: reading stops at the limit.
try 'error 1' 'ulimit -v 400000; yes | run export --root "#P"'
try 'error 1' 'ulimit -v 400000; yes | run export --root "#P" /dev/stdin'
try 'error 1' 'ulimit -v 400000; run export --root "#P" zeros'
try 'error 1' 'ulimit -v 400000; run export --root "#P" < zeros'
try 'error 1' 'ulimit -v 400000; run export --root "#P" /dev/zero'
try 'error 1' 'ulimit -v 400000; yes | run vet --root "#P" --doc one'
try 'error 1' 'ulimit -v 400000; yes | run agree --root "#P" --doc one'
try 'error 1' 'ulimit -v 400000; feed endless yes; run export --root "#P" endless'
try 'error 28' 'ulimit -v 400000; yes | run vet --root "#P" --doc /dev/stdin port.cue'
try 'error 28' 'ulimit -v 400000; run vet --root "#P" --doc zeros port.cue'
try 'error 28' 'ulimit -v 400000; yes | run validate --schema true.json'
try 'error 28' 'ulimit -v 400000; run validate --schema true.json < zeros'
try 'error 28' 'ulimit -v 400000; run validate --schema true.json --doc zeros'
try 'error 28' 'ulimit -v 400000; run validate --schema zeros --doc one'
try 'error 28' 'ulimit -v 400000; run agree --root "#P" --doc zeros port.cue'
# At most 4,096 bytes past the limit are taken.
try_run 2 'yes' 'error 1' '{ run export --root "#P"; [ $(cat | wc -c) -ge $((67108864 - 1048576 - 4096)) ] && echo yes; } < input-limit'
try_run 2 'yes' 'error 28' '{ run validate --schema true.json; [ $(head -c 9999999 | wc -c) -eq 9999999 ] && echo yes; } < zeros'

# Many documents. A line that is too long is refused alone, and the rest of it is no line.
try 'lines 2 error 28;valid' '{ cat input-over; echo; cat one; } | run vet --root "#P" --lines port.cue'
try 'lines 2 error 28;invalid;valid' '{ head -c 200000000 /dev/zero; echo; echo 0; cat one; } | run vet --root "#P" --lines port.cue'
try 'lines 2 error 25;valid' '{ cat input-limit; echo; cat one; } | run validate --schema port.json --lines'
try 'lines 2 error 28;valid' '{ cat input-over; echo; cat one; } > over-and-one; run agree --root "#P" --lines --doc over-and-one port.cue'
try 'lines 2 valid;error 28' 'cat one input-over > joined; { echo 80; cat joined; } | run vet --root "#P" --lines port.cue'
try 'lines 0 valid;valid' '(printf 8; sleep 0.2; printf "0\n8"; sleep 0.2; printf 0) | run validate --schema port.json --lines'
# An input is read in chunks of 65,536 bytes, and what is answered to one is written together: 200,000 lines of 600,000 bytes in few writes.
yes 80 | head -n 200000 > eighties
try_run 0 few '' 'code=0; count=$(writes_of vet --root "#P" --lines --doc eighties port.cue) || code=$?; echo "$code" > "$room/status"
    [ "$count" -le 40 ] && echo few'
# Each verdict is there before the next line is sent.
try_run 1 'valid
invalid
valid' '' 'mkfifo asks tells; run vet --root "#P" --lines port.cue < asks > tells & exec 3> asks 4< tells
    for line in 80 0 443; do echo "$line" >&3; read -r answer <&4; echo "$answer"; done; exec 3>&-; wait'
try_run 0 '200000 valid' '' 'yes 80 | head -n 200000 | run vet --root "#P" --lines port.cue | sort | uniq -c | sed "s/^ *//"'
# As many lines as came, in little memory, in the order in which they came.
try_run 1 'the same lines' '' 'seq 0 199999 > numbers; (ulimit -v 20000; run vet --root "#P" --lines --doc numbers port.cue > verdicts)
    awk "{ print (\$1 >= 1 && \$1 <= 65535 ? \"valid\" : \"invalid\") }" numbers | cmp - verdicts && echo "the same lines"'
try 'error 30' 'run vet --root "#P" --lines port.cue <&-'
try 'error 30' 'run vet --root "#P" --lines port.cue < folder'
try 'error 30' 'run validate --schema port.json --lines --doc folder'
try 'error 31' 'run vet --root "#P" --lines port.cue < one > /dev/full'
try 'error 31' 'run vet --root "#P" --lines port.cue < one >&-'
try 'error 31' 'run vet --root "#P" port.cue --docs one > /dev/full'
try_run 4 'val' 'error 31' 'yes 80 | head -n 200000 | run vet --root "#P" --lines port.cue | { head -c 3; echo; }'
try_run 0 '' '' 'run vet --root "#P" --lines port.cue < empty > /dev/full'
try_run 2 '' 'error 4 at 9' 'run vet --root "#P" --lines syntax.cue < zeros'
# Files: each is read by itself, and one that cannot be read is told alone.
try 'lines 4 folder: error 30;one: valid;missing: error 30;pipe: invalid;cut.json: error 25' \
    'feed pipe echo 0; run vet --root "#P" port.cue --docs folder one missing pipe cut.json'
try 'lines 2 input-over: error 28;one: valid' 'run validate --schema port.json --docs input-over one'
try 'lines 2 zeros: error 28;one: valid' 'ulimit -v 400000; run agree --root "#P" port.cue --docs zeros one'
try_run 0 '300 one: valid' '' 'yes one | head -n 300 | (ulimit -n 100; xargs "$program" vet --root "#P" port.cue --docs) | uniq -c | sed "s/^ *//"; echo 0 > "$room/status"'

# The first of several faults: named files before standard input, sources or a schema before a document, in their order.
try 'error 1' 'run export --root "#P" source-over missing.cue'
try 'error 30' 'run export --root "#P" missing.cue source-over'
try 'error 1' 'run vet --root "#P" --doc missing source-over'
try 'error 1' 'run vet --root "#P" --doc input-over source-over'
try 'error 30' 'run vet --root "#P" --doc input-over missing.cue'
try 'error 28' 'run vet --root "#P" --doc input-over syntax.cue'
try 'error 28' 'run vet --root "#P" --doc input-over < source-over'
try 'error 30' 'run vet --root "#P" --doc missing < source-over'
try 'error 1' 'run vet --root "#P" --doc cut.json < source-over'
try 'error 28' 'run validate --schema input-over --doc missing'
try 'error 30' 'run validate --schema missing --doc input-over'
try 'error 28' 'run validate --schema cut.json --doc input-over'
try 'error 28' 'run validate --schema keyword.json < input-over'
try 'error 30' 'run validate --schema keyword.json <&-'
try 'error 20' 'run validate --schema cut.json < input-limit'
try 'error 1' 'run agree --root "#P" --doc missing source-over'
try 'error 28' 'run agree --root "#P" --doc input-over syntax.cue'

# Little memory: each run is refused by 15, or answers all; some of these are refused, and some not.
refused=0
answered=0
least=6000
{ until (ulimit -v "$least"; exec "$program" --version) > "$room/out"; do least=$((least + 1000)); done; } 2> /dev/null
for more in 0 2000 4000 6000 8000 10000 14000 44000 194000; do
    room_for=$((least + more))
    obey "ulimit -v $room_for; code=0; \"\$program\" export --root '#P' wide.cue || code=\$?; echo \$code > \"\$room/status\""
    if is_run 5 '' 'error 15'; then
        refused=1
    elif [ "$status" -eq 0 ] && [ "$(wc -c < "$room/out")" -gt 65536 ] && [ ! -s "$room/said" ]; then
        answered=1
    else
        count "commands: export in $room_for KiB" no
    fi
done
if [ "$refused$answered" = 11 ]; then count 'commands: little memory' yes; else count 'commands: little memory' no; fi
try 'error 15' 'ulimit -v 50000; run validate --schema true.json --doc input-limit'
try 'error 15' 'ulimit -v 50000; run validate --schema true.json < input-limit'
try 'error 15' 'ulimit -v 50000; run vet --root "#P" --doc input-limit port.cue'
try 'error 15' 'ulimit -v 50000; run agree --root "#P" --doc input-limit port.cue'

# Reasons take memory for the values that have one, two of 8,002 here, each times some 8,000 rules.
{ printf '#A: [...#B]\n#B: '; repeat 7999 '_ & '; printf int; } > chosen.cue
{ printf '['; repeat 8000 '0,'; printf '"x"]'; } > chosen.json
try 'lines 1 invalid;chosen.json:1:16002: /8000: found "x", want int [chosen.cue:2:32001 #B]' \
    'ulimit -v 100000; run vet --why --root "#A" --doc chosen.json chosen.cue'

# Reasons of lines are told beside the verdicts, with the line of the input.
try_run 1 'valid
invalid' '-:2:1: (root): found 0, want >=1 [port.cue:1:11 #P]' 'printf "1\n0\n" | run vet --root "#P" --lines --why port.cue'
printf '1\n[0,\n0\n' > lines.json
try_run 2 'valid
error 25
invalid' 'lines.json:3:1: (root): found 0, want >=1 [port.cue:1:11 #P]' 'run vet --root "#P" --lines --why --doc lines.json port.cue'
try_run 2 'valid
error 25
invalid' '-:3:1: (root): found 0, want >=1 [port.cue:1:11 #P]' 'printf "1\n\n0\n" | run vet --root "#P" --lines --why port.cue'
# All of them, in the order of the lines: also more of them than are held, and those of one line that are more by themselves.
seq 3000 > counted
sed 's/.*/-:&:1: (root): found 0, want >=1 [port.cue:1:11 #P]/' counted > reasons
try_run 1 'all of them' '' 'yes 0 | head -n 3000 | run vet --root "#P" --lines --why port.cue 2>&1 > /dev/null | cmp - reasons && echo "all of them"'
try_run 1 'all of them' '' 'yes 0 | head -n 3000 | run vet --root "#P" --lines --format json port.cue \
    | sed "s/^{\"input\":\([0-9]*\),\"valid\":false,.*}$/\1/" | cmp - counted && echo "all of them"'
printf '#P: [...>=1]\n' > list.cue
# A file, so that all lines are read at once: what is held is written before the next read.
{ echo '[0]'; echo "[$(repeat 1999 0,)0]"; echo '[0]'; } > long-line.json
try_run 1 '1 1
2000 2
1 3' '' 'run vet --root "#P" --lines --why --most 10000 list.cue 2>&1 > /dev/null < long-line.json \
    | cut -d : -f 2 | uniq -c | sed "s/^ *//"'

# Reasons by as many names as are told, 8,192 of each of 8,191 maps, and by more: a list of these maps is a value too.
{ printf '{"items":{"required":['; listed '"k%05d"' | cut -d , -f -8192; printf ']}}'; } > names.json
{ printf '[{}'; yes ',{}' | head -n 8190 | tr -d '\n'; printf ']'; } > maps.json
sed 's/]$/,{}]/' maps.json > many.json
try 'prints 1 67100652 more; --most N tells more' 'run validate --why --schema names.json --doc maps.json | tail -n 1'
untold="the reasons aren't told: values and required names make more than 67,108,864 pairs"
try "lines 1 invalid;$untold" 'run validate --why --schema names.json --doc many.json'
try 'lines 1 {"valid":false,"errors":[],"more":1}' 'run validate --format json --schema names.json --doc many.json'
try 'lines 1 {"valid":false}' 'run validate --format flag --schema names.json --doc many.json'
try 'lines 1 {"valid":false,"errors":[]}' 'run validate --format basic --schema names.json --doc many.json'
try_run 1 "many.json: invalid
$untold
one: valid" '' 'run validate --why --schema names.json --docs many.json one'

# Outputs for programs, judged by the program itself: `basic` by the standard's own schema as far as the profile has its
# keywords, and `json` by a definition of it.
cp "$cases"/why-schema/*.json "$cases"/why-schema/output.cue "$cases"/why-instance/forms.* "$cases"/embeddings/base.cue "$cases"/embeddings/p.* .
try valid '"$program" validate --format basic --schema schema.json --doc keywords.json > out.json || true; run validate --schema output.schema.json --doc out.json'
try valid '"$program" validate --format basic --why=all --most 1000 --schema schema.json --doc keywords.json > out.json || true; run validate --schema output.schema.json --doc out.json'
try_run 1 '{"valid":false}' '' 'run validate --format flag --schema schema.json --doc keywords.json'
try valid '"$program" agree --format basic --root "#P" --doc forms.json forms.cue > out.json || true; run validate --schema output.schema.json --doc out.json'
try valid '"$program" validate --format json --most 1000 --schema schema.json --doc keywords.json > out.json || true; run vet --root "#Output" --doc out.json output.cue'
try valid '"$program" vet --format json --most 1000 --root "#P" --doc forms.json forms.cue > out.json || true; run vet --root "#Output" --doc out.json output.cue'
try valid '"$program" agree --format json --why=all --most 1000 --root "#P" --doc forms.json forms.cue > out.json || true; run vet --root "#Output" --doc out.json output.cue'
try valid '"$program" vet --format json --root "#P" --doc one port.cue > out.json || true; run vet --root "#Output" --doc out.json output.cue'
try valid '"$program" vet --profile wide --format json --root "#P" --doc p.json base.cue p.cue > out.json || true; run vet --root "#Output" --doc out.json output.cue'
try valid '"$program" vet --format json --root "#P" --doc one syntax.cue > out.json || true; run vet --root "#Output" --doc out.json output.cue'
try valid '"$program" validate --format json --schema keyword.json --doc one > out.json || true; run vet --root "#Output" --doc out.json output.cue'
try valid '"$program" validate --format json --schema names.json --doc many.json > out.json || true; run vet --root "#Output" --doc out.json output.cue'
try valid '"$program" validate --format basic --schema names.json --doc many.json > out.json || true; run validate --schema output.schema.json --doc out.json'
# A path of keywords has 1,024 bytes at most; one through more references is cut, and the place of its keyword is told beside it. Of the
# schemas on the way no more are told than take 4 KiB for each reason, and 1 MiB beside.
chain() { # links last
    printf '{"$defs":{'
    links 0 "$1" '"d<":{"$ref":"#/$defs/d>"},' | tr -d '\n'
    printf '"d%d":%s},' "$1" "$2"
}
last='s/.*"keywordLocation":"\(.*\)/\1/'
unit='"instanceLocation":"","error":"found 0, want string","line":1,"column":1}]}'
{ chain 202 '{"type":"string"}'; printf '"$ref":"#/$defs/d0"}'; } > chain.json
try_run 1 "$(repeat 203 '/$ref')/type\",$unit" '' 'echo 0 | run validate --format basic --schema chain.json | sed "$last"'
{ chain 203 '{"type":"string"}'; printf '"$ref":"#/$defs/d0"}'; } > chain.json
try_run 1 "$(repeat 204 '/$ref')\",\"absoluteKeywordLocation\":\"#/\$defs/d203/type\",$unit" '' \
    'echo 0 | run validate --format basic --schema chain.json | sed "$last"'
try_run 1 206 '' 'echo 0 | run validate --format basic --schema chain.json | tr "{" "\n" | grep -c keywordLocation'
{ chain 210 '{"properties":{"a b%é":{"type":"string"}}}'; printf '"$ref":"#/$defs/d0"}'; } > chain.json
echo '{"a b%é":0}' > keyed.json
try_run 1 '#/$defs/d210/properties/a%20b%25%C3%A9/type' '' \
    'run validate --format basic --schema chain.json --doc keyed.json | sed "s/.*\"absoluteKeywordLocation\":\"\([^\"]*\)\".*/\1/"'
try valid '"$program" validate --format basic --schema chain.json --doc keyed.json > out.json || true; run validate --schema output.schema.json --doc out.json'
{ chain 400 '{"type":"string"}'; printf '"items":{"$ref":"#/$defs/d0"}}'; } > chain.json
{ printf '[0'; repeat 399 ',0'; printf ']'; } > many.json
try_run 1 short '' 'run validate --format basic --most 1000000 --schema chain.json --doc many.json \
    | awk "{ bytes += length } END { print bytes < 5000000 ? \"short\" : bytes }"'


# Names of files can't make lines, and nothing in them moves the cursor or turns a line: a newline, CSI and an escape, a mark of
# direction, one without width.
forged=$(printf 'x: valid\nb\033[31m\302\2332J\342\200\256\342\200\213.json')
shown='x: valid\nb\u001b[31m\u009b2J\u202e\u200b.json'
cp one "$forged"
try_run 0 "$shown: valid" '' 'run vet --root "#P" port.cue --docs "$forged"'
try_run 4 "$shown.none: error 30" '' 'run vet --root "#P" port.cue --docs "$forged.none"'
try_run 0 "$shown: valid" '' 'run agree --why --root "#P" port.cue --docs "$forged"'
echo 0 > "$forged"
try_run 1 "$shown: invalid
$shown:1:1: (root): found 0, want >=1 [port.cue:1:11 #P]" '' 'run vet --why --root "#P" port.cue --docs "$forged"'
try_run 1 'invalid' "$shown:1:1: (root): found 0, want >=1 [port.cue:1:11 #P]" 'run vet --why --lines --root "#P" --doc "$forged" port.cue'
try_run 4 '' "error 30
$shown.none: no such file" 'run vet --why --root "#P" --doc "$forged.none" port.cue'
cp port.cue "$forged"
try_run 0 "$shown:1:1: #P: int" '' 'run list "$forged"'
echo '#A: int & string' > "$forged"
try_run 0 "$shown:1:1: warning: no document is an instance of #A: its operands are of different kinds" '' 'run check "$forged"'
printf '#A:' > "$forged"
try_run 2 "$shown:1:4: error 4: a value is missing here" '' 'run check "$forged"'
try_run 2 '' "error 4 at 3
$shown:1:4: a value is missing here
#A:
   ^" 'run export --why --root "#A" "$forged"'
# Nor can words of a faulty command line.
try_run 3 '\u001b[31m' '' 'run explain "$(printf "\033[31m")" 2>&1 | grep -o "[^ ]*31m" | tr -d "\047" | uniq'
# Nor can keys and texts of documents, in the lines that tell of them.
printf '{"a\\u202e\\u2028\\u0085\\u2066":1}' > turned.json
try_run 1 'invalid
turned.json:1:2: /a\u202e\u2028\u0085\u2066: this key is not allowed [turned.cue:1:5 #A]' '' \
    'echo "#A: {}" > turned.cue; run vet --why --root "#A" --doc turned.json turned.cue'
printf '"\342\201\246a\357\273\277\177"' > turned.json
try_run 1 'invalid
turned.json:1:1: (root): found "\u2066a\ufeff\u007f", want int [turned.cue:1:5 #A]' '' \
    'echo "#A: int" > turned.cue; run vet --why --root "#A" --doc turned.json turned.cue'
# Nor can labels and texts of sources, in the documents that are the answer: these are read as what they stand for.
printf '#A: {"\302\205a\177": "\342\200\256b\342\200\213\342\200\251", n: int}\n' > hidden.cue
printf '#A: {"\302\205a\177": "b", n: int}\n' > other.cue
hidden='{"n":0,"\u0085a\u007f":"\u202eb\u200b\u2029"}'
try_run 0 "$hidden" '' 'run samples --root "#A" hidden.cue'
try valid 'run samples --root "#A" hidden.cue > hidden.json; run vet --root "#A" --doc hidden.json hidden.cue'
try_run 0 5 '' 'run samples --invalid --root "#A" hidden.cue | LC_ALL=C grep -v "[^ -~]" | grep -c u0085'
try_run 1 "breaking
$hidden" '' 'run compare --root "#A" --old hidden.cue --new other.cue'
try_run 1 "breaking
$hidden
document:1:24: /\u0085a\u007f: found \"\u202eb\u200b\u2029\", want \"b\" [other.cue:1:13 #A.\"\u0085a\u007f\"]" '' \
    'run compare --why --root "#A" --old hidden.cue --new other.cue'
try_run 1 "{\"compatible\":false,\"document\":$hidden,\"report\":" '' \
    'run compare --format json --root "#A" --old hidden.cue --new other.cue | sed "s/\(\"report\":\).*/\1/"'

# A schema in a file: written beside it and renamed, so that a refused run leaves the old file. Nothing is left beside it.
try_run 0 "$port_text" '' 'run export --root "#P" -o new.json port.cue; cat new.json; find . -name "new.json.*"'
try_run 0 "$port_text" '' 'run export --root "#P" --output=new.json port.cue; cat new.json'
echo old > kept.json
try_run 2 'old' 'error 13' 'run export --root "#Q" -o kept.json port.cue; cat kept.json'
try_run 2 'old' 'error 4 at 9' 'run export --describe --all -o kept.json syntax.cue; cat kept.json'
try_run 4 'old' 'error 30' 'run export --root "#P" -o kept.json missing.cue; cat kept.json'
try_run 3 'old' '' 'run export -o kept.json port.cue 2> words; cat kept.json'
printf '#P: {x: *1 | int}\n' > default.cue
printf '#P: {x: *int | 1}\n' > excess.cue
echo '{}' > empty.json
try_run 0 "{\"\$defs\":{\"P\":{\"enum\":[1,2]}},\"\$ref\":\"#/\$defs/P\",$dialect}" '' \
    'echo "#P: *1 | 2" > two.cue; run export --root "#P" --profile wide -o new.json two.cue; cat new.json'
try_run 2 'old' 'error 5 at 8' 'run export --root "#P" --profile wide -o kept.json excess.cue; cat kept.json'
try_run 2 'old' 'error 13' 'run export --root "#Q" --profile wide -o kept.json default.cue; cat kept.json'
try_run 2 'old' 'error 5 at 8' 'run export --root "#P" -o kept.json default.cue; cat kept.json'
# The text that sources stand for, handed on by a pipe, is a source without these words.
try_run 0 valid '' 'run widen --profile wide default.cue > meant.cue; echo "{}" | run vet --root "#P" --doc /dev/stdin meant.cue'
try_run 0 valid '' 'echo "{}" | run vet --root "#P" --profile wide --doc /dev/stdin default.cue'
try_run 0 valid '' 'cat default.cue | run vet --root "#P" --profile wide --doc empty.json'
try 'says 4 error 30⏎folder: this is a folder' 'run widen --why --profile wide default.cue folder'
try 'says 4 error 30⏎folder: this is a folder' 'run vet --why --profile wide --root "#P" --doc folder default.cue'
try 'lines 1 breaking;{}' 'echo "#P: {x: int}" > asked.cue; run compare --profile wide --root "#P" --old default.cue --new asked.cue'
try 'error 1' 'head -c 1048577 /dev/zero | tr "\0" " " | run widen --profile wide'
try 'error 2' 'printf "\377" | run widen --profile wide'
chmod 640 kept.json
try_run 0 "640
$port_text" '' 'run export --root "#P" -o kept.json port.cue; stat -c %a kept.json; cat kept.json'
printf 'mine\n' > taken.json.0.new
try_run 0 "mine
$port_text" '' 'run export --root "#P" -o taken.json port.cue; cat taken.json.0.new taken.json'
ln -s linked.json link.json
echo old > linked.json
try_run 0 "link.json
$port_text" '' 'run export --root "#P" -o link.json port.cue; find . -name "link.json" -type l | cut -c 3-; cat linked.json'
try "$port" 'run export --root "#P" -o /dev/stdout port.cue'
try 'error 31' 'run export --root "#P" -o /dev/full port.cue'
try 'error 31' 'run export --root "#P" -o folder port.cue'
try 'error 31' 'run export --root "#P" -o missing/new.json port.cue'
try_run 4 '' 'error 31
folder: this is a folder' 'run export --why --root "#P" -o folder port.cue'
# A link to a file that isn't there makes the file, and no file that lies there stops a run.
ln -s made.json dangling.json
try_run 0 "dangling.json
$port_text" '' 'run export --root "#P" -o dangling.json port.cue; find . -name "dangling.json" -type l | cut -c 3-; cat made.json'
seq -f 'many.json.%g.new' 0 120 | xargs touch
try_run 0 "121
$port_text" '' 'run export --root "#P" -o many.json port.cue; find . -name "many.json.*.new" | wc -l; cat many.json'

# A comment of 64 KiB becomes one description.
{ printf '// '; head -c 65536 /dev/zero | tr '\0' 'x'; printf '\n#P: int'; } > long.cue
{ printf '{"$defs":{"P":{"description":"'; head -c 65536 /dev/zero | tr '\0' 'x'; printf '","type":"integer"}},"$ref":"#/$defs/P",%s}\n' "$dialect"; } > long.json
try_run 0 '' '' 'run export --describe --root "#P" long.cue | cmp - long.json'
long=$(head -c 65536 /dev/zero | tr '\0' 'x')
printf '// %s\n#P: int // %s\n#Q: int // %s' "$long" "$long" "$long" > long.cue
printf '{"$defs":{"P":{"description":"%s","type":"integer"},"Q":{"description":"%s","type":"integer"}},%s}\n' "$long" "$long" "$dialect" > long.json
try_run 0 '' '' 'run export --describe --all long.cue | cmp - long.json'

# Comments change no schema and no verdict, and without any there is no description. In a text `//` begins none.
cp "$cases"/describe/one.json .
for source in "$cases"/describe/*.cue; do
    case $source in */in-a-text.cue) continue ;; esac
    cp "$source" with.cue
    sed 's|//.*||' with.cue > without.cue
    "$program" export --root '#P' with.cue > with.json
    "$program" agree --root '#P' --doc one.json with.cue > verdict || true
    try_run 0 '' '' "run export --root '#P' without.cue | cmp - with.json # $(basename "$source")"
    try_run 0 '' '' "run export --describe --root '#P' without.cue | cmp - with.json # $(basename "$source")"
    try "$(cat verdict)" "run agree --root '#P' --doc one.json without.cue # $(basename "$source")"
done

# Rights, which the administrator always has: there the program runs as nobody.
as=
if [ "$(id -u)" -eq 0 ]; then as='setpriv --reuid=65534 --regid=65534 --clear-groups'; fi
chmod 755 "$room" "$room/here"
cp "$program" "$room/program"
if $as "$room/program" --version > "$room/out" 2> "$room/said"; then
    program=$room/program
    run() {
        code=0
        timeout "$((3 * patience))" $as "$program" "$@" || code=$?
        echo "$code" > "$room/status"
    }
    cp port.cue no-rights
    cp port.cue folder/port.cue
    chmod 000 no-rights folder
    try "$port" 'run export --root "#P" port.cue'
    try 'error 30' 'run export --root "#P" no-rights'
    try 'error 30' 'run export --root "#P" port.cue no-rights'
    try 'error 30' 'run export --root "#P" folder/port.cue'
    try 'error 30' 'run vet --root "#P" --doc no-rights port.cue'
    try 'error 30' 'run validate --schema no-rights --doc one'
    try 'error 30' 'run validate --schema true.json --doc no-rights'
    try 'error 30' 'run agree --root "#P" --doc one no-rights'
    mkdir closed
    echo old > closed/old.json
    chmod 755 closed
    chmod 644 closed/old.json
    try_run 4 old 'error 31' 'run export --root "#P" -o closed/old.json port.cue; cat closed/old.json'
    try 'error 31' 'run export --root "#P" -o closed/new.json port.cue'
    try_run 4 '' 'error 31
closed/new.json: no right to write it' 'run export --why --root "#P" -o closed/new.json port.cue'
    # A file that only its folder lets replace.
    mkdir open
    chmod 777 open
    echo old > open/fixed.json
    chmod 444 open/fixed.json
    try_run 4 old 'error 31' 'run export --root "#P" -o open/fixed.json port.cue; cat open/fixed.json'
    chmod 755 folder
else
    echo 'commands: rights are not tried, since nobody cannot run the program here'
fi
closing
