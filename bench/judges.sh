#!/bin/sh
# Times the judges by whole runs of the program: `vet` and `validate` of documents against few and many rules, packages and
# schemas that double or are long, and large keywords. A line for each: the size of the texts whose reading it is compared
# with; what the run takes beyond the program's start, and as a multiple of that reading; the megabytes of these texts in a
# second; the nanoseconds for each pair of a value and a rule; the most memory. The lines `small`, `medium` and `large` also
# say what a judgement takes beyond reading: the nanoseconds for each pair by which the run is longer than one that judges
# the same document by a rule that admits everything. Fails where a run takes longer than the line allows, which other work
# on the machine can make it do, and where one of these three hasn't the number of rules or the verdict that is stated here.
# usage: judges.sh BENCH PROGRAM [judgements], the program for measuring, which takes `read` and `flatten`, the program
# `cue2schema`, and a word by which those three sizes alone are measured
set -eu

. "$(dirname "$0")/timing.sh"
. "$(dirname "$0")/fleets.sh"
command=$2
part=${3-all}

# The nanoseconds of one run of the program: the least of some.
run_time() { # runs words
    runs=$1
    shift
    "$taken" "$runs" any /dev/null /dev/null "$command" "$@"
}

# A document of so many bytes or a little more: records in a list, ten values and a list each.
records() { # bytes
    awk -v size="$1" 'BEGIN {
        for (bytes = 2; bytes < size; bytes += length(line) + 2) {
            line = "{\"id\": " bytes ", \"name\": \"item " bytes "\", \"on\": true, \"tags\": [\"a\", \"bc\"], \"size\": [-12, 34567]}"
            print (bytes == 2 ? "[" : ",") line
        }
        print "]"
    }'
}

# A package of those records, with so many operands more that each record is asked.
record_package() { # more
    awk -v more="$1" 'BEGIN {
        print "#L: [...#R]"
        printf "#R: {id: int, name: string, on: bool, tags: [...string], size: [...<=99999]}"
        for (i = 0; i < more; i++) printf " & !=null"
        print ""
    }'
}

# `#A0` to `#A40` and so on, each with twice the next one.
doubling_package() { # last
    awk -v last="$1" 'BEGIN {
        for (i = 0; i < last; i++) print "#A" i ": #A" i + 1 " & #A" i + 1
        print "#A" last ": int"
    }'
}

# A package of so many nodes, less one: operands of a conjunction.
operands() { # count
    awk -v count="$1" 'BEGIN {
        printf "#A0: "
        for (i = 1; i < count; i++) printf "%s!=%d", (i > 1 ? " & " : ""), i
        print ""
    }'
}

# A schema of those records, with so many members of `allOf` more, of two rules each, that each record is asked.
record_schema() { # more
    awk -v more="$1" 'BEGIN {
        printf "{\"$defs\":{\"L\":{\"items\":{\"$ref\":\"#/$defs/R\"},\"type\":\"array\"},\"R\":{\"additionalProperties\":false,"
        for (i = 0; i < more; i++) printf "%s{\"not\":{\"const\":null}}", (i ? "," : "\"allOf\":[")
        if (more) printf "],"
        printf "\"properties\":{\"id\":{\"type\":\"integer\"},\"name\":{\"type\":\"string\"},\"on\":{\"type\":\"boolean\"},"
        printf "\"size\":{\"items\":{\"maximum\":99999},\"type\":\"array\"},\"tags\":{\"items\":{\"type\":\"string\"},\"type\":\"array\"}},"
        printf "\"required\":[\"id\",\"name\",\"on\",\"size\",\"tags\"],\"type\":\"object\"}},\"$ref\":\"#/$defs/L\"}\n"
    }'
}

# The definitions `A0` to `A40` and so on, each with twice the next one.
doubling_schema() { # last
    awk -v last="$1" 'BEGIN {
        printf "{\"$defs\":{"
        for (i = 0; i < last; i++) printf "\"A%d\":{\"allOf\":[{\"$ref\":\"#/$defs/A%d\"},{\"$ref\":\"#/$defs/A%d\"}]},", i, i + 1, i + 1
        printf "\"A%d\":{\"type\":\"integer\"}},\"$ref\":\"#/$defs/A0\"}\n", last
    }'
}

# So many definitions, each a reference to the one after it or before it; or in a loop.
chain_schema() { # count after|before|loop
    awk -v count="$1" -v way="$2" 'BEGIN {
        last = way == "after" ? count - 1 : (way == "before" ? 0 : -1)
        printf "{\"$defs\":{"
        for (i = 0; i < count; i++) {
            printf "%s\"d%06d\":", (i ? "," : ""), i
            if (i == last) printf "{\"type\":\"integer\"}"
            else printf "{\"$ref\":\"#/$defs/d%06d\"}", (way == "before" ? i - 1 : (i + 1) % count)
        }
        printf "},\"$ref\":\"#/$defs/d%06d\"}\n", (way == "before" ? count - 1 : 0)
    }'
}

# A schema of so many properties with three small keywords each.
keyword_schema() { # count
    awk -v count="$1" 'BEGIN {
        printf "{\"properties\":{"
        for (i = 0; i < count; i++) printf "%s\"p%06d\":{\"maximum\":9,\"minimum\":1,\"type\":\"integer\"}", (i ? "," : ""), i
        print "}}"
    }'
}

# Numbers below 500,000, each once, in order or shuffled, as `before NUMBER after` with commas between them.
numbers() { # in-order|shuffled before after
    awk -v order="$1" -v before="$2" -v after="$3" 'BEGIN {
        for (i = 0; i < 500000; i++) printf "%s%s%06d%s", (i ? "," : ""), before, (order == "shuffled" ? i * 123457 % 500000 : i), after
    }'
}

# How the most memory that a run takes is found: by GNU's time, where it is there.
if [ "$(/usr/bin/time -f %M true 2>&1 || true)" -gt 0 ] 2> /dev/null; then
    peak_of() { # words
        /usr/bin/time -f %M -o "$folder/peak" "$command" "$@" > /dev/null 2>&1 || true
        tail -n 1 "$folder/peak"
    }
else
    peak_of() { echo 0; }
    echo "no memory is measured: there is no GNU /usr/bin/time"
fi

failed=0
echo null > "$folder/null"
echo true > "$folder/true"
echo '#P: _' > "$folder/everything"
start=$(run_time 20 validate --schema "$folder/true" --doc "$folder/null")

# What the next line's run takes beyond reading, in nanoseconds, where the line says that.
beyond=

# A line: what a run takes, which may be at most so many times what reading those texts of the folder takes, or so many
# milliseconds, or so many nanoseconds a judgement, or any time.
measure() { # name pairs times|ms|ns/judgement|any most texts words
    name=$1 pairs=$2 unit=$3 most=$4 texts=$5
    shift 5
    whole=$(run_time 7 "$@")
    whole=$((whole - start))
    reading=0
    bytes=0
    for text in $texts; do
        once=$(time_of "$folder/$text" read 1)
        least=$(time_of "$folder/null" read 1)
        reading=$((reading + once - least))
        bytes=$((bytes + $(wc -c < "$folder/$text")))
    done
    peak=$(peak_of "$@")
    awk -v name="$name" -v pairs="$pairs" -v unit="$unit" -v most="$most" -v bytes="$bytes" \
        -v taken="$whole" -v reading="$reading" -v peak="$peak" -v beyond="$beyond" 'BEGIN {
        share = reading > 0 ? taken / reading : 0
        speed = taken > 0 ? bytes * 1e3 / taken : 0
        slow = (unit == "times" && share > most) || (unit == "ms" && taken > most * 1e6)
        slow = slow || (unit == "ns/judgement" && beyond > most * pairs)
        judgement = beyond == "" ? "" : sprintf(" %12.2f", beyond / pairs)
        fault = slow ? "  more than " most " " unit : ""
        printf "%-28s %10d %10d %9.2f %7.1f %7.1f %8.2f %8d%s%s\n", name, bytes, pairs, taken / 1e6, share, speed, (pairs ? taken / pairs : 0), peak, judgement, fault
        exit (fault != "")
    }' || failed=1
}

vet() { # name pairs unit most root; the package and the document stand in the folder
    measure "$1" "$2" "$3" "$4" document vet --root "$5" --doc "$folder/document" "$folder/package"
}

validate() { # name pairs unit most texts; the schema and the document stand in the folder
    measure "$1" "$2" "$3" "$4" "$5" validate --schema "$folder/schema" --doc "$folder/document"
}

# Says where a run hasn't so many rules: a list of as many values as make 67,108,864 pairs with them at most has a verdict,
# and a list of one more is refused by 27.
check_rules() { # name rules words
    name=$1 values=$((67108864 / $2))
    shift 2
    awk -v count="$values" 'BEGIN { for (i = 2; i < count; i++) print "0,"; print "0" }' > "$folder/zeros"
    { echo '['; cat "$folder/zeros"; echo ']'; } > "$folder/most"
    { echo '[0,'; cat "$folder/zeros"; echo ']'; } > "$folder/more"
    answers=$("$command" "$@" --doc "$folder/most" 2>&1 || true),$("$command" "$@" --doc "$folder/more" 2>&1 || true)
    case $answers in
    'valid,error 27' | 'invalid,error 27') ;;
    *) echo "$name: it hasn't the rules that are counted here"; failed=1 ;;
    esac
}

# What a run takes beyond one that judges the same document by a rule that admits everything, in nanoseconds: the least of
# each, where both are made in turn, so that they meet the same load.
beyond_reading() { # words
    whole=
    reading=
    for _ in $(seq 15); do
        once=$(run_time 1 "$@")
        if [ -z "$whole" ] || [ "$once" -lt "$whole" ]; then whole=$once; fi
        case $1 in
        vet) once=$(run_time 1 vet --root '#P' --doc "$folder/document" "$folder/everything") ;;
        validate) once=$(run_time 1 validate --schema "$folder/true" --doc "$folder/document") ;;
        esac
        if [ -z "$reading" ] || [ "$once" -lt "$reading" ]; then reading=$once; fi
    done
    echo $((whole - reading))
}

# Both lines of a size, by the package and the document that stand in the folder, and by the schema that the package has.
judgements() { # size vet-rules validate-rules ns/judgement|any most root
    size=$1 vet_rules=$2 validate_rules=$3 unit=$4 most=$5 root=$6
    count=$("$program" flatten < "$folder/document")
    "$command" export --root "$root" "$folder/package" > "$folder/schema"
    verdict=$("$command" agree --root "$root" --doc "$folder/document" "$folder/package" 2>&1 || true)
    if [ "$verdict" != valid ]; then echo "$size: the document is judged $verdict"; failed=1; fi
    check_rules "vet $size" "$vet_rules" vet --root "$root" "$folder/package"
    beyond=$(beyond_reading vet --root "$root" --doc "$folder/document" "$folder/package")
    vet "vet $size" $((count * vet_rules)) "$unit" "$most" "$root"
    check_rules "validate $size" "$validate_rules" validate --schema "$folder/schema"
    beyond=$(beyond_reading validate --schema "$folder/schema" --doc "$folder/document")
    validate "validate $size" $((count * validate_rules)) "$unit" "$most" 'schema document'
    beyond=
}

printf '%-28s %10s %10s %9s %7s %7s %8s %8s %12s\n' run bytes pairs ms 'reads' 'MB/s' 'ns/pair' 'KiB' 'ns/judgement'
# Of a package the rules are the definitions that the root reaches and the expressions in them, of a schema its root,
# its definitions and every schema inside them. They are counted by hand, and `check_rules` asks the program.
records 5670000 > "$folder/document"
record_package 0 > "$folder/package"
judgements small 12 12 any 0 '#L'
fleet 12700 > "$folder/document"
fleet_package > "$folder/package"
judgements medium 96 78 ns/judgement 3.0 '#Fleet'
teams 100 > "$folder/document"
teams_package 100 > "$folder/package"
judgements large 1206 1204 ns/judgement 2.5 '#Teams'
if [ "$part" = judgements ]; then exit $failed; fi

records 5000000 > "$folder/document"
count=$("$program" flatten < "$folder/document")
record_package 0 > "$folder/package"
vet 'vet 12 rules' $((count * 12)) times 2.5 '#L'
record_package 67 > "$folder/package"
vet 'vet 80 rules' $((count * 80)) times 4 '#L'
record_schema 0 > "$folder/schema"
validate 'validate 12 rules' $((count * 12)) times 2.5 document
record_schema 34 > "$folder/schema"
validate 'validate 80 rules' $((count * 80)) times 4 document

# What doubles with each definition where it is judged by plain recursion.
echo 7 > "$folder/document"
for last in 40 64; do
    doubling_package "$last" > "$folder/package"
    vet "vet doubling $last" $((4 * last + 2)) ms 5 '#A0'
    doubling_schema "$last" > "$folder/schema"
    validate "validate doubling $last" $((3 * last + 2)) ms 5 'schema document'
done

# Long chains of definitions, and a loop, which is refused.
for way in after before; do
    chain_schema 300000 "$way" > "$folder/schema"
    validate "validate chain $way" 300001 any 0 'schema document'
done
chain_schema 300000 loop > "$folder/schema"
validate 'validate loop' 0 any 0 'schema document'

# Many small keywords.
keyword_schema 100000 > "$folder/schema"
validate 'validate 100000 properties' 100001 any 0 'schema document'

# Keywords and documents of many names and values.
{ printf '{'; numbers in-order '"k' '":0'; echo '}'; } > "$folder/document"
{ printf '{"required":['; numbers shuffled '"k' '"'; echo ']}'; } > "$folder/schema"
validate 'validate 500000 required' 500001 times 3 'schema document'
{ printf '['; numbers in-order 1 ''; echo ']'; } > "$folder/document"
{ printf '{"items":{"enum":['; numbers shuffled 2 ''; echo ']}}'; } > "$folder/schema"
validate 'validate 500000 of enum' 1000002 times 3 'schema document'

# A package at its limit.
echo 7 > "$folder/document"
operands 49999 > "$folder/package"
vet 'vet 50000 nodes' 50000 ms 500 '#A0'
exit $failed
