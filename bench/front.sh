#!/bin/sh
# Times the lexer and the parser on sources of four shapes each: for 1 MiB the speed, and how many times
# longer it takes than for 64 KiB. (A source of more than half a million tokens takes three times as long for
# each of them, since their list is then larger than what malloc keeps for the next one.)
# usage: front.sh PROGRAM, which takes `lex` or `parse` and how many times the source on standard input
set -eu

. "$(dirname "$0")/timing.sh"

# The whole lines of a shape up to so many bytes.
source_of() { # shape bytes
    awk -v shape="$1" -v size="$2" 'BEGIN {
        if (shape == "names")        for (i = 0; i < 2000; i++) line = line "name_" i % 10
        if (shape == "texts")        { for (i = 0; i < 1000; i++) line = line "text\\n\\u00e9"; line = "\"" line "\"" }
        if (shape == "tokens")       line = "{width: 12, height?: <34 | null}"
        if (shape == "comments")     line = "// a comment that runs to the end of its line, and is no token"
        if (shape == "definitions")  line = "#Port: int & >=1 & <=65535"
        if (shape == "structs")      { for (i = 0; i < 400; i++) line = line "field_" i ": int, "; line = "#Wide: {" line "...}" }
        if (shape == "disjunctions") { line = "#Any: 0"; for (i = 1; i < 2000; i++) line = line " | " i }
        if (shape == "nested")       { line = "#Deep: "; for (i = 0; i < 26; i++) line = line "{a: "; line = line "1"; for (i = 0; i < 26; i++) line = line "}" }
        for (n = length(line) + 1; n <= size; n += length(line) + 1) print line
    }'
}

# A line for a shape.
measure() { # step shape times
    source_of "$2" 65536 > "$folder/small"
    source_of "$2" 1048576 > "$folder/large"
    small=$(time_of "$folder/small" "$1" $(($3 * 16)))
    large=$(time_of "$folder/large" "$1" "$3")
    awk -v step="$1" -v shape="$2" -v count="$("$program" "$1" < "$folder/large")" -v bytes="$(wc -c < "$folder/large")" \
        -v small="$small" -v large="$large" 'BEGIN {
        printf "%-6s %-13s %10d %10.2f %8.0f %8.1f\n", step, shape, count, large / 1e6, bytes * 1e3 / large, large / small
    }'
}

printf '%-6s %-13s %10s %10s %8s %8s\n' step shape count 'ms (1 MiB)' MB/s ratio
for shape in names texts tokens comments; do measure lex "$shape" 100; done
for shape in definitions structs disjunctions nested; do measure parse "$shape" 20; done
