# The table of table.sh, from the lines of the scripts, a file for each.

# A size in bytes, a time in milliseconds, and memory in bytes, for people; nothing where there is none.
function size(bytes) { return bytes < 1e6 ? sprintf("%.0f kB", bytes / 1e3) : sprintf(bytes < 1e7 ? "%.2f MB" : "%.0f MB", bytes / 1e6) }
function time(ms) { return ms < 10 ? sprintf("%.1f ms", ms) : ms < 1000 ? sprintf("%.0f ms", ms) : sprintf("%.2f s", ms / 1e3) }
function memory(bytes) { return bytes > 0 ? sprintf(bytes < 1e7 ? "%.1f MB" : "%.0f MB", bytes / 1e6) : "" }
# A number with a comma before each three digits.
function grouped(number,   digits) {
    digits = sprintf("%.0f", number)
    return length(digits) > 3 ? grouped(substr(digits, 1, length(digits) - 3)) "," substr(digits, length(digits) - 2) : digits
}
# How many times as long so many times the size takes, where it could be measured.
function growth(ratio, sizes) { return ratio == "-" ? "" : ratio " for " sizes }

# A row, from its line: what its label says, and the script.
function row(label, read, taken, speed, times, peak, from,   column) {
    rows++
    cell[rows, 1] = label
    cell[rows, 2] = read
    cell[rows, 3] = taken
    cell[rows, 4] = speed
    cell[rows, 5] = times
    cell[rows, 6] = peak
    cell[rows, 7] = rows > 1 ? "`" from ".sh`" : from
    for (column = 1; column <= 7; column++) if (length(cell[rows, column]) > width[column]) width[column] = length(cell[rows, column])
}

function print_row(at,   column, line) {
    line = "|"
    for (column = 1; column <= 7; column++) line = line sprintf(" %" (column == 1 ? "-" : "") width[column] "s |", cell[at, column])
    print line
}

BEGIN {
    row("what", "size", "time", "speed", "growth", "memory", "script")
    told["parse definitions"] = "parsing 1 MiB of short definitions"
    told["parse structs"] = "parsing 1 MiB of wide structs"
    told["all package"] = "reading and checking 1,000 definitions of 50 nodes"
    told["read short"] = "reading short values as a tree"
    told["list short"] = "reading short values as a list"
    told["list long"] = "reading long texts as a list"
    told["fill table"] = "filling the largest table"
    told["definitions"] = "export: 1,000 structs of 23 fields"
    told["labels"] = "export: a struct of 24,900 fields"
    told["texts"] = "export: 49,900 alternatives"
    told["vet small"] = "vet: 12 rules"
    told["vet medium"] = "vet: 96 rules"
    told["vet large"] = "vet: 1,206 rules"
    told["validate small"] = "validate: 12 rules"
    told["validate medium"] = "validate: 78 rules"
    told["validate large"] = "validate: 1,204 rules"
    told["validate 500000 required"] = "validate: 500,000 required names"
    told["vet 50000 nodes"] = "vet: the largest package, one value"
    told["judged"] = "vet --lines: 12 rules"
    told["one fault: vet"] = "vet --why: one fault"
    told["one fault: validate"] = "validate --why: one fault"
    told["all pairs refused: vet"] = "vet --why: all pairs of the largest table"
    told["compare structs"] = "compare: 1,000 structs of 23 fields"
    told["compare chain"] = "compare: a chain of 1,000 definitions"
    told["compare labels"] = "compare: a struct of 4,000 fields"
    told["compare elements"] = "compare: a list of 20,000 fixed elements"
    told["compare tagged"] = "compare: 100 tagged alternatives"
    told["compare constants"] = "compare: 20,000 constants"
    told["compare ranges"] = "compare: 3,000 classes of integers"
    told["samples structs"] = "samples: 100 structs of 23 fields"
    told["samples --invalid structs"] = "samples --invalid: 100 structs of 23 fields"
}

FNR == 1 { script = FILENAME; sub(/.*\//, "", script) }

{ name = substr($0, 1, 28); sub(/ +$/, "", name) }

script == "front" && (($1 " " $2) in told) { row(told[$1 " " $2], size(1048576), time($4), $5 " MB/s", growth($6, 16), "", script) }

script == "packages" && (($1 " " $2) in told) { row(told[$1 " " $2], size($4), time($5), "", growth($6, 10), "", script) }

script == "documents" && (($1 " " $2) in told) {
    is_text = $4 == "bytes"
    row(told[$1 " " $2], (is_text ? size($3) : grouped($3) " pairs"), time($5), $6 " " $7 (is_text ? "" : " a pair"), growth($8, 10), memory($9 * $3), script)
}

script == "exports" && $1 == "ms" { nextfile }
script == "exports" && ($1 in told) { row(told[$1], size($2), time($3), $4 " MB/s", growth($5, 10), memory($6 * 1024), script) }

script == "judges" && (name in told) {
    split(substr($0, 29), number)
    # Where there is little to read, what is judged says more than what is read.
    row(told[name], (number[1] < 1e6 ? grouped(number[2]) " pairs" : size(number[1])), time(number[3]),
        (number[1] < 1e6 ? (number[6] < 100 ? sprintf("%.1f", number[6]) : grouped(number[6])) " ns a pair" : sprintf("%.0f MB/s", number[5])), "", memory(number[7] * 1024), script)
}

script == "lines" && ($1 in told) && $3 == "lines" { row(told[$1], size($2 * $5), time($7), grouped($9) " lines/s", "", memory($18 * 1024), script) }

script == "why" && (name in told) {
    split(substr($0, 29), number)
    row(told[name], size(number[5]), time(number[2]), sprintf(number[3] < 10 ? "%.2f" : "%.0f", number[3]) " times the verdict", "", memory(number[4] * 1048576), script)
}

script == "questions" && (name in told) {
    split(substr($0, 29), number)
    row(told[name], size(number[1]), time(number[2]), "", growth(number[3], 10), memory(number[4] * 1024), script)
}

END {
    print_row(1)
    print "|---|---|---|---|---|---|---|"
    for (at = 2; at <= rows; at++) print_row(at)
}
