#!/bin/sh
# Says where docs/CONTRACTS.md and the code differ: a named clause of a public function that the page lacks, and a clause of the page
# that its function doesn't have. A row belongs to the crates that its heading and its first cell name. Status 1 where one differs.
#
#     tools/contracts.sh
set -eu
cd "$(dirname "$0")/.."
export LC_ALL=C

awk '
function fault(text) {
    print text
    failed = 1
}

# The page: each clause of each function, for each crate that the row may mean.
FILENAME ~ /\.md$/ && /^## / {
    heading = $0
    call = ""
}
FILENAME ~ /\.md$/ && /^\|/ && !/^\|-/ {
    row = $0
    gsub(/\\\|/, "", row)
    split(row, cells, "|")
    if (cells[2] ~ /^ call /) next
    if (cells[2] ~ /`/) call = cells[2]
    crates = spans(heading " " call, "cs_[a-z_]+")
    calls = spans(call, "[A-Za-z:]*[a-z_]+|==")
    clauses = cells[3] ~ /`/ ? spans(cells[3], "[a-z_]+") : ""
    n = split(crates, crate, " ")
    m = split(calls, name, " ")
    k = split(clauses, clause, " ")
    for (i = 1; i <= n; i++) for (j = 1; j <= m; j++) {
        sub(/.*::/, "", name[j])
        if (name[j] == "==") name[j] = "eq"
        if (name[j] ~ /^cs_/) continue
        listed[crate[i], name[j]] = 1
        for (l = 1; l <= k; l++) if (clause[l] != "requires") {
            said[crate[i], name[j], clause[l]] = 1
            row_of[name[j], clause[l]] = FILENAME ":" FNR
        }
    }
}

# The texts between backticks that have the form, one after another.
function spans(text, form,   found, span) {
    found = ""
    while (match(text, /`[^`]+`/)) {
        span = substr(text, RSTART + 1, RLENGTH - 2)
        text = substr(text, RSTART + RLENGTH)
        if (span ~ ("^(" form ")$")) found = found " " span
    }
    return found
}

# The code: the function that a contract belongs to, and whether callers of other crates see it.
FILENAME ~ /\.rt$/ {
    if (FNR == 1) {
        folder = FILENAME
        sub(/^crates\//, "", folder)
        sub(/\/.*/, "", folder)
        seen = ""
        is_trait = 0
    }
    if (/^impl/) is_trait = / for /
    if (/^pub trait/) is_trait = 1
    if (/^}/) is_trait = 0
    if (/^ *(pub |pub\(crate\) )?fn /) {
        is_public = /^ *pub fn / || is_trait
        seen = $0
        sub(/.*fn /, "", seen)
        sub(/[^A-Za-z_0-9].*/, "", seen)
    }
    if (is_public && /^ *ensures [a-z_]+ *\{/) {
        has[folder, seen, $2] = 1
        if (!((folder, seen, $2) in said)) fault(FILENAME ":" FNR ": docs/CONTRACTS.md lacks the clause " $2 " of " seen)
    }
    if (is_public && /^ *ensures \{/ && !((folder, seen) in listed) && seen != "cmp" && FILENAME !~ /conversions/) fault(FILENAME ":" FNR ": docs/CONTRACTS.md lacks " seen)
}

END {
    for (key in said) {
        split(key, part, SUBSEP)
        known = 0
        for (other in has) {
            split(other, real, SUBSEP)
            if (real[2] == part[2] && real[3] == part[3]) known = 1
        }
        if (!known && !reported[part[2], part[3]]++) fault(row_of[part[2], part[3]] ": no function " part[2] " has the clause " part[3])
    }
    exit failed
}
' docs/CONTRACTS.md $(find crates/cs_*/src -name '*.rt' ! -path 'crates/cs_rows/*' ! -path 'crates/cs_calls/*' | sort)
