#!/bin/sh
# Says which names of the tables in docs/DEFINITIONS.md and docs/PROOF.md aren't where these say: for each row of a table whose last
# column is `file`, each name in backticks in its first cell has to be defined in a file of its last cell. A file is named from
# `crates` on, or from the folder of the crate that the heading names. Says too which other file of the crate's definitions or proofs
# has the name. Status 1 where one is missing, or where README.md doesn't name the numbers of lines that tools/reached.sh counts.
#
#     tools/definitions.sh [PAGE..]
set -eu
cd "$(dirname "$0")/.."
export LC_ALL=C

believed=$(tools/reached.sh | sed -nE '$s/^([0-9]+)([0-9]{3}) lines.*/\1,\2 lines/p')
grep -qF "$believed" README.md || { echo "README.md doesn't name the $believed that tools/reached.sh counts"; exit 1; }
default=$(tools/reached.sh --default | sed -nE '$s/^([0-9]+)([0-9]{3}) lines.*/\1,\2 are of the default profile/p')
tr '\n' ' ' < README.md | grep -qF "$default" || { echo "README.md doesn't say that $default, as tools/reached.sh counts"; exit 1; }

[ $# -gt 0 ] || set -- docs/DEFINITIONS.md docs/PROOF.md
awk '
# The texts between backticks in a cell go to `spans`, from 1 on.
function spans_of(cell,   n) {
    delete spans
    n = 0
    while (match(cell, /`[^`]+`/)) {
        spans[++n] = substr(cell, RSTART + 1, RLENGTH - 2)
        cell = substr(cell, RSTART + RLENGTH)
    }
    return n
}

# Reads what a file defines: a line that begins with a name, behind `pub`, `abbrev`, `data` or `record` at most.
function read_file(file,   line, n, words, i, status) {
    seen[file] = 1
    while ((status = (getline line < file)) > 0) {
        n = split(line, words, " ")
        for (i = 1; i <= n && words[i] ~ /^(pub|abbrev|data|record)$/; i++);
        if (i <= n) defined[file, words[i]] = 1
    }
    if (status < 0) seen[file] = 0
    close(file)
}

# The other files of the crate that define a name.
function elsewhere(file, name,   folder, command, other, found) {
    folder = file
    sub(/\/(specs|proofs)\/.*/, "", folder)
    command = "ls " folder "/specs/*.antt " folder "/proofs/*.antt 2> /dev/null"
    while ((command | getline other) > 0) {
        if (!(other in seen)) read_file(other)
        if ((other, name) in defined) found = found " " other
    }
    close(command)
    return found == "" ? "" : ", but in" found
}

function fault(text) {
    print FILENAME ":" FNR ": " text
    failed = 1
}

/^#/ {
    crate = match($0, /`cs_[a-z_]+`/) ? substr($0, RSTART + 1, RLENGTH - 2) : ""
    listed = 0
}
!/^\|/ { listed = 0; next }
{
    row = $0
    gsub(/\\\|/, "\001", row)
    sub(/^\| */, "", row)
    sub(/ *\|[ \t]*$/, "", row)
    count = split(row, cells, / *\| */)
    if (cells[count] == "file") { listed = 1; next }
    if (!listed || cells[1] ~ /^-+$/) next
    files = ""
    n = spans_of(cells[count])
    for (i = 1; i <= n; i++) {
        file = "crates/" (spans[i] ~ /^cs_[a-z_]+\// ? "" : crate "/") spans[i]
        if (!(file in seen)) read_file(file)
        if (seen[file]) files = files " " file
        else fault("there is no " file)
        sought = file
    }
    m = split(files, paths, " ")
    n = spans_of(cells[1])
    for (i = 1; i <= n; i++) {
        split(spans[i], words, " ")
        found = 0
        for (j = 1; j <= m; j++) if ((paths[j], words[1]) in defined) found = 1
        if (!found) fault(words[1] " is not in" (m ? files : " " sought) elsewhere(sought, words[1]))
    }
}
END { exit failed }
' "$@"
