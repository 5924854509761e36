#!/bin/sh
# Puts the program and its manual pages under a folder: bin/cue2schema, and the pages below share/man.
#
#     tools/install.sh PROGRAM FOLDER
set -eu
top=$(cd "$(dirname "$0")/.." && pwd)
pages=$(mktemp -d)
trap 'rm -rf "$pages"' EXIT

"$top/tools/manual.py" "$pages"
install -D -m 755 "$1" "$2/bin/cue2schema"
for page in man1/cue2schema.1 man7/cue2schema-refusals.7; do
    gzip -9n "$pages/$page"
    install -D -m 644 "$pages/$page.gz" "$2/share/man/$page.gz"
done
