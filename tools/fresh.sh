#!/bin/sh
# Tries an archive of `make dist` as its reader does: unpacks it into an empty folder, with nothing in the environment but a PATH of /usr/bin
# and /bin, so without `rt`; compares its sums; looks at its manual pages; and runs what its own pages show with its own program. A line
# for each difference, and a closing count.
#
#     tools/fresh.sh ARCHIVE
set -eu
archive=$(realpath "$1")
tools=$(cd "$(dirname "$0")" && pwd)
room=$(mktemp -d)
trap 'rm -rf "$room"' EXIT
cd "$room"
tar -xzf "$archive"
cd cue2schema-*
sha256sum --quiet -c SHA256SUMS
cat PROVED-WITH
for page in share/man/man1/cue2schema.1.gz share/man/man7/cue2schema-refusals.7.gz; do
    man -l --warnings "$page" > "$room/page"
    [ -s "$room/page" ] || { echo "$page is empty"; exit 1; }
done
mkdir tools
cp "$tools/pages.sh" "$tools/wanted.sh" tools
env -i PATH=/usr/bin:/bin tools/pages.sh bin/cue2schema
