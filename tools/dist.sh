#!/bin/sh
# Packs the program as dist/cue2schema-VERSION-linux-x86_64.tar.gz: one folder of that name with bin/cue2schema, share/man, README.md,
# docs/, examples/, PROVED-WITH and SHA256SUMS. The same program at the same commit makes the same bytes.
#
#     tools/dist.sh PROGRAM [PROVED]        what `rt version` prints; without it PROVED-WITH says that nothing is proved of the program
set -eu
. "$(dirname "$0")/release.sh"
name=cue2schema-$version-linux-x86_64
folder=$room/$name

put_pages "$folder"
tools/install.sh "$program" "$folder"
(cd "$folder" && find . -type f -printf '%P\0' | sort -z | xargs -0 sha256sum) > "$room/sums"
mv "$room/sums" "$folder/SHA256SUMS"

mkdir -p dist
tar -C "$room" --sort=name --format=ustar --owner=0 --group=0 --numeric-owner --mode=u=rwX,go=rX --mtime="@$SOURCE_DATE_EPOCH" \
    -cf "$room/archive.tar" "$name"
gzip -9n < "$room/archive.tar" > "dist/$name.tar.gz"
echo "dist/$name.tar.gz"
