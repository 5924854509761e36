#!/bin/sh
# Packs the program as a Debian package, dist/cue2schema_VERSION_amd64.deb: the program in /usr/bin, its manual pages, and README.md,
# docs/, examples/, PROVED-WITH, copyright and changelog.gz in /usr/share/doc/cue2schema. The same program at the same commit makes the same
# bytes. The maintainer is the author of the last commit, or what MAINTAINER="NAME <ADDRESS>" says. Needs dpkg-deb.
#
#     tools/deb.sh PROGRAM [PROVED]        what `rt version` prints; without it PROVED-WITH says that nothing is proved of the program
set -eu
. "$(dirname "$0")/release.sh"
package=$room/package

tools/install.sh "$program" "$package/usr"
docs=$package/usr/share/doc/cue2schema
put_pages "$docs"
maintainer=${MAINTAINER:-$(git log -1 --format='%an <%ae>')}
commit=$(git log -1 --format=%H)

# What is known of rights, and no more. The libraries are the names in crates.txt that aren't crates of this repository.
libraries=$(sed -n 's/^[a-z].*: *//p' crates.txt | tr ' ' '\n' | grep -v '^cs_' | sort -u | paste -s -d ' ' | sed 's/ /, /g')
cat > "$docs/copyright" << END
cue2schema $version, from the commit $commit of its sources.

No licence has been given for cue2schema yet: that is its owner's to choose.

The program has parts of libraries in it that come with the toolchain which
PROVED-WITH names: $libraries,
and what these use. Where one of them has a licence, it stands there beside its
sources.
END
cat << END | gzip -9n > "$docs/changelog.gz"
cue2schema ($version) unstable; urgency=medium

  * Packed from the commit $commit.

 -- $maintainer  $(date -u -R -d "@$SOURCE_DATE_EPOCH")
END
mkdir "$package/DEBIAN"
(cd "$package" && find usr -type f -print0 | sort -z | xargs -0 md5sum > DEBIAN/md5sums)
cat > "$package/DEBIAN/control" << END
Package: cue2schema
Version: $version
Architecture: amd64
Maintainer: $maintainer
Installed-Size: $(find "$package/usr" -type f -printf '%s\n' | awk '{ size += int(($1 + 1023) / 1024) } END { print size }')
Depends: libc6 (>= 2.34)
Section: utils
Priority: optional
Description: compiler from CUE definitions to JSON Schema
 cue2schema turns a definition in CUE into a JSON Schema of draft 2020-12 that
 accepts the same documents, and judges documents by the definition or by a
 schema. It also compares two editions of a definition, writes documents of one,
 and tells what is wrong and where.
 .
 What is supported of CUE and of JSON Schema, and what is proved, is said in
 /usr/share/doc/cue2schema.
END
chmod -R u=rwX,go=rX "$package"

mkdir -p dist
dpkg-deb --root-owner-group -Zxz --build "$package" "dist/cue2schema_${version}_amd64.deb" > "$room/said"
echo "dist/cue2schema_${version}_amd64.deb"
