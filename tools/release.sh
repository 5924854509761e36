# What dist.sh and deb.sh share: what is packed, of which version and commit, and at which time. Their first word is the program, and
# their second one what `rt version` prints of the toolchain that proved it. The pages are those of the last commit, so nothing may
# differ from it.
program=$(realpath "$1")
proved=${2:-nothing is proved of this program: it was packed for a trial}
top=$(cd "$(dirname "$0")/.." && pwd)
cd "$top"
if [ -n "$(git status --porcelain --untracked-files=no)" ]; then
    echo "commit first: what is packed is named by its commit" >&2
    exit 1
fi
version=$("$program" --version)
version=${version##* }
SOURCE_DATE_EPOCH=$(git log -1 --format=%ct)
export SOURCE_DATE_EPOCH LC_ALL=C TZ=UTC
umask 022
room=$(mktemp -d)
trap 'rm -rf "$room"' EXIT

# put_pages FOLDER: the pages and examples of the commit, and what proved the program
put_pages() {
    mkdir -p "$1"
    git archive HEAD README.md docs examples | tar -x -C "$1"
    { printf '%s\n' "$proved"; git log -1 --format='commit %H'; } > "$1/PROVED-WITH"
}
