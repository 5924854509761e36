#!/bin/sh
# Names the recursions that end by a measure of their own, but for those over trees whose depth is limited, and fails where there
# is one. A recursion that goes down a tree by itself needs no measure, and is as deep as documents (127) or expressions (28) may
# be. Any other one may be as deep as an input is long, and no proof knows the stack: write a loop. Takes no time that can be
# seen.
#
#     tools/recursions.sh
set -eu
cd "$(dirname "$0")/.."

# The parser goes down by the brackets that are open, of which it refuses the 29th; the height of a body is followed 28 deep; a
# document is read 127 levels deep, and the one that answers a question is made so deep. Literals are looked for 16 rules deep, and
# two edits are looked for between names. Why a definition has no instance is looked for 64 parts deep. At most 65 definitions are
# passed on the way to the mark of a default. Embeddings, and what they narrow, take 128 steps at most, and what is put together is
# at most 28 levels high.
limited='crates/cs_check/proofs/schema/+cut
crates/cs_check/proofs/warnings/Search/+why
crates/cs_conditions/proofs/defaults/+default_within
crates/cs_defaults/proofs/leading/+hands_on
crates/cs_embeddings/proofs/joined/Joiner/+joined
crates/cs_embeddings/proofs/joining/Joining/+join
crates/cs_embeddings/proofs/labels/Labels/+labels
crates/cs_embeddings/proofs/narrowed/Narrowing/+joins
crates/cs_json/proofs/listing/Listing/+read
crates/cs_question/proofs/table/Table/+making
crates/cs_instance_reasons/proofs/near/literals/Search/+leading
crates/cs_instance_reasons/proofs/near/names/+are_near
crates/cs_syntax/proofs/parser/height/+height
crates/cs_syntax/proofs/parser/place/Parser/+parse
crates/cs_text/proofs/+are_near'

# The proofs of a recursion are in a folder whose name begins with `+`. The measure of the function f is `decreases-f` there, and
# that of a loop in it has a further part.
own=$(find crates -name out -prune -o -path '*/proofs/*' -name '*.antt' -print | grep '/+' | sort \
    | xargs grep -HoE '^ *decreases-[A-Za-z0-9_]+( .*)?=' | sed -E 's/ *=$//' || true)
[ -n "$own" ] || { echo 'no measure was found, not even those that are known' >&2; exit 1; }
others=$(echo "$own" | grep -vF "$(echo "$limited" | sed 's|$|/|')" || true)
if [ -n "$others" ]; then
    echo 'a recursion that no limit of depth bounds:' >&2
    echo "$others" >&2
    exit 1
fi
