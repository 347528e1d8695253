#!/bin/sh
# The header declares the functions that the source exports, with the same arguments in the same order, and face.c calls them all.
set -eu
here=$(cd "$(dirname "$0")" && pwd)
root=$(cd "$here/../.." && pwd)
work=$(mktemp -d)
trap 'rm -rf "$work"' EXIT

# Each `pub extern "C" fn` as its prototype in C: a slice is a pointer and a length. A kind that is not named here stays
# as it is, and so differs from the header.
cat "$root"/crates/bisquefern_c/src/*.rt | tr -s '\n ' '  ' | sed 's/pub extern "C" fn /\n&/g' |
    sed -n 's/^pub extern "C" fn \([a-z0-9_]*\)(\([^)]*\)) -> \([a-z0-9]*\) .*/\3 \1(\2)/p' |
    sed -e 's/( */(/' -e 's/,* *)/)/' -e 's/^u8 /uint8_t /' \
        -e 's/\([a-z_]*\): &\(mut \)*\[\([a-z0-9]*\)\]/\2\3 *\1, size_t \1_len/g' \
        -e 's/\([a-z_]*\): \([fu][0-9]*\)/\2 \1/g' \
        -e 's/\([(,] *\)\([a-z0-9]* \*\)/\1const \2/g' -e 's/\([(,] *\)mut /\1/g' \
        -e 's/f64 /double /g' -e 's/u64 /uint64_t /g' -e 's/u8 /uint8_t /g' | sort >"$work/source"

# The header's, where a record's 64 bytes are `void`; the source calls a record `bytes`.
"${CC:-gcc}" -E -P -I "$root/include" "$root/include/bisquefern.h" | tr -s '\n ' '  ' | tr ';' '\n' |
    sed -n 's/^ *\([a-z].* bf_[a-z0-9_]*(.*)\) *$/\1/p' |
    sed -e 's/void \*/uint8_t */g' -e 's/record/bytes/g' | sort >"$work/header"

diff -u "$work/source" "$work/header" || { echo "tests/c: the header (+) is not the source (-)" >&2; exit 1; }
[ -s "$work/header" ] || { echo "tests/c: no function was found" >&2; exit 1; }
for name in $(sed 's/.* \(bf_[a-z0-9_]*\)(.*/\1/' "$work/header"); do
    grep -q "[^a-z0-9_]$name(" "$here/face.c" || { echo "tests/c: face.c does not call $name" >&2; exit 1; }
done
