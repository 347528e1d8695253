#!/bin/sh
# Holds docs/PROMISES.md to the crates: each quoted line stands in the file that is named above it, each file and each wrong answer that is
# named is there, and two or more are named for each call. The texts that README and docs/SHEET.md show are those that are stored, and so
# is the number of replayed cases. Validation's definitions and functions name no root but the counted one. And nothing speaks of the box that
# left the library but what says so.
set -eu
cd "$(dirname "$0")/../.."
page=docs/PROMISES.md
# shows PAGE FILE: the page has the file's lines, each behind four spaces, as one block
shows() {
    awk -v first="    $(head -n 1 "$2")" '$0 == first { on = 1 } on && !/^    / { exit } on { print substr($0, 5) }' "$1" | cmp -s - "$2" ||
        echo "$1 does not show $2"
}
wrong=$(
    shows README.md examples/gasket.out
    shows docs/SHEET.md crates/sheet/stdout
    shows docs/SHEET.md tests/tools/hinge.numbers
    # a block of lines behind four spaces is a quotation of the file in the line before it: From FILE:
    awk '
        /^From [a-z0-9_]+\/[A-Za-z0-9_\/]+\.(antt|rt):$/ { file = $2; sub(/:$/, "", file); next }
        /^    / { print (file == "" ? "-" : file) "\t" substr($0, 5); next }
        /^$/ { next }
        { file = "" }' "$page" | while IFS="$(printf '\t')" read -r file line; do
        if [ "$file" = - ]; then echo "$page quotes a line of no file: $line"
        elif ! grep -qxF -- "$line" "crates/$file"; then echo "crates/$file has no line: $line"; fi
    done
    grep -oE '[a-z0-9_]+/(specs|proofs|src)/[A-Za-z0-9_/]+\.(antt|rt)' "$page" | sort -u | while read -r file; do
        [ -f "crates/$file" ] || echo "$page names crates/$file, which is not there"
    done
    # a wrong answer is named as CRATE/NAME, and stands in a file of the crate's folder must-fail behind a line '# NAME: ..'
    named=$(tr -c 'a-z0-9_/.' '\n' <"$page" | sed 's/\.*$//' | grep -E '^[a-z0-9_]+/[a-z0-9_]+$' | sort -u)
    for one in $named; do
        [ ! -d "crates/${one%/*}" ] || grep -qE "^# ${one#*/}: " "crates/${one%/*}"/must-fail/*.edit 2>/dev/null ||
            echo "$page names the wrong answer $one, which no edit has"
    done
    cases=$(wc -l <crates/replay/stdout | sed 's/ //g; s/...$/,&/')
    for one in README.md "$page"; do grep -qF " $cases " "$one" || echo "$one does not say that replay has $cases cases"; done
    # the published text has that box; stored sheets and texts may ask for it
    grep -rliE 'fast[-_ ]?(approx|box)|box[-_ ]fast' --exclude-dir=target --exclude-dir=.git . | while read -r file; do
        case $file in
        ./docs/notes/M-109.md | ./docs/DIFFERENCES.md | ./tests/docs/run.sh) ;;
        ./examples/make_sheet.py | ./tests/tools/cases/make_sheet.txt) ;;
        ./compare/published/text/polyline/pline_seg.rs | ./compare/cases/src/former.rs) ;;
        *) echo "$file speaks of the fast box" ;;
        esac
    done
    # validation and what it asks take no root but the counted one, once; what takes one uncounted has these names
    for file in seg/specs/Closest.antt view/specs/Segment.antt view/specs/Validation.antt; do
        ! grep -nwE 'root_of|length_of|radius_of|circle_of' "crates/$file" || echo "crates/$file takes a root that is not counted"
    done
    for file in seg/src/closest.rt view/src/segment.rt view/src/validate.rt; do
        ! grep -nwE 'root|sqrt|length|arc_radius|seg_arc_radius_and_center' "crates/$file" || echo "crates/$file takes a root that is not counted"
    done
    [ "$(cat crates/*/src/*.rt | grep -cE '[^_a-z]counted_root\(')" = 2 ] || echo "counted_root is not one function with one call"
    # of each call in demand 2's tables two or more are named: a row's last column has a group for each, parted by ;
    awk -F'|' '
        /^\*\*2\./ { on = 1 }
        /^\*\*3\./ { on = 0 }
        on && /^\| .*`/ {
            calls = split($2, call, ";")
            groups = split($(NF - 1), group, ";")
            if (calls != groups) print "calls and groups of wrong answers differ in number:" $0
            for (i = 1; i <= groups; i++) if (gsub(/[a-z0-9_]+\/[a-z0-9_]+/, "", group[i]) < 2) print "fewer than two wrong answers of" call[i]
        }' "$page" | sed "s|^|$page: |"
)
if [ -n "$wrong" ]; then
    printf '%s\n' "$wrong" >&2
    exit 1
fi
echo "tests/docs: ok"
