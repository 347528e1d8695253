#!/bin/sh
# Tests examples/make_sheet.py and examples/text_numbers.py: what they refuse first, then what they make. It needs python3 alone.
set -eu
here=$(cd "$(dirname "$0")" && pwd)
root=$(cd "$here/../.." && pwd)
cases=$here/cases
at=
fail() {
    echo "tests/tools: $*$at" >&2
    exit 1
}
command -v python3 >/dev/null || fail "python3 is missing"
work=$(mktemp -d)
trap 'rm -rf "$work"' EXIT
cd "$work"
python=$(python3 -c 'import sys; print(sys.executable)')
make() { "$python" "$root/examples/make_sheet.py" "$@"; }
show() { "$python" "$root/examples/text_numbers.py" "$@"; }

# ends STATUS COMMAND..: the command ends with that status; its output is in the files out and err.
ends() {
    want=$1
    shift
    status=0
    "$@" >out 2>err || status=$?
    [ "$status" -eq "$want" ] || fail "$* ended with $status, and $want was wanted: $(cat err)"
}

# says STATUS MESSAGE COMMAND..: it says that line on standard error, and prints nothing.
says() {
    message=$2
    want=$1
    shift 2
    ends "$want" "$@"
    [ "$(cat err)" = "$message" ] || fail "$* said '$(cat err)', and '$message' was wanted"
    [ ! -s out ] || fail "$* printed, though it refuses"
}

# each TABLE COMMAND..: the command refuses each text of the table, as the file 'text', with its message.
each() {
    table=$1
    shift
    rm -f message.* text.*
    awk '
        /^> / { close("text." n); n++; print substr($0, 3) >("message." n); close("message." n); printf "" >("text." n); next }
        n { print >("text." n) }
    ' "$table"
    n=1
    while [ -f "message.$n" ]; do
        at=" (case $n of $table)"
        cp "text.$n" text
        says 1 "text:$(cat "message.$n")" "$@"
        n=$((n + 1))
    done
    at=
    [ "$n" -gt 1 ] || fail "$table has no case"
}

# text FORMAT: makes the file 'text' with printf.
text() {
    # shellcheck disable=SC2059
    printf "$1" >text
}

# made FILE, shown FILE: what was made or shown is that file, byte for byte.
made() { cmp made "$1" || fail "the sheet made is not $1"; }
shown() { diff "$1" out || fail "the text shown is not $1"; }

# --- make_sheet.py refuses, and keeps the sheet that was there

echo kept >made
echo kept >kept
each "$cases/make_sheet.txt" make text made
text 'outline closed\nvertex 1 2 \377\n'
says 1 "text:2: wanted UTF-8 text" make text made
text 'outline closed # a comment\rvertex 20 0 0\r\nvertex 80 0 0\n'
says 1 "text:1: wanted a line feed at each line's end, and no other line break" make text made
awk 'BEGIN { print "outline closed"; for (n = 0; n < 65536; n++) print "vertex 1 2 0" }' >text
says 1 "text:65537: wanted at most 65535 vertex lines" make text made
awk 'BEGIN { print "outline closed"; for (n = 0; n < 65536; n++) print "view" }' >text
says 1 "text:65537: wanted at most 65535 view lines" make text made
says 1 "absent: can't be read: No such file or directory" make absent made
says 1 ".: can't be read: Is a directory" make . made
made kept
says 1 "absent/made: can't be written: No such file or directory" make "$cases/every.txt" absent/made
cp "$cases/every.txt" text
says 1 "./text: can't be written: it is the text" make text ./text
cmp text "$cases/every.txt" || fail "the text was written over"
usage="usage: make_sheet.py TEXT SHEET (--help says more)"
says 2 "$usage" make
says 2 "$usage" make text
says 2 "$usage" make text made more
says 2 "$usage" make --text made
made kept

# --- text_numbers.py refuses

each "$cases/text_numbers.txt" show text
text 'outline 0 1 open\nbox none\nview 0 1 hold 0 0'
says 1 "text:3: wanted a line feed at the end of this line: the text is cut short" show text
text 'outline 0 0 open\nbox none\nview'
says 1 "text:3: wanted the end of the text" show text
text 'outline 0 0 open\r\nbox none\r\n'
says 1 "text:1: wanted a line feed alone at the end of this line" show text
text 'outline 0 0 open\nbox n\377ne\n'
says 1 "text:2: wanted 'box none'" show text
for n in 1 2 3 4 5 6 7 8 9 10 11 12; do
    head -n "$n" "$root/examples/gasket.out" >text
    ends 1 show text
    grep -q "^text:$((n + 1)): wanted .*: the text is cut short$" err || fail "a text of $n lines: $(cat err)"
    [ ! -s out ] || fail "a text of $n lines is shown"
done
says 1 "standard input:1: wanted 'outline V W open|closed' or 'refused N': the text is cut short" show </dev/null
says 1 "absent: can't be read: No such file or directory" show absent
usage="usage: text_numbers.py [TEXT] (--help says more)"
says 2 "$usage" show text more
says 2 "$usage" show --hex
if [ -w /dev/full ]; then
    status=0
    show "$root/examples/gasket.out" >/dev/full 2>err || status=$?
    [ "$status $(cat err)" = "1 standard output: can't be written: No space left on device" ] || fail "a full output: $status $(cat err)"
fi

# --- make_sheet.py makes

ends 0 "$root/examples/make_sheet.py" --help
head -n 1 out | grep -q '^make_sheet.py TEXT SHEET: ' || fail "make_sheet.py --help prints no help"
ends 0 make "$root/examples/gasket.txt" made
made "$root/examples/gasket.sheet"
ends 0 make "$root/examples/hinge.txt" made
made "$root/examples/hinge.sheet"
ends 0 make "$cases/example.txt" made
made "$root/crates/sheet/stdin"
{
    printf '\357\273\277'
    awk '{ printf "%s\r\n", $0 } END { printf "box true" }' "$cases/example.txt"
} >text
ends 0 make text made
made "$root/crates/sheet/stdin"
ends 0 make "$cases/every.txt" made
od -An -v -tx1 made | diff "$cases/every.hex" - || fail "the sheet made is not $cases/every.hex"
awk 'BEGIN { print "outline closed"; for (n = 0; n < 65535; n++) print "vertex 1 2 0" }' >text
ends 0 make text made
[ "$(wc -c <made)" -eq $((16 + 24 * 65535)) ] || fail "65535 vertices make $(wc -c <made) bytes"

# --- text_numbers.py shows

ends 0 "$root/examples/text_numbers.py" --help
head -n 1 out | grep -q '^text_numbers.py \[TEXT\]: ' || fail "text_numbers.py --help prints no help"
ends 0 show "$root/examples/gasket.out"
shown "$here/gasket.numbers"
ends 0 show <"$root/examples/gasket.out"
shown "$here/gasket.numbers"
ends 0 show "$root/examples/hinge.out"
shown "$here/hinge.numbers"
ends 0 show "$cases/names.out"
shown "$cases/names.numbers"
text 'outline 1 2 closed\nbox none\nview 0 1 hold 0 7\nview 1 refused 1\n'
ends 0 show text
text 'outline 1 2 closed\nbox none\nview 0 1 hold 0 7 (no segments)\nview 1 refused 1 (a number is NaN, infinite or out of range)\n'
shown text
text 'outline 1 0 closed\nbox none retired\n'
ends 0 show text
shown text
text 'outline 2 0 open\nbox 0000000000000000 bfe0000000000000 3ff0000000000000 0000000000000000 retired\n'
ends 0 show text
text 'outline 2 0 open\nbox 0.0 -0.5 1.0 0.0 retired\n'
shown text
awk 'BEGIN {
    print "outline 2000 256 closed\nbox 3ff0000000000000 3ff0000000000000 3ff0000000000000 3ff0000000000000"
    for (k = 0; k < 256; k++) print "view " k " refused 4"
}' >text
ends 0 show text
[ "$(tail -n 1 out)" = "view 255 refused 4 (start index not below the vertex count)" ] || fail "the largest counts show $(tail -n 1 out)"
text 'refused 1\n'
ends 0 show text
text 'refused 1 (a number is NaN, infinite or out of range)\n'
shown text
text 'refused 11\n'
ends 0 show text
text 'refused 11 (wrong length, version, count, offset or flag)\n'
shown text
text 'refused 12\n'
ends 0 show text
text 'refused 12 (a direction is not 0 or 1)\n'
shown text

echo "tests/tools: ok"
