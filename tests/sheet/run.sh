#!/bin/sh
# Runs the program where reading and writing go well and where they fail. It says a failure in one line on standard error.
set -eu
here=$(cd "$(dirname "$0")" && pwd)
root=$(cd "$here/../.." && pwd)
program=$root/target/bin/sheet
if [ ! -x "$program" ]; then
    echo "tests/sheet: target/bin/sheet is missing: run tests/build sheet first" >&2
    exit 1
fi
sheet() { "$root/tests/x86_64" "$program"; }
work=$(mktemp -d)
trap 'rm -rf "$work"' EXIT
unread='sheet: the input could not be read'
unwritten='sheet: the output could not be written'
fail() { echo "tests/sheet: $*" >&2; exit 1; }
# $1: what the case is called; $2: all of standard output; $3: all of standard error
same() {
    cmp -s "$work/out" "$2" || fail "$1: another output"
    printf '%s' "$3" >"$work/words"
    [ -z "$3" ] || echo >>"$work/words"
    cmp -s "$work/err" "$work/words" || fail "$1: said '$(cat "$work/err")', not '$3'"
}
: >"$work/empty"

sheet <"$root/examples/gasket.sheet" >"$work/out" 2>"$work/err"
same "a good sheet" "$root/examples/gasket.out" ""

# with flag 2 a stored sheet prints the word beside its box, with flag 4 it is refused
with_flags() { head -c 2 "$root/examples/gasket.sheet"; printf "$1"; tail -c +4 "$root/examples/gasket.sheet"; }
sed '2s/$/ retired/' "$root/examples/gasket.out" >"$work/retired"
with_flags '\003' | sheet >"$work/out" 2>"$work/err"
same "a retired flag" "$work/retired" ""
printf '\001\0\002\0\0\0\0\0\020\0\0\0\020\0\0\0' | sheet >"$work/out" 2>"$work/err"
printf 'outline 0 0 open\nbox none retired\n' >"$work/retired"
same "a retired flag and no box" "$work/retired" ""
echo "refused 11" >"$work/refused"
with_flags '\005' | sheet >"$work/out" 2>"$work/err"
same "an unknown flag" "$work/refused" ""

# a pipe gives the sheet in pieces
(head -c 5 "$root/examples/gasket.sheet"; sleep 1; tail -c +6 "$root/examples/gasket.sheet") | sheet >"$work/out" 2>"$work/err"
same "a sheet in pieces" "$root/examples/gasket.out" ""

sheet <"$work/empty" >"$work/out" 2>"$work/err"
same "no bytes" "$work/refused" ""

head -c 100000 /dev/zero | sheet >"$work/out" 2>"$work/err"
same "more bytes than a sheet has" "$work/refused" ""

sheet <"$work" >"$work/out" 2>"$work/err"
same "a folder for a sheet" "$work/empty" "$unread"

sheet <&- >"$work/out" 2>"$work/err"
same "no input" "$work/empty" "$unread"

cp "$work/empty" "$work/out"
sheet <"$root/examples/gasket.sheet" >/dev/full 2>"$work/err"
same "a full disk" "$work/empty" "$unwritten"

sheet <"$work/empty" >/dev/full 2>"$work/err"
same "a full disk for a refusal" "$work/empty" "$unwritten"

sheet <"$root/examples/gasket.sheet" >&- 2>"$work/err"
same "no output" "$work/empty" "$unwritten"

echo "tests/sheet: ok"
