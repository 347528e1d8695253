#!/bin/sh
# Runs the commands of README's section "Use it", block by block, in a folder that holds what they name; each must print `cut`.
set -eu
root=$(cd "$(dirname "$0")/../.." && pwd)
machine=$(uname -m)
[ "$machine" = x86_64 ] || { echo "tests/use: not tried: the library is for x86-64, and README's commands for such a machine; this one is $machine"; exit; }
fail() { echo "tests/use: $*" >&2; exit 1; }
[ -f "$root/target/staticlib/libbisquefern.a" ] ||
    fail "target/staticlib/libbisquefern.a is missing: run tests/build archive first"
command -v cc >/dev/null || fail "cc is missing"
work=$(mktemp -d)
trap 'rm -rf "$work"' EXIT
mkdir "$work/target"
ln -s "$root/include" "$root/examples" "$work"
ln -s "$root/target/staticlib" "$work/target"
awk -v work="$work" '
    /^## / { inside = $0 == "## Use it" }
    !inside { next }
    /^```sh$/ { file = work "/" ++n ".sh"; next }
    /^```$/ { file = ""; next }
    file != "" { print > file }
' "$root/README.md"

cd "$work"
tried=0
for block in *.sh; do
    for tool in rustc python3; do
        if grep -q "^$tool " "$block" && ! command -v $tool >/dev/null; then
            echo "tests/use: no $tool: not tried"
            continue 2
        fi
    done
    sh -eu "$block" >printed || fail "a command failed: $(cat "$block")"
    [ "$(cat printed)" = cut ] || fail "it printed $(cat printed), not cut: $(cat "$block")"
    tried=$((tried + 1))
done
[ $tried -gt 0 ] || fail "README has no commands"
echo "tests/use: $tried of 3 ways tried: ok"
