#!/bin/sh
# Compares the header with the source, builds face.c against the static library as C11 and as C++17, runs it with the records at
# each distance from an aligned address, and compares what it prints with face.expected, which is written by hand.
set -eu
here=$(cd "$(dirname "$0")" && pwd)
root=$(cd "$here/../.." && pwd)
archive=$root/target/staticlib/libbisquefern.a
if [ ! -f "$archive" ]; then
    echo "tests/c: target/staticlib/libbisquefern.a is missing: run tests/build archive first" >&2
    exit 1
fi
"$here/header.sh"
# The loader finds every name at once, not on the calls' own small stack.
set -- -Wall -Wextra -Werror -pedantic -Wl,-z,now -I "$root/include"
cc=${CC:-gcc} cxx=${CXX:-g++}
if [ "$(uname -m)" != x86_64 ]; then
    cc=${CC:-x86_64-linux-gnu-gcc} cxx=${CXX:-x86_64-linux-gnu-g++}
    for compiler in "$cc" "$cxx"; do
        case $("$compiler" -dumpmachine 2>/dev/null) in
        x86_64-*) ;;
        *) echo "tests/c: not tried: the library is for x86-64, and $compiler is missing or compiles for another processor"; exit ;;
        esac
    done
    # The kit has a C library to run them with, and none of C++, which they do not use.
    set -- "$@" -Wl,--as-needed
fi
work=$(mktemp -d)
trap 'rm -rf "$work"' EXIT
"$cc" -x c -std=c11 "$@" "$here/face.c" -x none "$archive" -o "$work/c11"
"$cxx" -x c++ -std=c++17 "$@" "$here/face.c" -x none "$archive" -o "$work/c++17"
for program in c11 c++17; do
    for shift in 0 1 2 3 4 5 6 7; do
        "$root/tests/x86_64" "$work/$program" $shift >"$work/out" 2>"$work/stack" || { echo "tests/c: $program $shift stopped" >&2; exit 1; }
        diff -u "$here/face.expected" "$work/out"
    done
    cat "$work/stack"
done
echo "tests/c: ok"
