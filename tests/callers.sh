#!/bin/sh
# Callers in C and C++, built against the library as it is installed.
set -u
cd "$(dirname "$0")/.." || exit 1
. tests/expect.sh

prefix=$made/usr
make --silent install PREFIX="$prefix" >"$made/log" 2>&1 || { cat "$made/log" && exit 1; }

if command -v pkg-config >/dev/null; then
    told() { PKG_CONFIG_PATH=$prefix/lib/pkgconfig pkg-config "$1" merkazobi | sed 's/ *$//'; }
    is "pkg-config --cflags" "$(told --cflags)" "-I$prefix/include"
    is "pkg-config --libs" "$(told --libs)" "-L$prefix/lib -lmerkazobi"
    is "pkg-config --modversion" "$(told --modversion)" "$(cat VERSION)"
else
    untried "merkazobi.pc (no pkg-config)"
fi

# tried SOURCE STANDARD
tried() {
    tools/x86 cc "$made/caller" "tests/c/$1" "$prefix/lib/libmerkazobi.a" -I"$prefix/include" "-std=$2" -pedantic -Wall -Wextra -Werror
    is "$1 built" $? 0
    tools/x86 run "$made/caller"
    is "$1" $? 0
}
tried desk.c c99
tried entries.c c11
tried counts.c c11
tried limits.c c11
tried caller.cpp c++11

make --silent uninstall PREFIX="$prefix"
is "uninstalled" "$(find "$prefix" -type f)" ""

exit "$failed"
