#!/bin/sh
# The comparisons of the library and the programs against the second program (tests/second/README.md). Words choose the
# trials whose names start with one of them. Needs the archive and the programs: make, tools/program plan,
# tools/program why.
set -eu
cd "$(dirname "$0")/.."

# needed FILE HOW
needed() {
    [ -f "$1" ] || { echo "there is no $1: $2 first" >&2 && exit 2; }
}
archive=crates/api_c/out/libapi_c.a
needed "$archive" make
needed crates/plan/out/plan "tools/program plan"
needed crates/why/out/why "tools/program why"
mkdir -p target
tools/x86 cc target/calls tests/c/calls.c "$archive" -std=c11 -Wall -Wextra -Werror -Iinclude
tools/x86 so target/again.so tests/c/again.c -std=c11 -Wall -Wextra -Werror -Iinclude

# An emulator is many times slower: as many calls as fit, and the numbers say how many those were.
if tools/x86 emulated; then
    export SECOND_SECONDS="${SECOND_SECONDS:-120}"
    echo "under the emulator: as many calls as fit into $SECOND_SECONDS s"
fi

exec cargo run --quiet --release --offline --manifest-path tests/second/Cargo.toml --bin compare -- "$@"
