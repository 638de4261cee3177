#!/bin/sh
# docs/PROMISES.md names every statement, every fact that is an entry's contract, every field of the demands, and every must-fail edit and lie.
set -u
cd "$(dirname "$0")/.." || exit 1
. tests/expect.sh

# named NAME AS: the page has it, written so
named() {
    is "$1 in docs/PROMISES.md" "$(grep -c -m 1 -F -e "$2" docs/PROMISES.md)" 1
}

# statements: types without parameters of their own
for name in $(sed -n 's/^ *abbrev pub \([A-Z][A-Za-z]*\) : Type 0$/\1/p' crates/*/specs/Theorems.antt crates/theory/specs/Generality.antt); do
    named "$name" "\`$name\`"
done
for name in $(sed -n 's/^pub record \([A-Z][A-Za-z0-9]*\).*/\1/p' crates/demands/specs/Demands.antt | grep -v '^Demands$'); do
    named "$name" "\`$name\`"
done
for name in $(grep -o 'Tells[A-Z][a-z]*' crates/api/specs/Answers.antt | sort -u); do
    named "$name" "\`$name\`"
done
for name in $(sed -n '/^pub record Demand[13] /,/^$/s/^  pub \([a-z_0-9-]*\) .*/\1/p' crates/demands/specs/Demands.antt | grep -v '^runs[-_]'); do
    named "$name" "\`$name\`"
done
for edit in crates/*/must-fail/*.edit tests/lies/*.patch; do
    name=$(basename "$edit" .edit)
    named "$edit" "$(basename "$name" .patch)"
done

exit "$failed"
