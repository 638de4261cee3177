#!/bin/sh
# Lies that the check of their own crate can't refuse, for code and contract, or code and definition, tell them together. Each tests/lies/*.patch is
# told in a copy, over what was proved: the crate that it names has to refuse it, at the fact that it names, and every crate below has to be proved with it.
set -u
cd "$(dirname "$0")/.." || exit 1
. tests/expect.sh

# of LIE WORD: what stands behind the word in the lie's head
of() {
    sed -n "s/^$2: //p" "$1"
}

for lie in tests/lies/*.patch; do
    name=$(basename "$lie" .patch)
    tree=$made/$name
    mkdir -p "$tree"
    tar -c --exclude=out/incremental crates crates.txt | tar -x -C "$tree"
    patch --silent --directory="$tree" --strip=1 <"$lie"
    is "$name told" $? 0
    crate=$(of "$lie" falls)
    (cd "$tree/crates/$crate" && rt check) >"$made/log" 2>&1
    is "$name, status" $? 1
    is "$name falls in" "$(awk '/^crate / { at = $2; sub(/:$/, "", at) } /^logic=not-proved/ { print at }' "$made/log")" "$crate"
    is "$name, refused at its fact" "$(grep ': error: ' "$made/log" | grep -c -F -m 1 -e "$(of "$lie" fact)")" 1
    rm -r "$tree"
done

exit "$failed"
