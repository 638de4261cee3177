#!/bin/sh
# shellcheck disable=SC2154 # what expect.sh sets
# Why each must-fail edit was refused: `edits.sh [SAID]`, where the file SAID has what `rt ci` said; without it `rt must-fail` tries the edits
# now. `rt ci` counts any refusal, and an edit that it can't try fails nothing there. Here each edit has to be refused, and at a fact that fails:
# for no slip in the edit itself, no proof that is merely written for other names, and no limit of the prover. The words are rt's;
# tests/edits.txt has lines of real runs with each of them, and is read first. The line has the first error alone: where that is only a proof's
# shape, as a rewriting that finds nothing, the edit is told in a copy and all that its check says is read for a fact.
# A line can't show that the fact is the one meant: people read it when they write an edit.
set -u
cd "$(dirname "$0")/.." || exit 1
. tests/expect.sh

# why: of lines of rt about one edit, on standard input: fact, slip, names, shape, limit, proved or untried, and the line that shows it
why() {
    LC_ALL=C awk '
        BEGIN {
            # A fact that fails: in a proof that rattle makes itself, or in one of ours.
            fact = "note: [^ ]*: (it is not proved that |`search` found no proof )"
            fact = fact "|: no proof of `"              # search
            fact = fact "|the goal does not follow from what it read" # omega, often with numbers for which it fails
            fact = fact "|the equations do not join"    # cc
            fact = fact "|whose two ends are equal|give a proof of that as the last argument" # rw and simp: what is left is no equation that holds
            fact = fact "|the two (types|sides) (first differ|differ only|are) |expected type .*, but this has type |: does not hold "
            fact = fact "|expected type `?Path |expected type [^,]* (≡|≤|<) " # a line that is cut before what was found
            # The shape of a proof: it does not fit the edited text, whatever that means.
            shape = "` has no field `| is not in scope|was not admitted| has no `|no occurrence of the path|no equation of the list"
        }
        $0 !~ /^rt: must-fail [^ ]*\.edit: / { next }
        {
            said = $0
            sub(/^rt: must-fail [^ ]*\.edit: /, "", said)
            if (said ~ /^BAD EDIT/) kind = "slip"
            else if (said ~ /^NOT TRIED/) kind = "untried"
            else if (said ~ /^refused, as it must be \(only by a limit/) kind = "limit"
            else if (said ~ /^refused, as it must be \(/) kind = "names"
            else if (said !~ /^refused, as it must be: /) kind = "proved"
            else if (said ~ shape) kind = "shape"
            else kind = said ~ fact ? "fact" : "shape"
            print kind ": " said
        }'
}

# ---- the words: below a line `== KIND: what` of tests/edits.txt stands a line of that kind

awk -v to="$made" '/^== / { kind = $2; sub(/:$/, "", kind); at = to "/" ++n "." kind; next } { print > at }' tests/edits.txt
for line in "$made"/*.slip "$made"/*.names "$made"/*.shape "$made"/*.limit "$made"/*.proved "$made"/*.untried "$made"/*.fact; do
    said=$(why <"$line")
    is "tests/edits.txt, $(head -n 1 "$line")" "${said%%:*}" "${line##*.}"
done

# whole EDIT: the first fact in all that the check of an edit says, told in a copy over what was proved. In a proof that cites what the edit
# took away no fact is what it seems.
whole() {
    crate=${1#crates/}
    crate=${crate%%/*}
    if [ ! -d "$made/tree" ]; then
        mkdir "$made/tree"
        tar -c --exclude=out/incremental crates crates.txt | tar -x -C "$made/tree"
    fi
    python3 - "$1" "$made/tree/crates/$crate" <<'TELL'
import sys
lines = [line.rstrip("\n").partition(": ") for line in open(sys.argv[1], encoding="utf-8")]
for word, _, text in lines:
    if word == "file":
        path = f"{sys.argv[2]}/{text}"
    elif word == "old":
        old = text
    elif word == "new":
        with open(path, encoding="utf-8") as f:
            whole = f.read()
        with open(path, "w", encoding="utf-8") as f:
            f.write(whole.replace(old, text, 1))
TELL
    (cd "$made/tree/crates/$crate" && rt check 2>&1) | grep -E '^[^ ]*: error: |^note: [^ ]*: (it is not proved that|`search` found no proof)' >"$made/log"
    awk '{ file = $1; sub(/:[0-9].*/, "", file) }
        FNR == NR { if (/` has no field `/) moved[file] = 1; next }
        !(file in moved) { print "rt: must-fail told.edit: refused, as it must be: " $0 }' "$made/log" "$made/log" | why | grep -m 1 '^fact: '
    for part in src specs proofs; do
        [ -d "crates/$crate/$part" ] || continue
        rm -r "$made/tree/crates/$crate/$part"
        cp -R "crates/$crate/$part" "$made/tree/crates/$crate"
    done
}

# ---- the edits

if [ $# -gt 0 ]; then cat "$1"; else rt must-fail; fi >"$made/said" 2>&1
for edit in crates/*/must-fail/*.edit; do
    name=${edit#crates/}
    name=${name%%/*}/$(basename "$edit")
    said=$(grep -F -e "rt: must-fail $name: " "$made/said" | why)
    case $said in
    fact:*) ;;
    shape:*)
        if [ -z "$(whole "$edit")" ]; then
            printf '%s is not refused by a fact: %.400s\n' "$name" "$said"
            failed=1
        fi
        ;;
    '')
        echo "$name is not told of"
        failed=1
        ;;
    *)
        printf '%s is not refused by a fact: %.400s\n' "$name" "$said"
        failed=1
        ;;
    esac
done
exit "$failed"
