#!/bin/sh
# How the front builds a program: in a tree of its own, under a stand-in for rt that proves nothing and counts its calls.
set -u
cd "$(dirname "$0")/.." || exit 1
. tests/expect.sh

tree="$made/a tree"
mkdir -p "$tree" "$made/bin"
cp -R box VERSION tools "$tree"
cp samples/w1.plan "$tree"
mkdir -p "$tree/crates/rules/src" "$tree/crates/list/src"
echo program >"$tree/crates/list/src/source"
echo first >"$tree/crates/rules/src/source"
printf 'rules:\ntheory: rules\nservice: rules theory\nlist: service io\nplan: rules\n' >"$tree/crates.txt"

export STANDS_FOR TOP="$PWD"
STANDS_FOR=$(command -v rt)
export CALLS="$made/calls" PROOF=good
cat >"$made/bin/rt" <<'RT'
#!/bin/sh
# In a program's folder, as rt: what it says of the proofs is on standard error, and the program's own on standard output.
[ "$1" = run ] || exec "$STANDS_FOR" "$@"
name=$(basename "$PWD")
echo "$name" >>"$CALLS"
sleep 0.2
said() {
    printf '%s\n' "$@" >&2
}
proved() {
    said "rt: chose --jobs 2 for $1" "fn $1::first: proved" "crate $1: modules loaded=4 checked=3" 'logic=proved functions=1 sum=0'
}
sum=$(cat ../*/src/* | cksum)
if [ -x "out/$name" ] && [ "$(cat "out/$name.stamp")" = "$sum" ]; then
    said "rt: nothing has changed since the last proved build, by out/$name.stamp, so nothing is checked now"
else
    proved rules
    [ "$PROOF" = good ] || {
        said 'fn theory::first: no proof: it wants one' 'fn theory::second: proved' 'crate theory: modules loaded=4 checked=3' 'logic=not-proved' \
            'rt: the library theory did not build, so nothing above it was checked'
        exit 1
    }
    proved theory && proved service && proved "$name"
    mkdir -p out && cp "$TOP/crates/$name/out/$name" out && echo "$sum" >"out/$name.stamp"
fi
said "rt: running out/$name; to give it other input, run that file yourself"
exec "out/$name"
RT
chmod +x "$made/bin/rt"
PATH=$made/bin:$PATH

calls() { wc -l <"$CALLS"; }
list() { "$tree/box" list "$tree/w1.plan"; }

ends "the first time" 0 "box: building list: 4 crates are proved first, *
box: 1 of 4: rules proved
box: 2 of 4: theory proved
box: 3 of 4: service proved
box: 4 of 4: list proved" list
same "the first time" "$made/out" samples/w1.txt
ends "the second time" 0 '' list
is "the second time" "$(calls)" 1

sleep 0.1
echo changed >"$tree/crates/rules/src/source"
ends "a source changed" 0 'box: building list: *list proved' list
is "a source changed" "$(calls)" 2
sleep 0.1
touch "$tree/crates/rules/src/source"
ends "a source is newer, but the same" 0 'box: building list: 4 crates are proved first, which takes some minutes' list
is "a source is newer, but the same" "$(calls)" 3
ends "which is asked once" 0 '' list
is "which is asked once" "$(calls)" 3
rm "$tree/crates/list/out/list"
ends "the program is gone" 0 'box: building list: *list proved' list
is "the program is gone" "$(calls)" 4

rm -r "$tree/target" "$tree/crates/list/out"
list >"$made/one" 2>/dev/null &
list >"$made/two" 2>/dev/null
wait
same "two at a time" "$made/one" samples/w1.txt
same "two at a time" "$made/two" samples/w1.txt
is "two at a time, built once" "$(calls)" 5

sleep 0.1
echo wrong >"$tree/crates/rules/src/source"
PROOF=bad
ends "a proof fails" 2 "box: building list: *
box: 1 of 4: rules proved
fn theory::first: no proof: it wants one
rt: the library theory did not build, so nothing above it was checked
box: list could not be built: *" list
is "a proof fails, nothing printed" "$(cat "$made/out")" ""

rm -r "$tree/target"
: >"$tree/target"
ends "target/ can't be written" 2 "box: can't write $tree/target" list

mkdir "$made/without"
ln -sf /bin/* /usr/bin/* "$made/without"
rm -f "$made/without/rt"
ends "no rt" 2 "box: rt not found: *" env PATH="$made/without" "$tree/box" list "$tree/w1.plan"

exit "$failed"
