#!/bin/sh
# The samples, through the programs and the front.
set -u
cd "$(dirname "$0")/.." || exit 1
. tests/expect.sh

listed() { tools/x86 run crates/list/out/list; }
planned() { tools/x86 run crates/plan/out/plan; }
paged() { tools/x86 run crates/why/out/why "$@"; }

for name in w1 cabin second; do
    ends "list $name" 0 '' ./box list "samples/$name.plan"
    same "list $name" "$made/out" "samples/$name.txt"
done

# One byte a write, as a slow pipe gives them.
bytes=$(wc -c <samples/w1.plan)
at=0
while [ "$at" -lt "$bytes" ]; do
    dd if=samples/w1.plan bs=1 skip="$at" count=1 2>/dev/null
    at=$((at + 1))
done | listed >"$made/slow.txt"
same "byte by byte" "$made/slow.txt" samples/w1.txt

is "nothing" "$(listed </dev/null)" "refused 1"
is "fifteen bytes" "$(head -c 15 samples/w1.plan | listed)" "refused 1"
is "text" "$(listed <README.md)" "refused 2"
edition() { { printf "\\0\\$1" && tail -c +3 samples/w1.plan; } | listed; }
is "W1 in edition 0" "$(edition 0)" "refused 2"
is "W1 in edition 2, which leaves each partition a tick" "$(edition 2)" "refused 9"
is "W1 in edition 3" "$(edition 3)" "refused 2"
is "one byte less" "$(head -c 43 samples/w1.plan | listed)" "refused 5"
is "one byte more" "$(cat samples/w1.plan README.md | head -c 45 | listed)" "refused 5"
is "overlong" "$({ cat samples/w1.plan; head -c 20000 /dev/zero; } | listed)" "refused 5"

ends "plan cabin" 0 '' ./box plan samples/cabin.shares "$made/cabin.plan"
same "plan cabin" "$made/cabin.plan" samples/cabin.plan
ends "plan in granules of two" 0 '' ./box plan samples/twos.shares "$made/twos.plan"
ends "list it, with whole ticks" 0 '' ./box list "$made/twos.plan"
same "list it, with whole ticks" "$made/out" samples/twos.txt
is "granule 17" "$(sed 's/^granule 2/granule 17/' samples/twos.shares | planned)" "refused 21"
is "granules of four" "$(sed 's/^granule 2/granule 4/' samples/twos.shares | planned)" "refused 11"
is "a second granule" "$({ cat samples/twos.shares && echo granule 2; } | planned)" "line 8: expected \`granule\` once, before the partitions"
# A function that has the box for itself is never switched to; the edition is all that differs then.
printf 'partition 4 1/1\ntask 1 1 4 4\n' >"$made/alone.shares"
for edition in 1 2; do
    ends "plan alone, edition $edition" 0 '' ./box plan --edition "$edition" "$made/alone.shares" "$made/alone.$edition"
    ends "list it, edition $edition" 0 '' ./box list "$made/alone.$edition"
    is "its edition is $edition" "$(od -An -tu1 -N2 "$made/alone.$edition" | tr -d ' ')" "0$edition"
done
is "editions 1 and 2 are one byte apart" "$(cmp -l "$made/alone.1" "$made/alone.2" | awk '{ print $1, $2, $3 }')" "2 1 2"
is "without a word it is edition 1" "$(planned <"$made/alone.shares" | cmp - "$made/alone.1" && echo same)" same
short='refused 9 partition 1 start 0 held 4 wanted 5
box: in edition 2 the first tick of each window is spent on switching'
ends "plan cabin in edition 2" 1 "$short" ./box plan --edition 2 samples/cabin.shares "$made/cabin.2"
is "no file for what falls short" "$(ls "$made/cabin.2" 2>/dev/null)" ""
ends "plan full" 1 "$(cat samples/full.txt)" ./box plan samples/full.shares "$made/full.plan"
is "no file for a refusal" "$(ls "$made/full.plan" 2>/dev/null)" ""

# ---- why a task fails

# Three ticks of eight are too few for the second task, and four are enough.
for name in late mended; do
    ends "plan $name" 0 '' ./box plan "samples/$name.shares" "$made/$name.plan"
    ends "why $name" 0 '' ./box why "$made/$name.plan" 2
    same "why $name" "$made/out" "samples/$name.why"
done
is "a page of nothing" "$(paged 1 </dev/null)" "refused 1"
is "a page without a word" "$(paged <samples/w1.plan)" "refused 7"
is "a page with two words" "$(paged 1 1 <samples/w1.plan)" "refused 7"
is "a page of a plan that doesn't serve" "$({ printf '\0\2' && tail -c +3 samples/w1.plan; } | paged 1)" "refused 9"
is "no task of a plan that doesn't serve" "$({ printf '\0\2' && tail -c +3 samples/w1.plan; } | paged 2)" "refused 7"
is "a page of an overlong file" "$({ cat samples/w1.plan; head -c 20000 /dev/zero; } | paged 1)" "refused 5"

# ---- as long as they may be

# The largest plan file: 16 partitions by turns, a tick each, with 8 tasks of one tick each. Such a task and k - 1 higher
# ones need k ticks, which any 16 k ticks hold and some 16 k - 1 don't; of the deadlines every second is one tick
# shorter, and fails.
largest() {
    awk 'BEGIN {
        print 1, 4096, 16, 16, 112, 128, 1136, 4096
        for (i = 0; i < 16; i++) print 16, 1, 16
        for (i = 0; i < 128; i++) print 1 + i % 16, 1, 16 * (1 + int(i / 16)) - i % 2, 4096
        for (i = 0; i < 4096; i++) print 1 + i % 16, 1
    }'
}
largest_listing() {
    awk 'BEGIN {
        print "frame 4096"
        for (i = 1; i <= 16; i++) print "partition " i " wants 1 in 16 least 1"
        for (i = 0; i < 128; i++) {
            t = 16 * (1 + int(i / 16))
            print "task " i + 1 " partition " 1 + i % 16 (i % 2 ? " fail" : " pass " t " tick " t)
        }
    }'
}
# Numbers of two bytes, high byte first.
numbers() {
    printf '%b' "$(awk '{ for (i = 1; i <= NF; i++) printf "\\0%03o\\0%03o", int($i / 256), $i % 256 }')"
}
zeros() { head -c "$1" /dev/zero; }

largest | numbers >"$made/largest.plan"
is "the largest file's length" "$(wc -c <"$made/largest.plan")" 17520
largest_listing >"$made/largest.txt"
listed <"$made/largest.plan" >"$made/out"
same "the largest file" "$made/out" "$made/largest.txt"
for more in 1 20000; do
    is "the largest file and $more more" "$({ cat "$made/largest.plan" && zeros "$more"; } | listed)" "refused 5"
done

# The most rows: the first task asks for every tick, so that each of the second's 4,096 is a point, one tick short.
crowded() {
    awk 'BEGIN {
        print 1, 1, 16, 1, 22, 2, 38, 1
        print 1, 1, 1
        print 1, 1, 1, 1
        print 1, 1, 4096, 4096
        print 1, 1
    }'
}
crowded_page() {
    awk 'BEGIN {
        print "task 2 partition 1 fails"
        print "   point   needs     has   short   worst stretch in wall ticks"
        for (t = 1; t <= 4096; t++) printf "%8d%8d%8d%8d   0 to %d%s\n", t, t + 1, t, 1, t - 1, t == 1 ? "  <- tightest" : ""
        print "at tick 1 it needs 2 and can be sure of 1: 1 short; the worst stretch starts at tick 0"
    }'
}
crowded_page >"$made/crowded.why"
crowded | numbers | paged 2 >"$made/out"
same "the most rows" "$made/out" "$made/crowded.why"

# W1's table with blanks in front of it, so that it stands across the limit, or behind it, where the part within the limit
# would be good by itself.
table='partition 4 1/2
partition 4 1/3
task 1 1 4 4
'
blanks() { zeros $(($1 - ${#table})) | tr '\0' ' '; }
echo "refused 3" >"$made/refused"
for bytes in 65536 65537 70000; do
    wanted=$made/refused
    [ "$bytes" -gt 65536 ] || wanted=samples/w1.plan
    { blanks "$bytes" && printf '%s' "$table"; } | planned >"$made/out"
    same "a table of $bytes bytes, blanks in front" "$made/out" "$wanted"
    { printf '%s' "$table" && blanks "$bytes"; } | planned >"$made/out"
    same "a table of $bytes bytes, blanks behind" "$made/out" "$wanted"
done

exit "$failed"
