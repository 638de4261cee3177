#!/bin/sh
# shellcheck disable=SC2317 # functions that `ends` calls
# What people may trust the front with: what it is pointed at, what it is given, what it says and how it ends.
set -u
cd "$(dirname "$0")/.." || exit 1
. tests/expect.sh

top=$PWD
table=samples/cabin.shares
plan=samples/cabin.plan
failing=10 # the task of it that fails
# A plan of 4,096 runs of one tick, the most that there can be.
printf 'partition 2 1/2\npartition 4096 1/2\n' >"$made/long.shares"
long=16412

# ---- where a plan goes

ends "to standard output" 0 '' ./box plan "$table" -
same "to standard output" "$made/out" "$plan"
# Links, so that a front that replaces what it is pointed at takes nothing of the machine away, even as root.
ln -s /dev/stdout "$made/stdout"
ln -s /dev/full "$made/full"
ends "to a link to standard output" 0 '' ./box plan "$table" "$made/stdout"
same "to a link to standard output" "$made/out" "$plan"

mkfifo "$made/fifo"
timeout 10 cat "$made/fifo" >"$made/through" &
ends "to a FIFO" 0 '' ./box plan "$table" "$made/fifo"
wait
same "to a FIFO" "$made/through" "$plan"
is "a FIFO stays one" "$([ -p "$made/fifo" ] && echo fifo)" fifo

echo old >"$made/behind"
ln -s behind "$made/link"
ends "to a link" 0 '' ./box plan "$table" "$made/link"
is "a link stays one" "$(readlink "$made/link")" behind
same "to a link" "$made/behind" "$plan"
ln -s nowhere "$made/loose"
ends "to a link to nothing" 0 '' ./box plan "$table" "$made/loose"
same "to a link to nothing" "$made/nowhere" "$plan"

mkdir "$made/folder"
ends "to a directory" 2 "box: $made/folder is a directory" ./box plan "$table" "$made/folder"
is "nothing in a directory" "$(ls "$made/folder")" ""
ends "into no directory" 2 "box: can't write $made/none/x: *" ./box plan "$table" "$made/none/x"

cp "$table" "$made/own.shares"
ends "onto itself" 2 "box: * are the same file" ./box plan "$made/own.shares" "$made/own.shares"
ln "$made/own.shares" "$made/other"
ends "onto itself by another name" 2 "box: * are the same file" ./box plan "$made/own.shares" "$made/other"
# shellcheck disable=SC2094 # that is what is tried
itself() { ./box plan - "$made/own.shares" <"$made/own.shares"; }
ends "onto standard input" 2 "box: * are the same file" itself
same "a table stays as it was" "$made/own.shares" "$table"

by_umask() { (umask "$1" && ./box plan "$table" "$made/mode.$1" && stat -c %a "$made/mode.$1"); }
is "umask 022" "$(by_umask 022)" 644
is "umask 077" "$(by_umask 077)" 600
echo old >"$made/kept"
chmod 640 "$made/kept"
ends "onto an old file" 0 '' ./box plan "$table" "$made/kept"
same "onto an old file" "$made/kept" "$plan"
is "an old file's mode" "$(stat -c %a "$made/kept")" 640

dashes() { cd "$made/folder" && cp "$top/$table" ./-t && "$top/box" plan -t --o && "$top/box" list --o; }
ends "names that start with -" 0 '' dashes
same "names that start with -" "$made/out" samples/cabin.txt
ends "an edition behind =" 0 '' ./box plan --edition=1 "$table" -
same "an edition behind =" "$made/out" "$plan"
ends "an edition and --" 0 '' ./box plan --edition 1 -- "$table" -
same "an edition and --" "$made/out" "$plan"
for edition in 0 3 65537 000021 x '' '1 '; do
    ends "edition '$edition'" 1 "refused 2
box: $edition is no edition: they are 1 and 2" ./box plan --edition "$edition" "$table" "$made/none.plan"
    is "no file of edition '$edition'" "$(ls "$made/none.plan" 2>/dev/null)" ""
done
ends "--edition alone" 2 "box: usage: box plan *" ./box plan --edition
ends "--edition without names" 2 "box: usage: box plan *" ./box plan --edition 2
ends "behind --" 0 '' sh -c "cd '$made/folder' && '$top/box' list -- --o"
same "behind --" "$made/out" samples/cabin.txt

# ---- writes that fail

ends "a plan to a full device" 2 "box: can't write $made/full: No space left on device" ./box plan "$table" "$made/full"
to_full() { "$@" >/dev/full; }
ends "a plan to a full output" 2 "box: can't write standard output: *" to_full ./box plan "$table" -
ends "a listing to a full output" 2 "box: can't write standard output: *" to_full ./box list "$plan"
ends "a page to a full output" 2 "box: can't write standard output: *" to_full ./box why "$plan" 1

echo old >"$made/limited"
limited() { (trap '' XFSZ && ulimit -f 16 && ./box plan "$made/long.shares" "$made/limited"); }
# An emulator may pass the signal on to the program, and the shell then says so.
ends "a file that may not grow" 2 "*box: plan *" limited
is "a file that may not grow" "$(cat "$made/limited")" old

# A small disk and a device of one's own.
if unshare -rm true 2>/dev/null; then
    mkdir "$made/disk"
    # shellcheck disable=SC2016 # the words are the inner shell's
    full='mount -t tmpfs -o size=12k tmpfs "$1" && echo old >"$1/out" && ./box plan "$2" "$1/out"
        status=$? && cat "$1/out" && ls "$1" && exit $status'
    ends "a full disk" 2 "box: can't write $made/disk/out: No space left on device" \
        unshare -rm sh -c "$full" sh "$made/disk" "$made/long.shares"
    is "a full disk leaves what was there" "$(tr '\n' ' ' <"$made/out")" "old out "
    # shellcheck disable=SC2016
    device='mount --bind /dev/null "$1" && ./box plan "$2" "$1" && [ -c "$1" ]'
    : >"$made/null"
    ends "to a device" 0 '' unshare -rm sh -c "$device" sh "$made/null" "$table"
else
    untried "a full disk, and a device (no namespace of one's own)"
fi
ends "the longest plan" 0 '' ./box plan "$made/long.shares" "$made/long.plan"
is "the longest plan" "$(wc -c <"$made/long.plan")" "$long"

# ---- where input comes from

for name in - /dev/stdin; do
    # shellcheck disable=SC2002 # a pipe, not a file
    listing() { cat "$plan" | ./box list "$name"; }
    ends "a listing from $name" 0 '' listing
    same "a listing from $name" "$made/out" samples/cabin.txt
    # shellcheck disable=SC2002
    planning() { cat "$table" | ./box plan "$name" -; }
    ends "a plan from $name" 0 '' planning
    same "a plan from $name" "$made/out" "$plan"
    # shellcheck disable=SC2002
    paging() { cat "$plan" | ./box why "$name" "$failing"; }
    ends "a page from $name" 0 '' paging
    same "a page from $name" "$made/out" samples/cabin.why
done
timeout 10 sh -c "cat $plan >'$made/fifo'" &
ends "a listing from a FIFO" 0 '' ./box list "$made/fifo"
same "a listing from a FIFO" "$made/out" samples/cabin.txt
ends "a listing from <(..)" 0 '' bash -c "./box list <(cat $plan)"
same "a listing from <(..)" "$made/out" samples/cabin.txt
ends "a plan from <(..)" 0 '' bash -c "./box plan <(cat $table) -"
same "a plan from <(..)" "$made/out" "$plan"

listing() { ./box list "$1"; }
planning() { ./box plan "$1" -; }
paging() { ./box why "$1" 1; }
for way in listing planning paging; do
    ends "$way of nothing" 2 "box: can't read $made/none: No such file or directory" "$way" "$made/none"
    ends "$way of a directory" 2 "box: can't read $made: Is a directory" "$way" "$made"
    ends "$way of what can't be read" 2 "box: can't read /proc/self/mem: *" "$way" /proc/self/mem
done
if [ "$(id -u)" -ne 0 ]; then
    : >"$made/closed"
    chmod 0 "$made/closed"
    ends "a file that is closed to us" 2 "box: can't read $made/closed: Permission denied" ./box list "$made/closed"
else
    untried "a file that is closed to us (root may read all)"
fi

# ---- what it says

ends "a refusal" 1 "refused 2" ./box list README.md
is "a refusal prints nothing" "$(cat "$made/out")" ""
printf 'partition 4 1/4\npartitoin 8 3/8\n' >"$made/typing.shares"
ends "a typing error" 1 "line 2: expected \`granule\`, \`partition\` or \`task\`" ./box plan "$made/typing.shares" "$made/typing.plan"
is "no plan of a typing error" "$(ls "$made/typing.plan" 2>/dev/null)" ""
ends "a share table listed" 1 "refused 2
box: $table is a share table: *" ./box list "$table"
ends "a share table with a granule listed" 1 "refused 2
box: samples/twos.shares is a share table: *" ./box list samples/twos.shares
ends "a plan file planned" 1 "line 1: *
box: $plan is a plan file: *" ./box plan "$plan" -

for task in 0 11 65536 000001 18446744073709551617 x '' '1 ' -1; do
    ends "task '$task'" 1 "refused 7
box: $plan has no task $task" ./box why "$plan" "$task"
    is "nothing of task '$task'" "$(cat "$made/out")" ""
done
without() { printf 'partition 1 1/1\n' | ./box plan - - | ./box why - 1; }
ends "a file without tasks" 1 "refused 7
box: - has no task 1" without
ends "a page of a share table" 1 "refused 2
box: $table is a share table: *" ./box why "$table" 1
ends "a page of a text" 1 "refused 2" ./box why README.md 1
# W1 with a budget of 0, which no task has: its task 1 is there, but no good one.
{ head -c 30 samples/w1.plan && printf '\0\0' && tail -c +33 samples/w1.plan; } >"$made/budget.plan"
ends "a page of a bad task" 1 "refused 7" ./box why "$made/budget.plan" 1

for word in help --help -h 'list --help' 'why --help'; do
    # shellcheck disable=SC2086 # two words
    ends "$word" 0 '' ./box $word
    is "$word" "$(head -n 1 "$made/out" | cut -d' ' -f1-3)" "usage: box list"
done
ends "--version" 0 '' ./box --version
is "--version" "$(cat "$made/out")" "merkazobi $(cat VERSION), $(rt version)"
ends "no command" 2 "box: usage: *" ./box
ends "an unknown command" 2 "box: unknown command draw: *" ./box draw
ends "no file" 2 "box: usage: box list *" ./box list
ends "one file too many" 2 "box: usage: box plan *" ./box plan a b c
ends "no task" 2 "box: usage: box why *" ./box why "$plan"
ends "one task too many" 2 "box: usage: box why *" ./box why "$plan" 1 2

ends "a task fails" 0 '' ./box list "$plan"
ends "a task fails, strict" 3 '' ./box list --strict "$plan"
same "a task fails, strict" "$made/out" samples/cabin.txt
ends "no task fails, strict" 0 '' ./box list --strict samples/w1.plan
ends "refused, strict" 1 "refused 2" ./box list --strict README.md
ends "why a task passes" 0 '' ./box why "$plan" 1
ends "why a task fails" 0 '' ./box why -- "$plan" "$failing"
same "why a task fails" "$made/out" samples/cabin.why

# ---- from where it is called

ln -s "$top/box" "$made/planner"
ends "through a link, from another folder" 0 '' sh -c "cd '$made' && ./planner list '$top/$plan'"
same "through a link, from another folder" "$made/out" samples/cabin.txt
mkdir "$made/a b"
cp "$plan" "$made/a b/c d.plan"
ends "spaces in a path" 0 '' ./box list "$made/a b/c d.plan"
same "spaces in a path" "$made/out" samples/cabin.txt

exit "$failed"
