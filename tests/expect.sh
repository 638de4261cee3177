# shellcheck shell=sh disable=SC2034
# What the test scripts share. They say only what differs, and end with `exit "$failed"`.
failed=0
made=$(mktemp -d) || exit 1
trap 'rm -rf "$made"' EXIT

# same WHAT FOUND WANTED: two files hold the same bytes
same() {
    if ! cmp -s "$2" "$3"; then
        printf '%s: %s differs from %s\n' "$1" "$2" "$3"
        failed=1
    fi
}

# is WHAT FOUND WANTED: two words are the same
is() {
    if [ "$2" != "$3" ]; then
        printf '%s: %s, not %s\n' "$1" "$2" "$3"
        failed=1
    fi
}

# ends WHAT STATUS SAID COMMAND..: a command's status, and what it says on standard error, where * stands for anything.
# Its standard output is in $made/out.
ends() {
    what=$1 status=$2 wanted=$3
    shift 3
    said=$("$@" 2>&1 >"$made/out")
    is "$what, status" $? "$status"
    # shellcheck disable=SC2254 # a pattern
    case $said in
    $wanted) ;;
    *) is "$what" "$said" "$wanted" ;;
    esac
}

# A machine that can't do something says so.
untried() {
    printf 'not tried here: %s\n' "$1"
}
