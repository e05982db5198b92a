# What the tests of the command share: sourced by them from the top of the repository.
set -u
top=$PWD
work=$(mktemp -d)
trap 'rm -rf "$work"' EXIT
tried=0
failed=0

wrong() {
    failed=$((failed + 1))
    printf '%s: %s\n' "$0" "$*" >&2
    sed 's/^/    standard output: /' "$work/out" >&2
    sed 's/^/    standard error: /' "$work/err" >&2
}

# expect STATUS LINE COMMAND ..: the command prints exactly the line on standard output, or nothing where it is empty, and ends with the status.
expect() {
    status=$1
    line=$2
    shift 2
    tried=$((tried + 1))
    "$@" > "$work/out" 2> "$work/err" < "$input"
    got=$?
    [ -z "$line" ] || printf '%s\n' "$line" > "$work/want"
    [ -n "$line" ] || : > "$work/want"
    [ "$got" = "$status" ] || wrong "status $got and not $status: $*"
    cmp -s "$work/out" "$work/want" || wrong "not the line '$line': $*"
}

# Standard error of the last command has the text, or is empty where it is.
says() {
    if [ -n "$1" ]; then
        grep -qF -- "$1" "$work/err" || wrong "standard error does not say '$1'"
    else
        [ ! -s "$work/err" ] || wrong "standard error is not empty"
    fi
}

# status_of LINE: the exit status that goes with it.
status_of() {
    case $1 in
        MISS* | DIFFERS*) echo 1 ;;
        REFUSED*) echo 2 ;;
        *) echo 0 ;;
    esac
}

# The numbers of standard input, in groups of seven bits.
bytes() {
    printf "$(awk -f tests/seven.awk)"
}

# The last line of a test, and its status.
finish() {
    printf '%s: %d tried, %d failed\n' "$0" "$tried" "$failed"
    [ "$failed" = 0 ]
}

input=/dev/null
run=$top/palikudyom
"$run" --quiet plans/w4.plan > /dev/null || exit 1
