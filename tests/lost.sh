#!/bin/sh
# lost.sh COMMAND...: nothing is lost in silence. COMMAND starts the route program; here its reads and writes fail or are put off.
# A loss must be told by a word on standard error and by the status, and what was printed before it must be the start of the right
# lines; what is only put off must not be lost. The last case waits until the program gives up an input that never comes.
set -eu
[ $# -gt 0 ] || { echo "usage: lost.sh COMMAND..." >&2; exit 2; }
tests=$(cd "$(dirname "$0")" && pwd)
work=$(mktemp -d)
trap 'rm -rf "$work"' EXIT
passed=0 failed=0
perl -e 'local $/; $_ = <STDIN>; s/#.*//g; s/\s+//g; print pack("H*", $_)' <"$tests/jobs/nets-255.hex" >"$work/job"
right=$tests/jobs/nets-255.expected

# judge NAME STATUS GOOD: GOOD is 0 if all was as it should be
judge() {
    if [ "$3" = 0 ]; then
        passed=$((passed + 1))
    else
        failed=$((failed + 1))
        echo "FAILED $1 (status $2, $(wc -c <"$work/out") bytes printed)"
        cat "$work/err"
    fi
}

# told NAME STATUS WORD: the loss was told with this word, and what was printed is the start of the right lines, and not all of them
told() {
    good=0
    [ "$2" -gt 0 ] && [ "$2" -lt 126 ] || good=1
    grep -q "^route: $3" "$work/err" || good=1
    bytes=$(wc -c <"$work/out")
    [ "$bytes" -lt "$(wc -c <"$right")" ] || good=1
    head -c "$bytes" "$right" | cmp -s - "$work/out" || good=1
    judge "$1" "$2" $good
}

# whole NAME STATUS: every line was printed, and nothing else was said
whole() {
    good=0
    [ "$2" = 0 ] && cmp -s "$right" "$work/out" && [ ! -s "$work/err" ] || good=1
    judge "$1" "$2" $good
}

# run COMMAND...: with the files of $work; what is printed goes to the file out, unless COMMAND sends it elsewhere
run() {
    status=0
    : >"$work/out"
    : >"$work/err"
    "$@" 2>"$work/err" || status=$?
}

full_device() { "$@" <"$work/job" >/dev/full; }
closed_output() { "$@" <"$work/job" >&-; }
short_file() { (trap '' XFSZ; ulimit -f 4; "$@" <"$work/job" >"$work/out"); }
directory() { "$@" <"$work" >"$work/out"; }

run full_device "$@"
told "a full device" $status "standard output: "
run closed_output "$@"
told "a closed standard output" $status "standard output: "
run short_file "$@"
told "a file that may grow no further" $status "standard output: "
[ -s "$work/out" ] || { echo "the short file is empty"; failed=$((failed + 1)); }
run directory "$@"
told "a directory as standard input" $status "standard input: "

run perl "$tests/pipes.pl" "$work/job" "$work/out" "$@"
whole "a pause on the input and a slow reader, neither blocking" $status
run perl "$tests/pipes.pl" never "$work/out" "$@"
told "an input that never comes" $status "standard input: "
[ ! -s "$work/out" ] || { echo "an input that never came was answered"; failed=$((failed + 1)); }

echo "$passed passed, $failed failed"
[ $failed = 0 ]
