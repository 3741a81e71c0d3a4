#!/bin/sh
# run_jobs.sh COMMAND...: gives every job of tests/jobs to the route program that COMMAND starts and compares what it prints,
# byte for byte. Each job comes from a file and once more through a pipe, slowly and in pieces; then no input at all.
# The document says nothing of the exit status, so only a program that cannot be started or is killed counts as failed by it.
set -eu
[ $# -gt 0 ] || { echo "usage: run_jobs.sh COMMAND..." >&2; exit 2; }
jobs=$(cd "$(dirname "$0")" && pwd)/jobs
work=$(mktemp -d)
trap 'rm -rf "$work"' EXIT
passed=0 failed=0

# The bytes of a hex text: spaces and newlines are skipped, # starts a comment.
bytes_of() {
    perl -e 'local $/; $_ = <STDIN>; s/#.*//g; s/\s+//g; die "not hex\n" if /[^0-9a-fA-F]/ || length($_) % 2; print pack("H*", $_)' <"$1"
}

# The bytes of a file, first one by one, then in pieces of odd sizes, with pauses.
slowly() {
    perl -e '
        open(F, "<", $ARGV[0]) or die; binmode F; local $/; my $all = <F>; $all = "" unless defined $all;
        $SIG{PIPE} = "IGNORE";
        my @sizes = ((1) x 9, 3, 8, 5, 13, 64); my $at = 0;
        while ($at < length $all) {
            my $size = @sizes ? shift @sizes : 997;
            my $sent = syswrite(STDOUT, substr($all, $at, $size)) or exit 0;
            $at += $sent;
            select(undef, undef, undef, 0.002);
        }' "$1"
}

# result NAME STATUS EXPECTED: compares $work/out with the file EXPECTED
result() {
    if [ "$2" -lt 126 ] && cmp -s "$work/out" "$3"; then
        passed=$((passed + 1))
    else
        failed=$((failed + 1))
        echo "FAILED $1 (status $2)"
        diff "$3" "$work/out" | cut -c1-160 | head -6 || true
    fi
}

for hex in "$jobs"/*.hex; do
    name=$(basename "$hex" .hex)
    bytes_of "$hex" >"$work/job"
    status=0
    "$@" <"$work/job" >"$work/out" || status=$?
    result "$name, from a file" $status "$jobs/$name.expected"
    rm -f "$work/out" "$work/status"
    slowly "$work/job" | { status=0; "$@" >"$work/out" || status=$?; echo $status >"$work/status"; }
    result "$name, slowly through a pipe" "$(cat "$work/status")" "$jobs/$name.expected"
done

echo "refused 12 at 0" >"$work/refused-12"
status=0
"$@" </dev/null >"$work/out" || status=$?
result "no input" $status "$work/refused-12"
status=0
"$@" <&- >"$work/out" || status=$?
result "standard input closed" $status "$work/refused-12"

echo "refused 10 at 0" >"$work/refused-10"
rm -f "$work/status"
head -c 1000000 /dev/zero 2>/dev/null | { status=0; "$@" >"$work/out" || status=$?; echo $status >"$work/status"; }
result "a million zero bytes through a pipe" "$(cat "$work/status")" "$work/refused-10"

echo "$passed passed, $failed failed"
[ $failed = 0 ]
