#!/bin/sh
# run_route.sh: the route program on standard input. The program has no exit status of its own: a word of it on standard error, which
# tells of a loss, makes the status 1.
set -eu
root=$(cd "$(dirname "$0")/.." && pwd)
[ -x "$root/target/bin/route" ] || { echo "there is no target/bin/route yet: first run make" >&2; exit 2; }
said=$(mktemp)
trap 'rm -f "$said"' EXIT
status=0
"$root/target/bin/route" 2>"$said" || status=$?
if [ -s "$said" ]; then
    cat "$said" >&2
    [ $status != 0 ] || status=1
fi
exit $status
