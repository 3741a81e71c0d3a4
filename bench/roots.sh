#!/bin/sh
# roots.sh: x86-64 instructions of one root in the library: a call of wexxolin_length, less the same call for the leg 0, 0, whose
# root is 0 without any work. Prints a table in markdown. LIBRARY, CC, OUT as in run.sh.
set -eu
here=$(cd "$(dirname "$0")" && pwd)
root=$(cd "$here/.." && pwd)
. "$here/needs.sh"
needs "$CC" "gcc$cross"
needs_counter
OUT=${OUT:-$root/target/outside}
export OUT
library=${LIBRARY:-$root/target/staticlib/libwexxolin.a}
[ -e "$library" ] || { echo "roots.sh: there is no library $library; 'make' builds it (or set LIBRARY)" >&2; exit 2; }
mkdir -p "$OUT"
$CC -O2 -std=c11 -Wall -Wextra -static -o "$OUT/roots" "$here/roots.c" "$library"

# row NAME FROM TO: one root of those legs, on average
row() {
    for scale in 1 0; do
        for times in 11 1; do
            "$here/count" "$OUT/roots" $2 $3 $times $scale 2>&1 >/dev/null
        done
    done | awk -v name="$1" -v n=$(($3 - $2 + 1)) '{ i[NR] = $2 }
        END { printf "| %s | %.0f |\n", name, ((i[1] - i[2]) - (i[3] - i[4])) / (10 * n * n) }'
}
printf '| leg | instructions of its root |\n|---|---|\n'
row "1, 1" 1 1
row "63, 63" 63 63
row "1, 1 to 63, 63, all of them, on average" 1 63
