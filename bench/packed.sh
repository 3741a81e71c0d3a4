#!/bin/sh
# packed.sh: x86-64 instructions per cell of the calls for packed boards, of the fast library and of the proved one: a call with all
# its checks. Prints a table in markdown. LIBRARY, CC, OUT as in run.sh.
set -eu
here=$(cd "$(dirname "$0")" && pwd)
root=$(cd "$here/.." && pwd)
. "$here/needs.sh"
needs "$CC" "gcc$cross"
needs_counter
OUT=${OUT:-$root/target/outside}
export OUT
library=${LIBRARY:-$root/target/staticlib/libwexxolin.a}
[ -e "$library" ] || { echo "packed.sh: there is no library $library; 'make' builds it (or set LIBRARY)" >&2; exit 2; }
mkdir -p "$OUT"
# No repeated instructions for clearing and copying, as in run.sh
flags="-O2 -std=c11 -Wall -Wextra -static -fno-math-errno -mmemset-strategy=libcall:-1:noalign -mmemcpy-strategy=libcall:-1:noalign"
$CC $flags -o "$OUT/packed-fast" "$here/packed.c" "$root/tests/boards.c" "$here/fast.c" "$here/fast_library.c"
$CC $flags -o "$OUT/packed-library" "$here/packed.c" "$root/tests/boards.c" "$library"

# per_cell PROGRAM CALL WIDTH HEIGHT: what ten calls cost beyond one, shared among their cells
per_cell() {
    for times in 11 1; do
        "$here/count" "$OUT/$1" $2 $3 $4 $times 2>&1 >/dev/null
    done | awk -v cells=$(($3 * $4)) '{ i[NR] = $2 } END { printf "%.2f", (i[1] - i[2]) / (10 * cells) }'
}

printf '| board |'
for call in unpack pack count; do printf ' %s, fast | %s, library |' $call $call; done
printf '\n|---|---|---|---|---|---|---|\n'
for board in "1 1" "7 63" "8 63" "9 63" "16 16" "32 32" "63 63"; do
    set -- $board
    printf '| %s by %s |' $1 $2
    for call in unpack pack count; do
        printf ' %s | %s |' "$(per_cell packed-fast $call $1 $2)" "$(per_cell packed-library $call $1 $2)"
    done
    echo
done
