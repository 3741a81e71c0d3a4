#!/bin/sh
# records.sh: x86-64 instructions per record of reading and of writing 10 MB of route records, of the fast library and of the proved
# one: a call with all its checks. Prints a table in markdown. LIBRARY, CC, OUT as in run.sh.
set -eu
here=$(cd "$(dirname "$0")" && pwd)
root=$(cd "$here/.." && pwd)
. "$here/needs.sh"
needs "$CC" "gcc$cross"
needs_counter
OUT=${OUT:-$root/target/outside}
export OUT
library=${LIBRARY:-$root/target/staticlib/libwexxolin.a}
[ -e "$library" ] || { echo "records.sh: there is no library $library; 'make' builds it (or set LIBRARY)" >&2; exit 2; }
mkdir -p "$OUT"
flags="-O2 -std=c11 -Wall -Wextra -static -fno-math-errno"
$CC $flags -o "$OUT/records-fast" "$here/records.c" "$root/tests/boards.c" "$here/fast.c" "$here/fast_library.c"
$CC $flags -o "$OUT/records-library" "$here/records.c" "$root/tests/boards.c" "$library"

# per_record PROGRAM CALL: what one call costs beyond none, shared among its records
per_record() {
    for times in 1 0; do
        "$here/count" "$OUT/$1" $2 $times 2>&1 >/dev/null
    done | awk '{ i[NR] = $2 } END { printf "%.2f", (i[1] - i[2]) / 1250000 }'
}

printf '| 1,250,000 records | fast | library |\n|---|---|---|\n'
for call in read write; do
    printf '| %s | %s | %s |\n' $call "$(per_record records-fast $call)" "$(per_record records-library $call)"
done
