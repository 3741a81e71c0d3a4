#!/bin/sh
# run.sh [NETS]: x86-64 instructions per expansion and per net, of the library's router and of the fast one, on NETS nets a
# row (64). Prints a table in markdown.
#
#   LIBRARY  archive or object files with wexxolin_route (target/staticlib/libwexxolin.a); with fast, the fast router alone
#   SIDE     the largest side that the library takes (63); larger.sh sets it
#   SIZES    the boards' sides (8 16 32 63, or SIDE alone)      PERCENTS  cells blocked in 100      ENDS  random corners
#   FAST     more flags for the fast router                     CC, OUT   see needs.sh
set -eu
here=$(cd "$(dirname "$0")" && pwd)
root=$(cd "$here/.." && pwd)
. "$here/needs.sh"
needs "$CC" "gcc$cross"
needs_counter
OUT=${OUT:-$root/target/outside}
export OUT
nets=${1:-64}
library=${LIBRARY:-$root/target/staticlib/libwexxolin.a}
SIDE=${SIDE:-63}
# No repeated instructions (rep stosq) for clearing and copying: count would count every turn of them.
flags="-O2 -std=c11 -Wall -Wextra -static -DLARGEST_SIDE=$SIDE -fno-math-errno -mmemset-strategy=libcall:-1:noalign -mmemcpy-strategy=libcall:-1:noalign"
mkdir -p "$OUT"

# build NAME ROUTER...: the program that routes the nets, with that router
build() {
    name=$1
    shift
    $CC $flags -o "$OUT/$name" "$here/nets.c" "$root/tests/boards.c" "$@" && return
    echo "run.sh: $name could not be built with $CC" >&2
    exit 2
}

build nets-fast ${FAST-} "$here/fast.c" "$here/fast_library.c"
if [ "$library" != fast ]; then
    for part in $library; do
        [ -e "$part" ] && continue
        echo "run.sh: there is no library $part; 'make' builds it (or set LIBRARY; LIBRARY=fast counts the fast router alone)" >&2
        exit 2
    done
    build nets-library $library
fi

# measure PROGRAM SIZE PERCENT ENDS: expansions, instructions per expansion and per net, and the sums that routers must share.
# One net is taken off NETS + 1 nets, so that start-up and the making of the boards do not count.
measure() {
    program=$OUT/$1 size=$2 percent=$3 ends=$4
    for routed in $((nets + 1)) 1; do
        "$here/count" "$program" $size $size $percent $ends $((nets + 1)) 1 $routed 2>&1
    done | tr '\n' ' ' | awk '{ e = $4 - $18; i = $14 - $28; n = $2 - $16
        printf "%d %s %.0f %s-%s-%s-%s-%s\n", e, e ? sprintf("%.1f", i / e) : "-", i / n, $4, $6, $8, $10, $12 }'
}

row() {
    set -- $1 $2 $3 $(measure nets-fast $1 $2 $3)
    [ $# = 7 ] || { echo "run.sh: the fast router could not be counted; 'bench/count $OUT/nets-fast' tells why" >&2; exit 2; }
    printf '| %s | %s | %s | %s |' "$1 by $1, $2 in 100, $3" "$4" "$5" "$6"
    if [ "$library" != fast ]; then
        fast=$6 sums=$7
        set -- $(measure nets-library $1 $2 $3)
        [ "$4" = "$sums" ] || { echo; echo "run.sh: the routers do not agree: $sums and $4" >&2; exit 1; }
        printf ' %s | %s | %s |' "$2" "$3" "$(awk "BEGIN { printf \"%.2f\", $3 / $fast }")"
    fi
    echo
}

printf '| board, blocked, ends | expansions | fast, per expansion | fast, per net |'
[ "$library" = fast ] || printf ' library, per expansion | library, per net | ratio |'
printf '\n|---|---|---|---|'
[ "$library" = fast ] || printf -- '---|---|---|'
echo
if [ "$SIDE" = 63 ]; then sizes="8 16 32 63"; else sizes=$SIDE; fi
for size in ${SIZES-$sizes}; do
    for ends in ${ENDS:-random corners}; do
        for percent in ${PERCENTS:-0 10 20 30 40}; do
            row $size $percent $ends
        done
    done
done
