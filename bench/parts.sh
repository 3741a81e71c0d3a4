#!/bin/sh
# parts.sh [NETS]: where the instructions of both routers go, per expansion, by the functions of their source: the fast router
# compiled with -g, the library with a place in each instruction (placed.sh; the code is the same). Prints a table in markdown.
# CC, OUT and SIDE as in run.sh; SCENARIOS are the columns, SIZE:PERCENT:ENDS each.
set -eu
here=$(cd "$(dirname "$0")" && pwd)
root=$(cd "$here/.." && pwd)
. "$here/needs.sh"
NAMES=$(echo "$DUMP" | sed 's/objdump$/addr2line/')
needs "$NAMES" "binutils$cross"
needs_counter
OUT=${OUT:-$root/target/outside}
export OUT
nets=${1:-64}
scenarios=${SCENARIOS:-63:0:corners 63:30:corners 63:40:random 8:20:random}
mkdir -p "$OUT"
"$here/placed.sh" "$OUT/libplaced.a"
LIBRARY=$OUT/libplaced.a FAST=-g SIZES= "$here/run.sh" 1 >/dev/null

# counted PROGRAM SIZE PERCENT ENDS: lines 'INSTRUCTIONS FUNCTION FUNCTION ...', the innermost first; what one net costs is taken off
counted() {
    for routed in $((nets + 1)) 1; do
        COUNTS=$OUT/counts.$routed "$here/count" "$1" $2 $2 $3 $4 $((nets + 1)) 1 $routed 2>/dev/null
    done >"$OUT/counts.nets"
    awk 'FILENAME ~ /counts\.1$/ { count[$1] -= $2; next } { count[$1] += $2 }
        END { for (a in count) if (count[a]) print a, count[a] }' "$OUT/counts.$((nets + 1))" "$OUT/counts.1" >"$OUT/counts.each"
    sed 's/^/0x/; s/ .*//' "$OUT/counts.each" | $NAMES -a -i -f -e "$1" | awk '
        /^0x/ { if (NR > 1) print chain; chain = ""; names = 1; next }
        names % 2 { chain = chain " " $0 }
        { names++ }
        END { print chain }' | paste -d '' "$OUT/counts.each" - | sed 's/^[^ ]* //'
}

# part PROGRAM SIZE PERCENT ENDS: lines 'PART;INSTRUCTIONS', per expansion
part() {
    counted "$@" >"$OUT/counts.functions"
    awk -v e="$(awk 'NR == 1 { e = $4 } END { print e - $4 }' "$OUT/counts.nets")" '
        function part_of(inner, all) {
            if (inner == "units_of" || inner ~ /^(table|length|root)::/ && inner !~ /_lengths$/) return "lengths"
            if (all ~ / (walk|steps|slant|axis)( |$)/ || all ~ / walks::inner::sees( |$)/) return "sight tests"
            if (all ~ / (rise|put|take_first|key_of|place_of)( |$)/ || all ~ / (open|tournament)::/) return "open list"
            if (all ~ / (look|look_around|visible|run|write)( |$)/ || all ~ / turns::inner::run( |$)/) return "turns and neighbours"
            return "checks, clearing, path"
        }
        { part[part_of($2, $0)] += $1; sum += $1 }
        END { for (p in part) printf "%s;%.0f\n", p, part[p] / e; printf "all;%.0f\n", sum / e }' "$OUT/counts.functions"
}

printf '| part: fast, library |'
for scenario in $scenarios; do echo $scenario | awk -F: '{ printf " %d by %d, %d in 100, %s |", $1, $1, $2, $3 }'; done
printf '\n|---|'
for scenario in $scenarios; do printf -- '---|'; done
echo
for scenario in $scenarios; do
    for router in fast library; do
        part "$OUT/nets-$router" $(echo $scenario | tr ':' ' ') >"$OUT/parts.$router.$scenario"
    done
done
for name in "sight tests" "lengths" "open list" "turns and neighbours" "checks, clearing, path" "all"; do
    printf '| %s |' "$name"
    for scenario in $scenarios; do
        printf ' %s, %s |' $(for router in fast library; do sed -n "s/^$name;//p" "$OUT/parts.$router.$scenario"; done)
    done
    echo
done
