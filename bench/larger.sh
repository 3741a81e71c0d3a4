#!/bin/sh
# larger.sh SIDE [NETS]: rows of run.sh for boards of 127, 255 or 511 cells a side, on 64 nets and with 0, 30 and 40 in 100 blocked. The
# limits are changed in a copy of the tree (/tmp/wexxolin-larger-SIDE: rt ci refuses a second crates.txt in a checkout), the library is
# proved and built there, and the fast router is compiled with the same limit.
# Of the library only the route call is built there: what route files and jobs hold has one byte for a coordinate.
set -eu
here=$(cd "$(dirname "$0")" && pwd)
root=$(cd "$here/.." && pwd)
. "$here/needs.sh"
needs "$CC" "gcc$cross"
needs_counter
command -v rt >/dev/null || { echo "larger.sh: rt is missing; it is in the Rattle kit" >&2; exit 2; }
side=${1:-}
case $side in
    127) vertex=u16 bits=16 ;;
    255 | 511) vertex=u32 bits=32 ;; # the number of vertices must fit too, and 256 * 256 has 17 bits
    *) echo "larger.sh: the side is to be 127, 255 or 511" >&2; exit 2 ;;
esac
copy=${TMPDIR:-/tmp}/wexxolin-larger-$side
mkdir -p "$copy/crates" "$copy/tests"

# the crates that C's route call is built on, that of its answer among them
crates=$(sed -n 's/^\(routing\):/\1/p' "$root/crates.txt")
rm -rf "$copy/bench" "$copy/include"
grep -E "^($(echo $crates | tr ' ' '|')):" "$root/crates.txt" > "$copy/crates.txt"
for crate in $crates wexxolin; do
    mkdir -p "$copy/crates/$crate"
    for part in src specs proofs; do
        rm -rf "$copy/crates/$crate/$part"
        [ ! -d "$root/crates/$crate/$part" ] || cp -R "$root/crates/$crate/$part" "$copy/crates/$crate"
    done
done

# the library with that call alone: of wexxolin's parts before the first call the uses of std and of these crates, and of the others the call's
echo "wexxolin staticlib: $crates" >> "$copy/crates.txt"
mkdir -p "$copy/crates/wexxolin/proofs"
find "$copy/crates/wexxolin/proofs" -mindepth 1 -maxdepth 1 ! -name wexxolin_route_2 -exec rm -rf {} +
awk -v RS= -v crates=" std $crates " '
    !/ fn / {
        n = split($0, line, "\n")
        for (k = 1; k <= n; k++) {
            crate = line[k]
            if (!sub(/^ghost use Rattle[.]/, "", crate) && !sub(/^use /, "", crate)) { print line[k]; continue }
            sub(/[.:].*/, "", crate)
            if (index(crates, " " crate " ")) print line[k]
        }
        print ""
    }
    / fn wexxolin_route_2\(/' "$root/crates/wexxolin/src/lib.rt" > "$copy/crates/wexxolin/src/lib.rt"
cp -R "$root/bench" "$root/include" "$copy"
cp "$root/tests/boards.c" "$root/tests/boards.h" "$copy/tests"

# changed FILE OLD NEW: one line of the copy, which must stand there just once
changed() {
    [ "$(grep -cxF "$2" "$copy/$1")" = 1 ] || { echo "larger.sh: $1 does not have the line '$2' just once" >&2; exit 2; }
    awk -v old="$2" -v new="$3" '{ print $0 == old ? new : $0 }' "$copy/$1" > "$copy/changed"
    mv "$copy/changed" "$copy/$1"
}
changed crates/board/src/lib.rt "pub const SIDE: usize = 63;" "pub const SIDE: usize = $side;"
changed crates/board/src/lib.rt "pub type Vertex = u16;" "pub type Vertex = $vertex;"
changed crates/board/specs/Limits.antt "largest_side = 63" "largest_side = $side"
changed crates/board/specs/Limits.antt "vertex_bits = 16" "vertex_bits = $bits"
changed include/wexxolin.h "typedef uint16_t wexxolin_vertex;" "typedef uint${bits}_t wexxolin_vertex;"

(cd "$copy/crates/wexxolin" && rt lib) >&2
cd "$copy"
LIBRARY=crates/wexxolin/out/libwexxolin.a OUT=$copy/outside SIDE=$side PERCENTS=${PERCENTS:-0 30 40} exec bench/run.sh "${2:-64}"
