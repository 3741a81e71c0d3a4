# Read by the scripts beside it: where things are, and how a program is built and run. Each may be set from outside.
#
#   LIBRARY  what provides the functions of include/wexxolin.h: an archive or object files (target/staticlib/libwexxolin.a),
#            or the word fast for the fast router, which is built for this machine, whatever that is
#   CC       the compiler          FLAGS  its flags          LINK  flags behind the objects
#   RUN      a command that runs what is built (nothing): an emulator, for an archive on a machine that is not x86-64
#   OUT      folder for what is built (target/outside)
#   SCALE    how many random cases outside.sh tries (1; with RUN, under which all is many times slower, 1/16; where every small board is
#            tried, it bounds their size)
root=$(cd "$(dirname "$0")/.." && pwd)
OUT=${OUT:-$root/target/outside}
LIBRARY=${LIBRARY:-$root/target/staticlib/libwexxolin.a}
FLAGS=${FLAGS:--O2 -std=c11 -Wall -Wextra -fno-math-errno}
CC=${CC:-gcc} LINK=${LINK-} RUN=${RUN-}
[ "$LIBRARY" != fast ] || LIBRARY="$root/bench/fast.c $root/bench/fast_library.c"
SCALE=${SCALE:-$([ -z "$RUN" ] && echo 1 || echo 1/16)}
mkdir -p "$OUT"

# build NAME SOURCE...: a program of this folder's sources and the library
build() {
    name=$1
    shift
    for part in $LIBRARY; do
        [ -e "$part" ] || { echo "there is no library $part (set LIBRARY)" >&2; exit 2; }
    done
    $CC $FLAGS -I "$root/include" -o "$OUT/$name" "$@" $LIBRARY $LINK
}

# part NAME SOURCE: an object file for several programs
part() {
    $CC $FLAGS -I "$root/include" -c -o "$OUT/$1.o" "$2"
}
