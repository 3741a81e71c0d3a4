#!/bin/sh
# archive.sh ARCHIVE [TOOLCHAIN]: the library as the file ARCHIVE, over the crates below it as they stand built in crates/*/out, by the
# compiler that rt lib calls: the crate wexxolin is proved once more, and those below it are taken as they are. Right after rt ci in a
# checkout where nothing was built before, or after rt lib. TOOLCHAIN is a folder like the kit's toolchain (bench/placed.sh has its own).
set -eu
root=$(cd "$(dirname "$0")/.." && pwd)
kit=$(cd "$(dirname "$(readlink -f "$(command -v rt)")")/.." && pwd)
case $1 in
    /*) archive=$1 ;;
    *) archive=$PWD/$1 ;;
esac
toolchain=${2:-$kit/toolchain}

cd "$root/crates/wexxolin"
set --
for crate in $(sed -n 's/^wexxolin staticlib://p' "$root/crates.txt"); do
    set -- "$@" --extern $crate=../$crate/out/rlib/$crate.rlib -L dependency=../$crate/out/rlib
done
exec "$kit/bin/rattle" build --crate-name wexxolin --crate-type staticlib src/lib.rt \
    --extern std="$kit/rlibs/std.rlib" -L dependency="$kit/rlibs" "$@" \
    --antt-project "$kit/rattle/logic/antt-project.json" --logic-built "$kit/logic_built" \
    --toolchain "$toolchain" --backend llvm --jobs 2 -o "$archive"
