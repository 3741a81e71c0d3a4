#!/bin/sh
# placed.sh ARCHIVE: the library once more, proved and built as tests/archive.sh does it, with a place in each instruction that names its
# function (places.py). A copy of the kit's toolchain, made of links, has a compiler of its own that puts them in; the code stays the same.
set -eu
here=$(cd "$(dirname "$0")" && pwd)
root=$(cd "$here/.." && pwd)
. "$here/needs.sh"
needs python3 python3
command -v rt >/dev/null || { echo "placed.sh: rt is missing; it is in the Rattle kit" >&2; exit 2; }
kit=$(cd "$(dirname "$(readlink -f "$(command -v rt)")")/.." && pwd)
copy=$(mktemp -d)
trap 'rm -rf "$copy"' EXIT

mkdir "$copy/bin"
for one in "$kit/toolchain"/* "$kit/toolchain/bin"/*; do
    case ${one#"$kit/toolchain/"} in
        bin | bin/clang) ;;
        *) ln -s "$one" "$copy/${one#"$kit/toolchain/"}" ;;
    esac
done
cat >"$copy/bin/clang" <<END
#!/bin/sh
# the kit's compiler, which gets the module with its places
set -e
real=$kit/toolchain/bin/clang
if [ -e module.bc ]; then
    \$real --target=x86_64-unknown-linux-gnu --no-default-config -S -emit-llvm -Xclang -disable-llvm-passes -x ir module.bc -o module.ll
    python3 $here/places.py module.ll module.bc
fi
exec \$real "\$@"
END
chmod +x "$copy/bin/clang"

(cd "$root/crates/wexxolin" && rt lib) >&2
"$root/tests/archive.sh" "$1" "$copy" >&2
