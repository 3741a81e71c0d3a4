# Read by the scripts beside it: what they need from outside the repository, and a sentence where that is missing.
#
#   CC    a compiler for x86-64 programs (gcc, on another machine x86_64-linux-gnu-gcc)
#   DUMP  a disassembler for them (objdump, x86_64-linux-gnu-objdump)
#   OUT   folder for what is built (target/outside)
if [ "$(uname -m)" = x86_64 ]; then
    CC=${CC:-gcc} DUMP=${DUMP:-objdump} cross=
else
    CC=${CC:-x86_64-linux-gnu-gcc} DUMP=${DUMP:-x86_64-linux-gnu-objdump} cross=-x86-64-linux-gnu
fi

# needs COMMAND PACKAGE: ends with a sentence if there is no such command
needs() {
    command -v "$1" >/dev/null 2>&1 && return
    echo "$(basename "$0"): $1 is missing; it is in Debian's package $2 (apt-get install $2)" >&2
    exit 2
}

# What every count needs: gcc makes the counter, qemu-x86_64 runs it beside the program.
needs_counter() {
    needs gcc gcc
    needs qemu-x86_64 qemu-user
}
