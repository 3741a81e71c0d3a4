#!/bin/sh
# command.sh [SEED]: builds the command by the Makefile, and tries it: see command.py.
set -eu
root=$(cd "$(dirname "$0")/.." && pwd)
make -s -C "$root" all
exec python3 "$root/tests/command.py" "${1:-1}"
