#!/bin/sh
# agree.sh [SCALE [SEED]]: builds the harness with the library and runs it. See settings.sh for what can be set;
# LIBRARY=fast tests/agree.sh tries it on the fast router. A difference is described in agree-difference.hex.
set -eu
. "$(dirname "$0")/settings.sh"
build agree "$root/tests/agree.c" "$root/tests/rooms.c" "$root/tests/boards.c" "$root/tests/second/second.c"
exec $RUN "$OUT/agree" "${1:-1}" "${2:-1}" "$OUT/agree-difference.hex"
