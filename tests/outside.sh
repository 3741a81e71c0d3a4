#!/bin/sh
# outside.sh [SCALE [SEED]]: everything that is tried from outside, on the library and the route program that are built already.
# All of it runs side by side. The last line counts the comparisons of programs: 'N passed, 0 failed'.
set -eu
. "$(dirname "$0")/settings.sh"
scale=${1:-$SCALE} seed=${2:-1}
rooms=$OUT/rooms.o boards=$OUT/boards.o second=$OUT/second.o packer=$OUT/packer.o printer=$OUT/printer.o recorder=$OUT/recorder.o checker=$OUT/checker.o
running=
trap 'kill $running 2>/dev/null || true' EXIT

# beside NAME COMMAND...: starts it; finish NAME shows what it printed, and ends all if it failed
beside() {
    name=$1
    shift
    "$@" >"$OUT/$name.out" 2>&1 &
    running="$running $!"
    eval "${name}_id=$!"
}
finish() {
    eval "id=\$${1}_id"
    status=0
    wait "$id" || status=$?
    cat "$OUT/$1.out"
    [ $status = 0 ] || exit 1
}

"$root/tests/header.sh"
beside agree part agree "$root/tests/agree.c"
part rooms "$root/tests/rooms.c"
part boards "$root/tests/boards.c"
part second "$root/tests/second/second.c"
part packer "$root/tests/second/packed.c"
part printer "$root/tests/second/printer.c"
part recorder "$root/tests/second/routes.c"
part checker "$root/tests/second/check.c"
build thrown "$root/tests/thrown.c" "$boards" "$second"
build far "$root/tests/far.c" "$rooms" "$boards" "$second" "$packer" "$printer" "$recorder" "$checker"
build packed "$root/tests/packed.c" "$rooms" "$boards" "$packer"
build angles "$root/tests/angles.c" "$boards" "$second"
build printed "$root/tests/printed.c" "$rooms" "$boards" "$second" "$printer"
build records "$root/tests/routes.c" "$rooms" "$boards" "$recorder"
build check "$root/tests/check.c" "$rooms" "$boards" "$second" "$checker"
build stack "$root/tests/stack.c" "$rooms" "$boards"
build example "$root/examples/route.c"
finish agree
build agree "$OUT/agree.o" "$rooms" "$boards" "$second"

# Everything at once: most of them take one core, some only wait.
beside lost "$root/tests/lost.sh" "$root/tests/run_route.sh"
beside thrown $RUN "$OUT/thrown" "${scale%/*}" "$seed" "$root/tests/run_route.sh"
beside jobs "$root/tests/run_jobs.sh" "$root/tests/run_route.sh"
beside command "$root/tests/command.sh" "$seed"
beside routes $RUN "$OUT/agree" "$scale" "$seed" "$OUT/agree-difference.hex" routes
beside others $RUN "$OUT/agree" "$scale" "$seed" "$OUT/agree-difference-others.hex" others
for name in far packed angles printed records check; do
    beside $name $RUN "$OUT/$name" "$scale" "$seed"
done

# the figure that the header states for its callers
kib=$(sed -n 's/.* \([0-9][0-9]*\) KiB of stack.*/\1/p' "$root/include/wexxolin.h" | sort -n | tail -n 1)
[ -n "$kib" ] || { echo "include/wexxolin.h states no KiB of stack" >&2; exit 1; }
$RUN "$OUT/stack" "$kib"

$RUN "$OUT/example" > "$OUT/example.out"
cmp "$OUT/example.out" "$root/examples/route.expected"
echo "the C example prints what it should"

for name in others far packed angles printed records check command jobs thrown lost routes; do
    finish $name
done
running=

# passed NAME: how many comparisons of programs it counted
passed() {
    counted=$(sed -n 's/^\([0-9]*\) passed, 0 failed$/\1/p' "$OUT/$1.out")
    [ -n "$counted" ] || { echo "$1 did not say how many passed" >&2; exit 1; }
    echo "$counted"
}
jobs=$(passed jobs)
lost=$(passed lost)
echo "$((jobs + lost + 12)) passed, 0 failed"
