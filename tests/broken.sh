#!/bin/sh
# broken.sh [NAME...]: breaks the fast router in one way after another and looks whether the harnesses find it, and a route
# program likewise. Prints for each way the group of cases that found it; fails if one stays unfound.
set -eu
here=$(cd "$(dirname "$0")" && pwd)
LIBRARY=fast
. "$here/settings.sh"
work=$OUT/broken
rm -rf "$work"
mkdir -p "$work/bench" "$work/include" "$work/tests/second"
cp "$root/include/wexxolin.h" "$work/include"
for part in tests/agree tests/angles tests/check tests/far tests/packed tests/printed tests/routes tests/stack tests/thrown tests/rooms tests/boards tests/second/second tests/second/printer; do
    $CC $FLAGS -c -o "$work/$(basename $part).o" "$root/$part.c"
done
$CC $FLAGS -c -o "$work/packer.o" "$root/tests/second/packed.c"
$CC $FLAGS -c -o "$work/recorder.o" "$root/tests/second/routes.c"
$CC $FLAGS -c -o "$work/checker.o" "$root/tests/second/check.c"
$CC $FLAGS -o "$work/thrown" "$work/thrown.o" "$work/boards.o" "$work/second.o"
# the stack of the fast router when it is whole, in KiB
$CC $FLAGS -o "$work/stack" "$work/stack.o" "$work/rooms.o" "$work/boards.o" $LIBRARY
fast_kib=$($RUN "$work/stack" 1024 | sed 's/.* route \([0-9]*\) .*/\1/')
fast_kib=$((fast_kib / 1024 + 1))
found=0 unfound=0

is_wanted() {
    case " $wanted " in *" $1 "* | "  ") ;; *) return 1 ;; esac
}

# change NAME FROM TO PERL: the file FROM with one change
change() {
    cp "$2" "$3"
    perl -0pi -e "$4" "$3"
    if cmp -s "$2" "$3"; then
        echo "$1: the change does not apply" >&2
        exit 2
    fi
}

# judge NAME COMMAND...: runs a harness on what is broken
judge() {
    name=$1 status=0
    shift
    timeout 100 "$@" >"$work/$name.out" 2>"$work/$name.err" || status=$?
    if [ $status = 1 ] && grep -q '^DIFFERENCE' "$work/$name.err"; then
        found=$((found + 1))
        printf 'found    %-26s %s: %s\n' "$name" "$(sed -n "s/^DIFFERENCE in group '\(.*\)'/\1/p" "$work/$name.err")" "$(sed -n 2p "$work/$name.err")"
    elif [ $status = 0 ]; then
        unfound=$((unfound + 1))
        printf 'UNFOUND  %s\n' "$name"
    else
        found=$((found + 1))
        printf 'found    %-26s the run ended with %s\n' "$name" "$status"
    fi
}

# broken NAME FILE PERL [HARNESS]: one way to break FILE of the fast router, for agree or the harness that is named
broken() {
    is_wanted "$1" || return 0
    harness=${4:-agree}
    cp "$root/bench/fast.c" "$root/bench/fast.h" "$root/bench/fast_library.c" "$work/bench"
    change "$1" "$root/bench/$2" "$work/bench/$2" "$3"
    with="$work/rooms.o $work/boards.o $work/second.o $work/packer.o $work/printer.o $work/recorder.o $work/checker.o"
    $CC $FLAGS -w -o "$work/$harness" "$work/$harness.o" $with "$work/bench/fast.c" "$work/bench/fast_library.c"
    rm -f "$work/$1.hex"
    case $harness in
    agree) judge "$1" $RUN "$work/agree" 1 1 "$work/$1.hex" ;;
    angles) judge "$1" $RUN "$work/angles" 1 1 ;;
    far) judge "$1" $RUN "$work/far" 1 1 ;;
    check | packed | printed | routes) judge "$1" $RUN "$work/$harness" 1 1 ;;
    stack) judge "$1" $RUN "$work/stack" $fast_kib ;;
    esac
}

# broken_program NAME FILE PERL: one way to break FILE of tests/second, which makes a route program
broken_program() {
    is_wanted "$1" || return 0
    cp "$root/tests/second/second.c" "$root/tests/second/second.h" "$root/tests/second/lines.c" "$work/tests/second"
    change "$1" "$root/tests/second/$2" "$work/tests/second/$2" "$3"
    $CC $FLAGS -w -o "$work/program" "$work/tests/second/lines.c" "$work/tests/second/second.c"
    judge "$1" $RUN "$work/thrown" 1 1 "$work/program"
}

wanted="$*"

# the order of the open list
broken tie-larger-g fast.c 's/\(1u << NEAR_BITS\) - 1 - \(unsigned\)square/(unsigned)square/'
broken tie-larger-vertex fast.c 's/: p < q;/: p > q;/'
broken tie-none fast.c 's/\(a \^ b\) >> PLACE_BITS\)\n        return a < b;/(a ^ b) >> F_AT)\n        return a < b;\n    return 0;/'
broken tie-only-vertex fast.c 's/return f << F_AT \| near << PLACE_BITS \| place;/(void)near;\n    return f << F_AT | place;/'
broken old-key-stays fast.c 's/i = s->where\[n\];\n/s->g[n] = new_g, s->parent[n] = (short_place)from, s->legs[n] = (short_place)legs;\n        return;\n/'
broken key-of-old-g fast.c 's/s->keys\[i\] - \(\(key\)\(s->g\[n\] - new_g\) << F_AT\)/s->keys[i]/'
broken heap-one-child fast.c 's/down \+= before\(s, s->keys\[down \+ 1\], s->keys\[down\]\);/down += down + 2 <= count \&\& before(s, s->keys[down + 1], s->keys[down]);/'

# the search
broken equal-g-replaces fast.c 's/new_g < s->g\[n\]/new_g <= s->g[n]/'
broken plain-a-star fast.c 's/if \(walk\(byte, .*?\)\)\n/if (0)\n/'
broken h-zero fast.c 's/new_g \+ units_of\(square\), square/new_g, square/'
broken h-one-more fast.c 's/new_g \+ units_of\(square\), square/new_g + units_of(square) + (n == LINE + 3), square/'
broken reopens-expanded fast.c 's/(    if \(!\(t->visible & bit\) )\|\| \*byte & EXPANDED\)\n        return;/$1)\n        return;\n    if (*byte \& EXPANDED) { t->tests++; return; }/'
broken goal-expanded fast.c 's/s->g\[p\], 1, s/s->g[p], p == goal ? 2 : 1, s/'
broken goal-counted fast.c 's/found = 1;\n/found = 1; t.expansions++;\n/'
broken start-without-parent fast.c 's/(uint8_t mark, unsigned legs\)\n\{)/$1\n    if (x == px \&\& y == py) px = py = 0;/'
broken start-tests-uncounted fast.c 's/t->tests\+\+;/t->tests += t->parent != t->place;/'
broken neighbour-tests-counted fast.c 's/t->tests\+\+;/t->tests += 2;/'
broken diagonal-squeeze fast.c 's/\(nw & ne\) \* N \| ne \* NE/(nw \& ne) * N | (ne | (nw \& se)) * NE/'
broken neighbour-edge fast.c 's/\(sw & nw\) \* W/(sw | nw) * W/'

# the legs
broken tie-more-legs fast.c 's/s->legs\[p\] < s->legs\[q\]/s->legs[p] > s->legs[q]/'
broken tie-without-legs fast.c 's/s->legs\[p\] != s->legs\[q\] \? s->legs\[p\] < s->legs\[q\] : p < q/p < q/'
broken tie-legs-before-g fast.c 's/\(a \^ b\) >> PLACE_BITS/(a ^ b) >> F_AT/; s/: p < q;/: a < b;/'
broken tie-by-old-legs fast.c 's/(    s->legs\[n\] = \(short_place\)legs;\n)(    rise\(s, i, k\);\n)/$2$1/'
broken equal-g-keeps fast.c 's/ \|\| \(new_g == s->g\[n\] && legs < s->legs\[n\]\)//'
broken equal-legs-replace fast.c 's/legs < s->legs\[n\]/legs <= s->legs[n]/'
broken more-legs-replace fast.c 's/legs < s->legs\[n\]/legs > s->legs[n]/'
broken legs-before-g-replace fast.c 's/new_g < s->g\[n\] \|\| \(new_g == s->g\[n\] && legs < s->legs\[n\]\)/legs < s->legs[n] || (legs == s->legs[n] \&\& new_g < s->g[n])/'
broken legs-of-taken fast.c 's/legs = t->parent_legs \+ 1/legs = t->own_legs + 1/'
broken legs-as-the-parent fast.c 's/legs = t->own_legs \+ 1/legs = t->own_legs/'
broken legs-not-followed fast.c 's/(\*byte \|= SEEN;)/$1 s->legs[n] = (short_place)legs;/; s/\n    s->legs\[n\] = \(short_place\)legs;\n    rise/\n    rise/'
broken legs-of-start fast.c 's/s->legs\[start\] = 0;/s->legs[start] = 1;/'
broken legs-not-cleared fast.c 's/memset\(legs, 0, count \* sizeof \*legs\);//'
broken legs-one-too-many fast.c 's/memset\(legs, 0, count /memset(legs, 0, (count + (legs_len > count)) /'
broken legs-as-vertices fast.c 's/answer\.legs = legs\[goal\]/answer.legs = needed/'
broken legs-unsaid fast.c 's/answer\.legs = legs\[goal\];//'
broken seven-with-legs fast.c 's/answer\.place = needed;/answer.place = needed; answer.legs = needed - 1;/'
broken six-without-legs fast.c 's/ \|\| legs_len < count//'
broken legs-off-by-one fast.c 's/legs_len < count/legs_len <= count/'

# the slices
broken g-not-cleared fast.c 's/memset\(g, 0, count \* sizeof \*g\);/g[start] = 0;/'
broken parents-not-cleared fast.c 's/memset\(parents, 0, count \* sizeof \*parents\);//'
broken marks-one-too-many fast.c 's/memset\(marks, 0, count\);/memset(marks, 0, count + (marks_len > count));/'
broken work-beyond-slice fast.c 's/memset\(g, 0, count/memset(g, 0, (count + (count == 6))/'
broken path-one-too-many fast.c 's/(answer\.vertices = needed;)/$1 if (path_len > needed) path[needed] = path[needed - 1];/'
broken path-written-with-7 fast.c 's/answer\.number = 7;/answer.number = 7; if (path_len) path[0] = (wexxolin_vertex)start;/'
broken path-goal-first fast.c 's/path\[--i\] = \(wexxolin_vertex\)v;/path[needed - i--] = (wexxolin_vertex)v;/'
broken work-undone-with-7 fast.c 's/answer\.number = 7;/answer.number = 7; memset(marks, 0, count);/'
broken work-undone-with-8 fast.c 's/answer\.number = 8;/answer.number = 8; memset(g, 0, count * sizeof *g);/'

# the answer
broken seven-place-given fast.c 's/answer\.place = needed;/answer.place = path_len;/'
broken seven-with-counts fast.c 's/answer\.place = needed;/answer.place = needed; answer.expansions = counts[0];/'
broken seven-with-vertices fast.c 's/answer\.place = needed;/answer.place = needed; answer.vertices = needed;/'
broken seven-off-by-one fast.c 's/needed > path_len/needed >= path_len/'
broken eight-without-counts fast.c 's/(answer\.number = 8;)\s+answer\.expansions = counts\[0\];/$1/'
broken rounded-at-the-end fast.c 's/answer\.units = g\[goal\];/double sum = 0; for (size_t i = 1; i < needed; i++) { double x = (double)(path[i] % stride) - (double)(path[i - 1] % stride), y = (double)(path[i] \/ stride) - (double)(path[i - 1] \/ stride); sum += __builtin_sqrt(x * x + y * y); } answer.units = (uint64_t)(sum * 1048576.0);/'
broken cells-rounded fast.c 's/\(double\)g\[goal\] \/ AXIS_UNITS/(double)(float)(g[goal] * 0x1p-20)/'

# length and direction
broken length-rounded fast.c 's/AXIS_UNITS\);\n\}\n\nuint64_t fast_units/AXIS_UNITS + 0.5);\n}\n\nuint64_t fast_units/'
broken length-of-float fast.c 's/__builtin_sqrt\(\(double\)square\)/(double)__builtin_sqrtf((float)square)/'
broken direction-minus-zero fast_library.c 's/dy \* 0x1p20 \/ u/dy * 0x1p20 \/ u * (dx < 0 ? 1 : 1) - (dy == 0 ? 0.0 : 0.0) + (dy == 0 ? -0.0 : 0.0) * (dy == 0 ? 1 : 0)/; s/(dx \* 0x1p20 \/ u), .*?\};/$1, dy ? dy * 0x1p20 \/ u : -0.0};/'
broken direction-twice-rounded fast_library.c 's/dx \* 0x1p20 \/ u/dx * (0x1p20 \/ u)/'
broken direction-of-true-length fast_library.c 's/(double)fast_units\(dx, dy\)/$1fast_units(dx, dy)/; s/double u = \(double\)fast_units\(dx, dy\);/double u = __builtin_sqrt((double)(dx * dx + dy * dy)) * 0x1p20;/'
broken nine-before-five fast_library.c 's/if \(number == 0 && !\(dx \| dy\)\)/if (!(dx | dy))/'
broken between-in-32-bits fast_library.c 's/\(ax \| ay\) > 63/(uint32_t)(ax | ay) > 63/'
broken difference-64 fast_library.c 's/dx \* dx > 63 \* 63/dx * dx > 64 * 64/'

# sight
broken corner-is-crossing fast.c 's/cell\[across\] & cell\[along\] & BLOCKED/(cell[across] | cell[along]) \& BLOCKED/'
broken corner-touched-one fast.c 's/cell\[across\] & cell\[along\] & BLOCKED/cell[across] \& (cell[along] | -(n > m)) \& BLOCKED/'
broken corner-not-passed fast.c 's/cell \+= both;/cell += ahead == -1 ? along : both;/'
broken last-cell-unseen fast.c 's/cell \+= both;\n            if \(\*cell & BLOCKED\)/cell += both;\n            if (*cell \& BLOCKED \&\& cell != last)/'
broken edge-needs-one fast.c 's/one\[0\] & one\[other\]/(one[0] | one[other])/'
broken edge-never fast.c 's/if \(one\[0\] & one\[other\] & BLOCKED\)/if (0)/; s/if \(near & far & BLOCKED\)/if (0)/'
broken last-edge-unseen fast.c 's/(unsigned near = one\[0\])/if (one + step == end) return 1; $1/'
broken outside-free fast_library.c 's/return fast_sight\((.*?)\);/struct wexxolin_sight a = fast_sight($1); if (a.number == 0 \&\& ((ay == by \&\& (ay == 0 || ay == height)) || (ax == bx \&\& (ax == 0 || ax == width)))) a.sight = 1; return a;/s'
broken itself-unseen fast_library.c 's/return fast_sight\((.*?)\);/struct wexxolin_sight a = fast_sight($1); if (ax == bx \&\& ay == by) a.sight = 0; return a;/s'
broken sampled fast_library.c 's/return fast_sight\((.*?)\);/struct wexxolin_sight a = fast_sight($1); if (a.number || ax == bx || ay == by) return a; a.sight = 1; for (int k = 0; k < 1000; k++) { double t = (k + 0.5) \/ 1000, x = ax + t * ((double)bx - (double)ax), y = ay + t * ((double)by - (double)ay); if (cells[(size_t)y * width + (size_t)x] \&\& x != (size_t)x \&\& y != (size_t)y) a.sight = 0; } return a;/s'
broken stop-farther-first fast.c 's/answer->x = \(uint64_t\)x, answer->y = \(uint64_t\)y;\n( *)answer->x2 = \(uint64_t\)\(x \+ right\), answer->y2 = \(uint64_t\)\(y \+ down\);/answer->x2 = (uint64_t)x, answer->y2 = (uint64_t)y;\n$1answer->x = (uint64_t)(x + right), answer->y = (uint64_t)(y + down);/'
broken stop-last-edge fast.c 's/(answer->y2 = \(uint64_t\)\(y \+ down\);)\n *return;/$1/'
broken stop-edge-as-cell fast.c 's/kind = WEXXOLIN_EDGE/kind = WEXXOLIN_CELL/'
broken stop-last-cell fast.c 's/(WEXXOLIN_CELL, .*?;)\n *return;/$1/'
broken stop-column-backwards fast.c 's/for \(int v = m \* u \/ n; v < m && n \* v < m \* \(u \+ 1\); v\+\+\)/for (int v = (m * (u + 1) + n - 1) \/ n - 1; v >= 0 \&\& n * (v + 1) > m * u; v--)/'
broken stop-touched-cell fast.c 's/n \* v < m \* \(u \+ 1\)/n * v <= m * (u + 1)/'
broken stop-cell-turned fast.c 's/WEXXOLIN_CELL, answer->x = \(uint64_t\)x, answer->y = \(uint64_t\)y/WEXXOLIN_CELL, answer->x = (uint64_t)y, answer->y = (uint64_t)x/'
broken stop-from-second-end fast.c 's/name_stop\(&field, \(int\)ax, \(int\)ay, \(int\)bx, \(int\)by, &answer\)/name_stop(\&field, (int)bx, (int)by, (int)ax, (int)ay, \&answer)/'

# pinched vertices
broken pinched-inside-slanted fast.c 's/cell\[across\] & cell\[along\] & BLOCKED/0/'
broken pinched-inside-axis fast.c 's/\(near \^ far\) & \(near/0 \& (near/'
broken pinched-at-the-end fast.c 's/(                if \(cell == last\)\n *return 1;\n)(                if \(cell\[across\] & cell\[along\] & BLOCKED\)\n *return 0;\n)/$2$1/'
broken pinched-by-three fast.c 's/ & \(at\[1\] \^ at\[LINE \+ 1\]\)//'
broken pinched-on-the-border fast.c 's/\(at\[0\] \^ at\[1\]\) & //'
broken pinched-neighbour fast.c 's/is_pinched\(byte\) && n != t->goal/0/'
broken pinched-goal-forbidden fast.c 's/is_pinched\(byte\) && n != t->goal/is_pinched(byte)/'
broken pinched-start-forbidden fast.c 's/(t\.visible = )(visible\(s->field\.bytes \+ t\.place\))/$1is_pinched(s->field.bytes + t.place) ? 0 : $2/'
broken pinched-pair-counted fast.c 's/(    if \(!\(\*byte & SEEN\) && is_pinched.*?return;\n)(.*?    t->tests\+\+;\n)/$2$1/s'
broken stop-vertex-as-cell fast.c 's/kind = WEXXOLIN_VERTEX/kind = WEXXOLIN_CELL/'
broken stop-vertex-turned fast.c 's/WEXXOLIN_VERTEX, answer->x = \(uint64_t\)x, answer->y = \(uint64_t\)y/WEXXOLIN_VERTEX, answer->x = (uint64_t)y, answer->y = (uint64_t)x/'
broken stop-last-vertex fast.c 's/(name_vertex\(vx, vy, answer\);)\n *return;/$1/'
broken stop-edge-before-vertex fast.c 's/(name_vertex\(x, y, answer\);)\n *return;/$1/'

# refusals 1 to 6
broken side-64 fast.c 's/width - 1 > LARGEST_SIDE - 1/width - 1 > LARGEST_SIDE/'
broken side-0 fast.c 's/width - 1 > LARGEST_SIDE - 1/width > LARGEST_SIDE/'
broken side-in-32-bits fast.c 's/height - 1 > LARGEST_SIDE - 1/(uint32_t)height - 1 > LARGEST_SIDE - 1/'
broken two-before-one fast.c 's/(    if \(width - 1.*?return 1;\n)(.*?return 2;\n)/$2$1/s'
broken three-at-last fast.c 's/while \(cells\[\*place\] <= 1\)\s+\+\+\*place;/for (size_t i = 0; i < cells_len; i++) if (cells[i] > 1) *place = i;/'
broken three-above-2 fast.c 's/0xfefefefefefefefeu/0xfcfcfcfcfcfcfcfcu/'
broken four-and-five fast.c 's/return 4;/return 9;/; s/return 5;/return 4;/; s/return 9;/return 5;/'
broken four-without-y fast.c 's/ax > width \|\| ay > height/ax > width || ay > height + 1/'
broken five-before-four fast.c 's/(    if \(ax > width.*?return 4;\n)(.*?return 5;\n)/$2$1/s'
broken six-of-cells fast.c 's/legs_len < count\)/legs_len < cells_len)/'
broken six-off-by-one fast.c 's/parents_len < count/parents_len <= count/'

# jobs
broken job-8192-refused fast_library.c 's/length > 8192 \|\|/length >= 8192 ||/'
broken job-8200-accepted fast_library.c 's/length > 8192 \|\| length % 8/length > 8200 || length % 8/'
broken eleven-before-ten fast_library.c 's/length > 8192 \? 10 : 11/length % 8 ? 11 : 10/'
broken empty-accepted fast_library.c 's/job\.number = 12, job;/job.number = 11, job;/'
broken twelve-before-thirteen fast_library.c 's/(        job\.number = 13;.*?)(        job\.number = 12;.*?return job;\n)/$2$1/s'
broken twelve-before-twenty-three fast_library.c 's/(        job\.number = 23;.*?)(        job\.number = 12;.*?return job;\n)/$2$1/s'
broken twenty-three-as-thirteen fast_library.c 's/job\.number = 23;/job.number = 13;/'
broken twenty-three-highest fast_library.c 's/unsigned i = 1; i < 8; i\+\+/unsigned i = 7; i > 0; i--/'
broken twenty-three-byte-lost fast_library.c 's/job\.second = i, job/job/'
broken twenty-three-exchanged fast_library.c 's/job\.second = i, job/job.second = n, job.place = i, job/'
broken type-4-keepout fast_library.c 's/r\[0\] > 3/r[0] > 4/; s/unused\[4\] = \{/unused[5] = {/; s/0xc0\}/0xc0, 0}/'
broken unused-byte-7 fast_library.c 's/0xc0\}/0x40}/'
broken unused-byte-1 fast_library.c 's/0xc2/0xc0/'
broken eighteen-after-fifteen fast_library.c 's/(            job\.number = 18;.*?return job;\n)(            job\.number = 15;.*?return job;\n)/$2$1/s'
broken keepout-empty fast_library.c 's/r\[2\] >= r\[4\]/r[2] > r[4]/'
broken keepout-beyond fast_library.c 's/r\[5\] > job\.height\)\s+return job;\n        \} else/r[5] > job.height + 1) return job; } else/'
broken net-equal fast_library.c 's/r\[1\] <= last/r[1] < last/'
broken net-zero fast_library.c 's/r\[1\] <= last/r[1] <= last \&\& last/'
broken sixteen-before-seventeen fast_library.c 's/(            job\.number = 17;.*?last = r\[1\];\n)(            job\.number = 16;.*?return job;\n)/$2$1/s'
broken goal-off-board fast_library.c 's/r\[5\] > job\.height\)\s+return job;\s+if \(job\.first/r[5] > 63) return job; if (job.first/'
broken place-kept fast_library.c 's/job\.number = job\.place = 0;/job.number = 0;/'
broken nineteen-exact fast_library.c 's/board_len < count/board_len <= count/'
broken board-beyond fast_library.c 's/memset\(board, 0, count\)/memset(board, 0, board_len)/'
broken board-on-refusal fast_library.c 's/(    if \(job\.number\)\n        return \(struct wexxolin_board\))/    if (job.number \&\& board_len) board[0] = 0;\n$1/'
broken keepouts-toggle fast_library.c 's/memset\(board \+ y \* job\.width \+ r\[2\], 1, .*?\);/for (unsigned x = r[2]; x < r[4]; x++) board[y * job.width + x] ^= 1;/'
broken twenty-one-later fast_library.c 's/index >= job\.records - job\.first_net/index > job.records - job.first_net/'
broken index-wraps fast_library.c 's/index >= job\.records - job\.first_net/8 * index >= 8 * (job.records - job.first_net)/'
broken start-and-goal-swapped fast_library.c 's/r\[1\], r\[2\], r\[3\], r\[4\], r\[5\]\}/r[1], r[4], r[5], r[2], r[3]}/'

# reads, and writes of the byte that is there already: only the pages beside the slices and the read-only ones can tell
accepted='(    if \(bx > width \|\| by > height\)\n        return 5;\n)'
lent='(    struct slices to = )'
broken cells-read-behind fast.c "s/$accepted/\$1    (void)((const volatile uint8_t *)cells)[cells_len];\n/"
broken cells-read-before fast.c "s/$accepted/\$1    (void)((const volatile uint8_t *)cells)[-1];\n/"
broken cells-written-alike fast.c "s/$accepted/\$1    ((volatile uint8_t *)cells)[0] = cells[0];\n/"
broken cells-read-before-two fast.c 's/(    if \(cells_len != width \* height\))/    (void)((const volatile uint8_t *)cells)[width * height - 1];\n$1/'
broken g-read-behind fast.c "s/$lent/    (void)((volatile uint64_t *)g)[g_len];\n\$1/"
broken parents-read-before fast.c "s/$lent/    (void)((volatile wexxolin_vertex *)parents)[-1];\n\$1/"
broken legs-read-behind fast.c "s/$lent/    (void)((volatile wexxolin_vertex *)legs)[legs_len];\n\$1/"
broken marks-written-alike-behind fast.c "s/$lent/    ((volatile uint8_t *)marks)[marks_len] = marks[marks_len];\n\$1/"
broken marks-read-before-six fast.c 's/(    if \(g_len < count)/    (void)((volatile uint8_t *)marks)[count - 1];\n$1/'
broken path-written-alike-behind fast.c 's/(answer\.vertices = needed;)/$1 ((volatile wexxolin_vertex *)path)[path_len] = path[path_len];/'
broken path-written-alike-with-7 fast.c 's/answer\.number = 7;/answer.number = 7; ((volatile wexxolin_vertex *)path)[needed - 1] = path[needed - 1];/'
broken path-read-when-empty fast.c "s/$lent/    (void)((volatile wexxolin_vertex *)path)[0];\n\$1/"
broken job-read-behind fast_library.c 's/(    unsigned last = 0;)/    (void)((const volatile uint8_t *)bytes)[length];\n$1/'
broken job-read-when-empty fast_library.c 's/(    if \(length > 8192)/    (void)((const volatile uint8_t *)bytes)[0];\n$1/'
broken job-written-alike fast_library.c 's/(    unsigned last = 0;)/    ((volatile uint8_t *)bytes)[0] = bytes[0];\n$1/'
broken board-written-alike-behind fast_library.c 's/(    memset\(board, 0, count\);)/$1 ((volatile uint8_t *)board)[board_len] = board[board_len];/'
broken board-read-with-19 fast_library.c 's/job\.number = 19;/job.number = 19, (void)((volatile uint8_t *)board)[count - 1];/'

# packed boards: the bits and the rows
broken packed-low-bit-first fast_library.c 's/= spread\(\*packed\+\+\)/= __builtin_bswap64(spread(*packed++))/' packed
broken packed-low-bit-first-in-last fast_library.c 's/x\+\+, bits <<= 1\)\n(\s+)cells\[x\] = bits >> 7 & 1/x++, bits >>= 1)\n$1cells[x] = bits \& 1/' packed
broken packed-written-low-bit-first fast_library.c 's/gather\(eight_cells\);/gather(__builtin_bswap64(eight_cells));/' packed
broken packed-last-written-low fast_library.c 's/<< \(7 - left % 8\)/<< left % 8/' packed
broken packed-rows-not-at-bytes fast_library.c 's/for \(size_t y = 0; y < height; y\+\+, cells \+= width\) \{.*?return answer;/for (size_t i = 0; i < width * height; i++) cells[i] = packed[i \/ 8] >> (7 - i % 8) \& 1;\n    return answer;/s' packed
broken packed-columns-first fast_library.c 's/for \(size_t y = 0; y < height; y\+\+, cells \+= width\) \{.*?return answer;/for (size_t i = 0; i < width * height; i++) cells[i] = packed[i % height * ((width + 7) \/ 8) + i \/ height \/ 8] >> (7 - i \/ height % 8) \& 1;\n    return answer;/s' packed
broken packed-free-and-blocked fast_library.c 's/cells\[x\] = bits >> 7 & 1/cells[x] = ~bits >> 7 \& 1/' packed
broken packed-set-as-255 fast_library.c 's/>> 7 & 0x0101010101010101u/>> 7 \& 0x0101010101010101u) * 255/; s/return bits \* 0x8040/return (bits * 0x8040/' packed
broken packed-row-a-byte-more fast_library.c 's/size_t row = \(width \+ 7\) \/ 8;/size_t row = width \/ 8 + 1;/' packed
broken packed-row-a-byte-less fast_library.c 's/size_t row = \(width \+ 7\) \/ 8;/size_t row = width \/ 8 + (width < 8);/' packed
broken packed-filling-of-ones fast_library.c 's/unsigned bits = 0;/unsigned bits = 0xffu >> width % 8;/' packed
broken packed-filling-kept fast_library.c 's/\*packed\+\+ = \(uint8_t\)bits;/*packed = (uint8_t)(bits | (*packed \& 0xffu >> width % 8)), packed++;/' packed
broken packed-last-left-out fast_library.c 's/(if \(x < width\))\n(\s+\*packed\+\+ = \(uint8_t\)bits;)/if (x < width \&\& bits)\n$2\n        else if (x < width)\n            packed++;/' packed

# packed boards: what is refused
broken packed-filling-unread fast_library.c 's/if \(packed\[end - 1\] & filling\)/if (0)/' packed
broken packed-filling-lowest-unread fast_library.c 's/(unsigned filling = .*?);/$1 \& ~1u;/; s/(unsigned filling = )\((.*?)- 1 & ~1u;/$1((${2}- 1) \& ~1u;/' packed
broken packed-filling-highest-unread fast_library.c 's/unsigned filling = (.*?);/unsigned filling = ($1) >> 1;/' packed
broken packed-filling-first-row fast_library.c 's/size_t end = row; end <=/size_t end = 2 * row; end <=/' packed
broken packed-filling-last-row fast_library.c 's/end <= packed_len; end/end < packed_len; end/' packed
broken packed-filling-row-named fast_library.c 's/30, end - 1, 0/30, end \/ row - 1, 0/' packed
broken packed-filling-place-lost fast_library.c 's/30, end - 1, 0/30, 0, 0/' packed
broken packed-filling-last-named fast_library.c 's/size_t end = row; end <= packed_len; end \+= row/size_t end = packed_len; end > 0; end -= row/' packed
broken packed-thirty-second-place fast_library.c 's/30, end - 1, 0/30, end - 1, end - 1/' packed
broken packed-longer-accepted fast_library.c 's/packed_len != row \* height/packed_len < row * height/' packed
broken packed-a-row-less-accepted fast_library.c 's/packed_len != row \* height/packed_len != row * height \&\& packed_len != row * (height - 1)/' packed
broken packed-twenty-nine-as-two fast_library.c 's/\{29, 0, 0\}/{2, 0, 0}/' packed
broken packed-thirty-before-29 fast_library.c 's/(    if \(packed_len != row \* height\)\n.*?;\n)(    unsigned filling.*?)(    return \(struct wexxolin_pack\)\{0, 0, 0\};)/$2$1$3/s' packed
broken packed-twenty-nine-before-1 fast_library.c 's/(judge_packed\(.*?\n\{\n)(.*?)(    size_t row = .*?\n)(    if \(packed_len != .*?;\n)/$1$3$4$2/s' packed
broken packed-side-64 fast_library.c 's/width - 1 > LARGEST_SIDE - 1/width - 1 > LARGEST_SIDE/' packed
broken packed-side-0 fast_library.c 's/height - 1 > LARGEST_SIDE - 1/height > LARGEST_SIDE/' packed
broken packed-nineteen-before-30 fast_library.c 's/    if \(answer\.number == 0 && cells_len < width \* height\)\n\s+answer\.number = 19;/    if (answer.number % 30 == 0 \&\& cells_len < width * height)\n        return (struct wexxolin_pack){19, 0, 0};/' packed
broken packed-nineteen-exact fast_library.c 's/cells_len < width \* height/cells_len <= width * height/' packed
broken packed-nineteen-of-packed fast_library.c 's/answer\.number == 0 && cells_len < width \* height/answer.number == 0 \&\& cells_len < packed_len/' packed
broken packed-nineteen-as-21 fast_library.c 's/answer\.number = 19/answer.number = 21/' packed
broken packed-writer-side-64 fast_library.c 's/(struct wexxolin_pack wexxolin_pack\(.*?height - 1 > )LARGEST_SIDE - 1/$1LARGEST_SIDE/s' packed
broken packed-writer-two-before-1 fast_library.c 's/(struct wexxolin_pack wexxolin_pack\(.*?\n\{\n)(    if \(width - 1.*?;\n)(    if \(cells_len != .*?;\n)/$1$3$2/s' packed
broken packed-writer-two-unread fast_library.c 's/if \(cells_len != width \* height\)/if (cells_len < width * height)/' packed
broken packed-writer-three-above-2 fast_library.c 's/if \(cells\[i\] > 1\)/if (cells[i] > 2)/' packed
broken packed-writer-three-place fast_library.c 's/\{3, i, 0\}/{3, i % width, 0}/' packed
broken packed-writer-three-last fast_library.c 's/for \(size_t i = 0; i < cells_len; i\+\+\)\n(\s+if \(cells\[i\] > 1\))/for (size_t i = cells_len; i-- > 0;)\n$1/' packed
broken packed-writer-21-before-3 fast_library.c 's/(    for \(size_t i = 0; i < cells_len; i\+\+\)\n.*?;\n)(    if \(packed_len < .*?;\n)/$2$1/s' packed
broken packed-writer-21-exact fast_library.c 's/packed_len < \(width \+ 7\)/packed_len <= (width + 7)/' packed
broken packed-writer-21-as-19 fast_library.c 's/\{21, 0, 0\}/{19, 0, 0}/' packed

# packed boards: the count
broken packed-count-without-30 fast_library.c 's/(struct wexxolin_pack judged = .*?;\n)/$1    if (judged.number == 30) judged = (struct wexxolin_pack){0, 0, 0};\n/' packed
broken packed-count-without-29 fast_library.c 's/(struct wexxolin_pack judged = .*?;\n)/$1    if (judged.number == 29) judged = (struct wexxolin_pack){0, 0, 0};\n/' packed
broken packed-count-of-bytes fast_library.c 's/__builtin_popcount\(packed\[i\]\)/(packed[i] != 0)/' packed
broken packed-count-last-left-out fast_library.c 's/judged\.number == 0 && i < packed_len/judged.number == 0 \&\& i + 1 < packed_len/' packed
broken packed-count-in-8-bits fast_library.c 's/answer\.blocked \+= (.*?);/answer.blocked = (uint8_t)(answer.blocked + $1);/' packed
broken packed-count-of-free fast_library.c 's/(answer\.blocked \+= .*?;\n)(    return answer;)/$1    if (judged.number == 0) answer.blocked = width * height - answer.blocked;\n$2/' packed
broken packed-count-with-refusal fast_library.c 's/judged\.number == 0 && i < packed_len/judged.number != 1 \&\& i < packed_len/' packed
broken packed-count-place-lost fast_library.c 's/\{judged\.number, judged\.place, judged\.second, 0\}/{judged.number, 0, judged.second, 0}/' packed

# packed boards: what is written, and what is touched
broken packed-cells-beyond fast_library.c 's/x \+ 8 <= width; x \+= 8/x < width; x += 8/' packed
broken packed-bytes-beyond fast_library.c 's/(\*packed\+\+ = \(uint8_t\)bits;\n    \}\n)/$1    if (packed_len > (width + 7) \/ 8 * height) *packed = 0;\n/' packed
broken packed-written-with-30 fast_library.c 's/(    if \(answer\.number\)\n        return answer;)/    if (answer.number == 30 \&\& cells_len) cells[0] = 0;\n$1/' packed
broken packed-written-with-19 fast_library.c 's/(    if \(answer\.number\)\n        return answer;)/    if (answer.number == 19 \&\& cells_len) cells[0] = packed[0] >> 7;\n$1/' packed
broken packed-written-with-3 fast_library.c 's/(    for \(size_t i = 0; i < cells_len; i\+\+\)\n\s+if \(cells\[i\] > 1\))/    if (packed_len) packed[0] = 0;\n$1/' packed
broken packed-written-with-21 fast_library.c 's/(    if \(packed_len < \(width \+ 7\))/    if (packed_len) packed[0] = 0;\n$1/' packed
broken packed-read-behind fast_library.c 's/(    unsigned filling = )/    (void)((const volatile uint8_t *)packed)[packed_len];\n$1/' packed
broken packed-read-before fast_library.c 's/(    unsigned filling = )/    (void)((const volatile uint8_t *)packed)[-1];\n$1/' packed
broken packed-read-before-29 fast_library.c 's/(    if \(packed_len != row \* height\))/    (void)((const volatile uint8_t *)packed)[row * height - 1];\n$1/' packed
broken packed-written-alike fast_library.c 's/(    unsigned filling = )/    ((volatile uint8_t *)packed)[0] = packed[0];\n$1/' packed
broken packed-cells-alike-behind fast_library.c 's/(    for \(size_t y = 0; y < height; y\+\+, cells \+= width\))/    ((volatile uint8_t *)cells)[cells_len] = cells[cells_len];\n$1/' packed
broken packed-cells-read-with-19 fast_library.c 's/answer\.number = 19;/answer.number = 19, (void)((volatile uint8_t *)cells)[width * height - 1];/' packed
broken packed-writer-reads-behind fast_library.c 's/(    if \(packed_len < \(width \+ 7\))/    (void)((const volatile uint8_t *)cells)[cells_len];\n$1/' packed
broken packed-writer-alike-behind fast_library.c 's/(        unsigned bits = 0;)/        ((volatile uint8_t *)packed)[packed_len] = packed[packed_len];\n$1/' packed

# the lines
broken line-counts-exchanged fast_library.c 's/" expanded ", expansions/" expanded ", tests/' printed
broken line-two-spaces fast_library.c 's/put\(pen, before\);/put(pen, before); if (number == 1000) put(pen, " ");/' printed
broken line-digit-dropped fast_library.c 's/put\(pen, digits\);/put(pen, digits + (number == 100));/' printed
broken line-leading-zero fast_library.c 's/put\(pen, digits\);/if (number < 10 \&\& pen->length == 4) put(pen, "0");\n    put(pen, digits);/' printed
broken line-x-and-y-exchanged fast_library.c 's/" ", path\[i\] % row/" ", path[i] \/ row/; s/",", path\[i\] \/ row/",", path[i] % row/' printed
broken line-without-newline fast_library.c 's/put\(&pen, "\\n"\);/if (number) put(\&pen, "\\n");/' printed
broken line-numbers-in-32-bits fast_library.c 's/\(unsigned long long\)number/(unsigned long long)(uint32_t)number/' printed
broken line-numbers-signed fast_library.c 's/%llu/%lld/' printed
broken line-width-0-as-0 fast_library.c 's/width == 0 \? 2/width == 0 ? 1/' printed
broken line-width-in-16-bits fast_library.c 's/width < 65536 \? width \+ 1 : 65536/(uint16_t)width + 1/' printed
broken line-vertex-beyond-board fast_library.c 's/path\[i\] \/ row\)/path[i] \/ row < 64 ? path[i] \/ row : 63)/' printed
broken line-second-of-24 fast_library.c 's/number == 23/number == 23 || number == 24/' printed
broken line-second-lost fast_library.c 's/number == 23/number == 22/' printed
broken line-second-of-26-lost fast_library.c 's/ \|\| number == 26//' printed
broken line-none-of-9 fast_library.c 's/number == 8 \? " none/number == 8 || number == 9 ? " none/; s/number == 0 \|\| number == 8/number == 0 || number == 8 || number == 9/g' printed
broken line-exact-slice-refused fast_library.c 's/pen\.length > out_len/pen.length >= out_len/' printed
broken line-short-slice-written fast_library.c 's/(            return \(struct wexxolin_line\)\{21)/            { if (out_len) out[0] = 110;\n$1/; s/(wexxolin_line\)\{21, 0, 0, 0\};)/$1 }/' printed
broken line-byte-beyond fast_library.c 's/(    return \(struct wexxolin_line\)\{0, 0, 0, pen)/    if (pen.length < out_len) out[pen.length] = 0;\n$1/' printed
broken line-byte-behind-slice fast_library.c 's/(    return \(struct wexxolin_line\)\{0, 0, 0, pen)/    ((volatile uint8_t *)out)[out_len] = out[out_len];\n$1/' printed
broken line-short-as-19 fast_library.c 's/\{21, 0, 0, 0\}/{19, 0, 0, 0}/' printed
broken line-bytes-with-21 fast_library.c 's/\{21, 0, 0, 0\}/{21, 0, 0, pen.length}/' printed
broken line-last-vertex-lost fast_library.c 's/i < path_len && pen/i + (path_len > 100) < path_len \&\& pen/' printed

# route files: the records
broken routes-place-bytes-exchanged fast_library.c 's/r\[2\] \| \(size_t\)r\[3\] << 8/r[3] | (size_t)r[2] << 8/' routes
broken routes-place-in-8-bits fast_library.c 's/size_t place = r\[2\] \| .*?;/size_t place = r[2];/' routes
broken routes-next-in-16-bits fast_library.c 's/\? place \+ 1 : SIZE_MAX/? (uint16_t)(place + 1) : SIZE_MAX/' routes
broken routes-written-high-byte-first fast_library.c 's/\(uint8_t\)p, \(uint8_t\)\(p >> 8\)/(uint8_t)(p >> 8), (uint8_t)p/' routes
broken routes-written-high-byte-lost fast_library.c 's/\(uint8_t\)\(p >> 8\)/0/' routes
broken routes-x-and-y-exchanged fast_library.c 's/\*xs\+\+ = r\[4\]/*xs++ = r[5]/; s/\*ys\+\+ = r\[5\];\n/*ys++ = r[4];\n/' routes
broken routes-written-x-for-y fast_library.c 's/\*xs\+\+, \*ys\+\+\}/*ys++, *xs++}/' routes
broken routes-none-as-point fast_library.c 's/\{5, nets\[n\]\}/{4, nets[n]}/' routes
broken routes-none-as-one-point fast_library.c 's/\*counts\+\+ = 0;/*counts++ = r[0] == 5;/' routes
broken routes-x-in-7-bits fast_library.c 's/\*xs\+\+ = r\[4\]/*xs++ = r[4] \& 127/' routes

# route files: what is refused in reading
broken routes-eleven-unread fast_library.c 's/if \(file_len % 8 != 0\)/if (0)/' routes
broken routes-eleven-after-13 fast_library.c 's/if \(file_len % 8 != 0\)/if (file_len % 8 != 0 \&\& (file_len < 8 || file[0] == 4 || file[0] == 5))/' routes
broken routes-type-3-known fast_library.c 's/r\[0\] != 4 && r\[0\] != 5/r[0] < 3 || r[0] > 5/' routes
broken routes-type-6-known fast_library.c 's/r\[0\] != 4 && r\[0\] != 5/r[0] < 4 || r[0] > 6/' routes
broken routes-22-before-13 fast_library.c 's/(        if \(r\[0\] != 4.*?0\);\n)(.*?)(        if \(r\[1\] == 0.*?0\);\n)/$3$1$2/s' routes
broken routes-22-before-23 fast_library.c 's/(        for \(size_t k = r\[0\] == 4.*?k\);\n)(        if \(r\[1\] == 0.*?0\);\n)/$2$1/s' routes
broken routes-23-before-13 fast_library.c 's/(        if \(r\[0\] != 4.*?0\);\n)(        for \(size_t k = r\[0\] == 4.*?k\);\n)/$2$1/s' routes
broken routes-byte-7-unread fast_library.c 's/\? 6 : 2; k < 8/? 6 : 2; k < 7/' routes
broken routes-byte-6-unread fast_library.c 's/\? 6 : 2; k < 8/? 7 : 2; k < 8/' routes
broken routes-none-as-free-as-point fast_library.c 's/\? 6 : 2; k < 8/? 6 : 6; k < 8/' routes
broken routes-highest-byte-named fast_library.c 's/for \(size_t k = r\[0\] == 4 \? 6 : 2; k < 8; k\+\+\)/for (size_t k = 7; k > (r[0] == 4 ? 5 : 1); k--)/' routes
broken routes-byte-lost fast_library.c 's/\(23, i, k\)/(23, i, 0)/' routes
broken routes-13-second-place fast_library.c 's/\(13, i, 0\)/(13, i, i)/' routes
broken routes-net-0 fast_library.c 's/r\[1\] == 0 \|\| r\[1\] < last/r[1] < last/' routes
broken routes-net-falls fast_library.c 's/r\[1\] == 0 \|\| r\[1\] < last/r[1] == 0/' routes
broken routes-net-goes-on-refused fast_library.c 's/r\[1\] < last \|\|/r[1] <= last ||/' routes
broken routes-first-place-any fast_library.c 's/place != \(r\[1\] == last \? next : 0\)/(r[1] == last \&\& place != next)/' routes
broken routes-later-place-any fast_library.c 's/place != \(r\[1\] == last \? next : 0\)/place != (r[1] == last ? place : 0)/' routes
broken routes-place-skipped fast_library.c 's/place != \(r\[1\] == last \? next : 0\)/(r[1] == last ? place < next : place != 0)/' routes
broken routes-place-again fast_library.c 's/place != \(r\[1\] == last \? next : 0\)/(r[1] == last ? place > next || next == SIZE_MAX : place != 0)/' routes
broken routes-point-0-after-none fast_library.c 's/: SIZE_MAX;/: 0;/' routes
broken routes-point-1-after-none fast_library.c 's/: SIZE_MAX;/: 1;/' routes
broken routes-none-after-point fast_library.c 's/place != \(r\[1\] == last \? next : 0\)/place != (r[1] == last \&\& (r[0] == 4 || next == SIZE_MAX) ? next : 0)/' routes
broken routes-record-from-1 fast_library.c 's/\(22, i, 0\)/(22, i + 1, 0)/' routes
broken routes-last-record-unread fast_library.c 's/i < file_len \/ 8; i\+\+\) \{\n(\s+const uint8_t \*r = file)/i + 1 < file_len \/ 8; i++) {\n$1/' routes
broken routes-empty-refused fast_library.c 's/file_len % 8 != 0/file_len % 8 != 0 || file_len == 0/' routes
broken routes-8192-bytes fast_library.c 's/file_len % 8 != 0/file_len % 8 != 0 || file_len > 8192/' routes
broken routes-nets-exact fast_library.c 's/nets_len < answer\.nets/nets_len <= answer.nets/' routes
broken routes-counts-unjudged fast_library.c 's/counts_len < answer\.nets/nets_len < answer.nets/' routes
broken routes-points-exact fast_library.c 's/xs_len < answer\.points/xs_len <= answer.points/' routes
broken routes-y-unjudged fast_library.c 's/ys_len < answer\.points/xs_len < answer.points/' routes
broken routes-room-for-all-records fast_library.c 's/ys_len < answer\.points/ys_len < file_len \/ 8/' routes
broken routes-short-as-19 fast_library.c 's/refused_routes\(21, 0, 0\)/refused_routes(19, 0, 0)/' routes
broken routes-sizes-with-22 fast_library.c 's/return refused_routes\(22, i, 0\);/return (struct wexxolin_read_routes){22, i, 0, 0, answer.points};/' routes

# route files: what is refused in writing
broken routes-equal-net-written fast_library.c 's/if \(nets\[n\] <= last\)/if (nets[n] < last || nets[n] == 0)/' routes
broken routes-net-0-written fast_library.c 's/if \(nets\[n\] <= last\)/if (nets[n] <= last \&\& n > 0)/' routes
broken routes-longest-refused fast_library.c 's/count > 65536/count >= 65536/' routes
broken routes-longer-written fast_library.c 's/count > 65536/count > 65537/' routes
broken routes-net-named fast_library.c 's/\{22, records \+ 65536, 0, 0\}/{22, records, 0, 0}/' routes
broken routes-last-good-named fast_library.c 's/\{22, records \+ 65536, 0, 0\}/{22, records + 65535, 0, 0}/' routes
broken routes-index-named fast_library.c 's/\{22, records, 0, 0\}/{22, n, 0, 0}/' routes
broken routes-none-takes-no-room fast_library.c 's/records \+= count == 0 \? 1 : count/records += count/' routes
broken routes-21-before-22 fast_library.c 's/(    size_t records = 0, points = 0;\n)/$1    if (counts_len < nets_len)\n        return (struct wexxolin_write_routes){21, 0, 0, 0};\n/' routes
broken routes-file-exact fast_library.c 's/file_len < 8 \* records/file_len <= 8 * records/' routes
broken routes-file-a-record-short fast_library.c 's/file_len < 8 \* records/file_len + 8 < 8 * records/' routes
broken routes-file-a-byte-short fast_library.c 's/file_len < 8 \* records/file_len + 1 < 8 * records/' routes
broken routes-written-y-unjudged fast_library.c 's/xs_len < points \|\| ys_len < points/xs_len < points/' routes
broken routes-records-lost fast_library.c 's/\{0, 0, 0, records\}/{0, 0, 0, points}/' routes

# route files: what is written, and what is touched
broken routes-nets-beyond fast_library.c 's/(    return answer;\n\}\n\nstruct wexxolin_write_routes)/    if (nets_len > answer.nets) *nets = 0;\n$1/' routes
broken routes-file-beyond fast_library.c 's/(    return \(struct wexxolin_write_routes\)\{0)/    if (file_len > 8 * records) *file = 0;\n$1/' routes
broken routes-written-with-21 fast_library.c 's/(        return refused_routes\(21)/        { if (nets_len) *nets = file[1];\n$1/; s/(refused_routes\(21, 0, 0\);)/$1 }/' routes
broken routes-written-with-22 fast_library.c 's/(        if \(nets\[n\] <= last\))/        if (n == 1 \&\& file_len) *file = 5;\n$1/' routes
broken routes-read-behind fast_library.c 's/(    size_t next = 0;)/    (void)((const volatile uint8_t *)file)[file_len];\n$1/' routes
broken routes-read-before fast_library.c 's/(    size_t next = 0;)/    (void)((const volatile uint8_t *)file)[-1];\n$1/' routes
broken routes-count-read-behind fast_library.c 's/n < counts_len \? counts\[n\] : 0/((const volatile size_t *)counts)[n]/' routes

# paths into points
broken points-width-64 fast_library.c 's/(wexxolin_path_points\(.*?)width - 1 > LARGEST_SIDE - 1/$1width - 1 > LARGEST_SIDE/s' routes
broken points-width-0 fast_library.c 's/(wexxolin_path_points\(.*?)width - 1 > LARGEST_SIDE - 1/$1width > LARGEST_SIDE/s' routes
broken points-y-63-refused fast_library.c 's/\(width \+ 1\) > LARGEST_SIDE\)/(width + 1) >= LARGEST_SIDE)/' routes
broken points-y-64 fast_library.c 's/\(width \+ 1\) > LARGEST_SIDE\)/(width + 1) > LARGEST_SIDE + 1)/' routes
broken points-by-width fast_library.c 's/path\[i\] % \(width \+ 1\)/path[i] % width/' routes
broken points-exchanged fast_library.c 's/path\[i\] % \(width \+ 1\)\);/path[i] \/ (width + 1));/; s/(ys\[i\] = .*?)path\[i\] \/ \(width/$1path[i] % (width/' routes
broken points-21-before-4 fast_library.c 's/(    for \(size_t i = 0; i < path_len; i\+\+\)\n.*?\{4, 0, 0\};\n)(    if \(xs_len < path_len.*?;\n)/$2$1/s' routes
broken points-exact-refused fast_library.c 's/ys_len < path_len/ys_len <= path_len/' routes
broken points-y-unjudged fast_library.c 's/xs_len < path_len \|\| ys_len < path_len/xs_len < path_len/' routes

# lengths and numbers cut to fewer bits
broken cells-length-in-32-bits fast.c 's/cells_len != width/(uint32_t)cells_len != width/' far
broken cells-length-in-16-bits fast.c 's/cells_len != width/(uint16_t)cells_len != width/' far
broken g-length-in-32-bits fast.c 's/g_len < count/(uint32_t)g_len < count/' far
broken parents-length-in-32-bits fast.c 's/parents_len < count/(uint32_t)parents_len < count/' far
broken parents-length-in-31-bits fast.c 's/parents_len < count/(parents_len \& 0x7fffffff) < count/' far
broken marks-length-in-16-bits fast.c 's/marks_len < count/(uint16_t)marks_len < count/' far
broken legs-length-in-32-bits fast.c 's/legs_len < count/(uint32_t)legs_len < count/' far
broken path-length-in-32-bits fast.c 's/needed > path_len/needed > (uint32_t)path_len/' far
broken g-length-as-int fast.c 's/g_len < count/(int)g_len < (int)count/' far
broken job-length-in-32-bits fast_library.c 's/length > 8192 \|\|/(uint32_t)length > 8192 ||/' far
broken board-length-in-32-bits fast_library.c 's/board_len < count/(uint32_t)board_len < count/' far
broken index-in-32-bits fast_library.c 's/index >= job/(uint32_t)index >= job/' far
broken width-in-32-bits fast.c 's/width - 1 > LARGEST_SIDE - 1/(uint32_t)width - 1 > LARGEST_SIDE - 1/' far
broken height-in-8-bits fast.c 's/height - 1 > LARGEST_SIDE - 1/(uint8_t)(height - 1) > LARGEST_SIDE - 1/' far
broken start-in-32-bits fast.c 's/ax > width/(uint32_t)ax > width/' far
broken goal-signed fast.c 's/by > height/(int64_t)by > (int64_t)height/' far
broken ends-in-63-bits fast_library.c 's/\(bx \| by\) > 63/(bx | by) << 1 > 126/' far
broken far-end-cleared fast.c 's/(    struct slices to = )/    if (marks_len >> 32) marks[marks_len - 1] = 0;\n$1/' far
broken packed-length-in-32-bits fast_library.c 's/packed_len != row/(uint32_t)packed_len != row/' far
broken packed-cells-length-in-32-bits fast_library.c 's/(answer\.number == 0 && )cells_len </$1(uint32_t)cells_len </' far
broken packed-writer-cells-in-16-bits fast_library.c 's/if \(cells_len != width/if ((uint16_t)cells_len != width/' far
broken packed-slice-length-in-32-bits fast_library.c 's/packed_len < \(width/(uint32_t)packed_len < (width/' far
broken packed-width-in-32-bits fast_library.c 's/width - 1 > LARGEST_SIDE - 1/(uint32_t)width - 1 > LARGEST_SIDE - 1/' far
broken packed-height-in-8-bits fast_library.c 's/height - 1 > LARGEST_SIDE - 1/(uint8_t)(height - 1) > LARGEST_SIDE - 1/' far
broken packed-far-end-cleared fast_library.c 's/(    for \(size_t y = 0; y < height; y\+\+, cells \+= width\))/    if (cells_len >> 32) cells[cells_len - 1] = 0;\n$1/' far
broken line-slice-in-32-bits fast_library.c 's/pen\.length > out_len/pen.length > (uint32_t)out_len/' far
broken line-path-in-32-bits fast_library.c 's/i < path_len && pen/i < (uint32_t)path_len \&\& pen/' far
broken routes-file-length-in-32-bits fast_library.c 's/i < file_len \/ 8; i\+\+\) \{\n(\s+const uint8_t \*r = file)/i < (uint32_t)file_len \/ 8; i++) {\n$1/' far
broken routes-nets-length-in-32-bits fast_library.c 's/nets_len < answer\.nets/(uint32_t)nets_len < answer.nets/' far
broken routes-counts-length-in-16-bits fast_library.c 's/counts_len < answer\.nets/(uint16_t)counts_len < answer.nets/' far
broken routes-points-length-in-31-bits fast_library.c 's/xs_len < answer\.points/(xs_len \& 0x7fffffff) < answer.points/' far
broken routes-slice-length-in-32-bits fast_library.c 's/file_len < 8 \* records/(uint32_t)file_len < 8 * records/' far
broken routes-written-nets-in-32-bits fast_library.c 's/(size_t records = 0, points = 0;\n)/$1    nets_len = (uint32_t)nets_len;\n/' far
broken routes-count-in-32-bits fast_library.c 's/size_t count = n < counts_len/uint32_t count = n < counts_len/' routes
broken points-width-in-32-bits fast_library.c 's/(wexxolin_path_points\(.*?)width - 1 > LARGEST_SIDE - 1/$1(uint32_t)width - 1 > LARGEST_SIDE - 1/s' far
broken points-length-in-32-bits fast_library.c 's/xs_len < path_len/(uint32_t)xs_len < path_len/' far
broken points-path-in-32-bits fast_library.c 's/(wexxolin_path_points\(.*?\n\{\n)/$1    path_len = (uint32_t)path_len;\n/s' far

# the check of routes
broken check-file-net-passes fast_library.c 's/\(nets\[n\]\.net != 0\) != \(parts\[n\]\.count != 0\)/nets[n].net != 0 \&\& parts[n].count == 0/' check
broken check-missing-net-passes fast_library.c 's/\(nets\[n\]\.net != 0\) != \(parts\[n\]\.count != 0\)/nets[n].net == 0 \&\& parts[n].count != 0/' check
broken check-start-unjudged fast_library.c 's/first\[4\] != net\.sx \|\| first\[5\] != net\.sy \|\| //' check
broken check-goal-unjudged fast_library.c 's/ \|\| last\[4\] != net\.gx \|\| last\[5\] != net\.gy//' check
broken check-x-off-passes fast_library.c 's/r\[4\] > width \|\| //' check
broken check-y-off-passes fast_library.c 's/ \|\| r\[5\] > height\)/)/' check
broken check-26-place-lost fast_library.c 's/\{26, net\.net, \(uint64_t\)\(r - first\) \/ 8/{26, net.net, 0/' check
broken check-last-leg-unasked fast_library.c 's/r < last; r \+= 8\) \{/r + 8 < last; r += 8) {/' check
broken check-zero-leg-passes fast_library.c 's/\(r\[4\] == to\[4\] && r\[5\] == to\[5\]\) \|\| //' check
broken check-sight-unasked fast_library.c 's/ \|\|\n            !fast_sight\(.*?\)\.sight\)/)/s' check
broken check-pinched-passes fast_library.c 's/to < last && is_pinched/0 \&\& is_pinched/' check
broken check-pinched-goal-refused fast_library.c 's/to < last && is_pinched/is_pinched/' check
broken check-27-second-vertex fast_library.c 's/\{27, net\.net, \(uint64_t\)\(r - first\)/{27, net.net, (uint64_t)(to - first)/' check
broken check-none-believed fast_library.c 's/\.number != 8\)/.number == 77)/' check
broken check-legs-as-points fast_library.c 's/\(uint32_t\)\(parts\[n\]\.count - 1\)/(uint32_t)parts[n].count/' check
broken check-legs-slice-unjudged fast_library.c 's/ \|\| legs_len < vertices//' check
broken check-counts-slice-unjudged fast_library.c 's/ \|\| leg_counts_len < read\.nets//' check
broken check-cells-not-left fast_library.c 's/    memcpy\(board, cells, count\);\n//' check
broken check-units-length-in-32-bits fast_library.c 's/units_len < read\.nets/(uint32_t)units_len < read.nets/' far

# any angle
broken angles-neighbour-edge fast.c 's/\(sw & nw\) \* W/(sw | nw) * W/' angles
broken angles-diagonal-squeeze fast.c 's/\(nw & ne\) \* N \| ne \* NE/(nw \& ne) * N | (ne | (nw \& se)) * NE/' angles
broken angles-pinched-neighbour fast.c 's/is_pinched\(byte\) && n != t->goal/0/' angles
broken angles-pinched-goal-forbidden fast.c 's/is_pinched\(byte\) && n != t->goal/is_pinched(byte)/' angles

# the stack
broken stack-two-kib-more fast.c 's/(    struct slices to = )/    volatile uint8_t more[2048]; more[0] = 1;\n$1/' stack

# the program
broken_program program-cuts-at-8192 lines.c 's/job\[8193\]/job[8192]/'
broken_program program-without-last-newline lines.c 's/text\.length, stdout/text.length - 1, stdout/'
broken_program program-killed lines.c 's/return 0;/return text.length > 400 ? *(volatile int *)0 : 0;/'
broken_program program-equal-nets second.c 's/r\[1\] <= job->last_net/r[1] < job->last_net/'
broken_program program-keepout-after-net second.c 's/r\[0\] == TYPE_KEEPOUT && job->nets > 0/r[0] == TYPE_KEEPOUT \&\& job->nets > 1/'
broken_program program-byte-7-unread second.c 's/byte = 1; byte < 8; byte\+\+/byte = 1; byte < 7; byte++/'
broken_program program-goal-unjudged second.c 's/ \|\| r\[5\] > job->height;\n\}/;\n}/'
broken_program program-refusals-exchanged second.c 's/(    if \(is_13\(r\)\).*?return refuse\(13, record\);\n)(.*?return refuse\(12, record\);\n)/$2$1/s'

echo "$found found, $unfound unfound"
[ "$unfound" = 0 ]
