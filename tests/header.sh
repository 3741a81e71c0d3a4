#!/bin/sh
# header.sh: include/wexxolin.h compiles without a warning as C99, C11 and C++17, alone and twice, and the C example with it;
# header and library have the same version and the same symbols; the library calls only what the header says; what was built with another
# edition of a call does not link.
set -eu
. "$(dirname "$0")/settings.sh"
cxx=${CXX:-$(echo "$CC" | sed 's/gcc$/g++/')}
strict="-Wall -Wextra -pedantic -Werror -fsyntax-only -I $root/include"
cat >"$OUT/header.c" <<'END'
#include "wexxolin.h"
#include "wexxolin.h"
const char *text(void);
const char *text(void) { return wexxolin_text(WEXXOLIN_NO_PATH); }
END
printf '#include "wexxolin.h"\n' >"$OUT/header-alone.c"
for language in "$CC -std=c99 -x c" "$CC -std=c11 -x c" "$cxx -std=c++17 -x c++"; do
    $language $strict "$OUT/header.c"
    $language $strict "$OUT/header-alone.c"
done
$CC -std=c99 $strict "$root/examples/route.c"
$CC -std=c11 $strict "$root/examples/route.c"

# A struct of another length than the library's must not compile.
sed 's/number, place, second, sight, kind/number, place, second, kind/' "$root/include/wexxolin.h" >"$OUT/header-short.c"
if $CC -std=c11 -fsyntax-only "$OUT/header-short.c" 2>/dev/null; then
    echo "a header with a struct too short compiles" >&2
    exit 1
fi
echo "the header compiles without a warning as C99, C11 and C++17"

# C++ calls the library as C does; header and library say the same version, as a number and in words.
cat >"$OUT/version.cc" <<'END'
#include "wexxolin.h"
#include <stdio.h>
#include <string.h>
int main()
{
    char words[32];
    wexxolin_length_answer leg = wexxolin_length(3, 4);
    snprintf(words, sizeof words, "%d.%d.%d", WEXXOLIN_MAJOR, WEXXOLIN_MINOR, WEXXOLIN_PATCH);
    return wexxolin_version() != WEXXOLIN_VERSION || strcmp(words, WEXXOLIN_VERSION_TEXT) != 0
        || leg.units != 5 * WEXXOLIN_UNITS_PER_CELL;
}
END
# Linked by the C compiler, since it uses nothing of the C++ library: a cross compiler may have none to link with.
$cxx -std=c++17 -Wall -Wextra -I "$root/include" -c -o "$OUT/version.o" "$OUT/version.cc"
$CC -o "$OUT/version" "$OUT/version.o" $LIBRARY $LINK
$RUN "$OUT/version" || { echo "header and library are not of the same version" >&2; exit 1; }

# The header declares what the library exports, each call by its edition.
"$root/tests/editions.py" >"$OUT/declared"
$(echo "$CC" | sed 's/gcc$/nm/') -g --defined-only $LIBRARY 2>/dev/null | sed -n 's/^.* T \(wexxolin_.*\)/\1/p' | sort >"$OUT/exported"
diff "$OUT/declared" "$OUT/exported" || { echo "the header declares other symbols than the library exports" >&2; exit 1; }

# It calls nothing of the C library but what the header says.
if $(echo "$CC" | sed 's/gcc$/nm/') -u $LIBRARY 2>/dev/null | sed -n 's/^ *U //p' | grep -vx -e memset -e memcpy >"$OUT/called"; then
    echo "the library calls more than memset and memcpy: $(tr '\n' ' ' <"$OUT/called")" >&2
    exit 1
fi

# An object of another edition of the route call must not link.
mkdir -p "$OUT/older"
sed 's/(wexxolin_route_[0-9]*)/(wexxolin_route_0)/' "$root/include/wexxolin.h" >"$OUT/older/wexxolin.h"
if $CC -std=c11 -I "$OUT/older" -o "$OUT/older/example" "$root/examples/route.c" $LIBRARY $LINK 2>"$OUT/older/errors"; then
    echo "an object that was built with another edition links" >&2
    exit 1
fi
grep -q 'undefined reference to .wexxolin_route_0' "$OUT/older/errors"
echo "header and library have the same version and the same editions"
