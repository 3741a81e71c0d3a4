#!/bin/sh
# page.sh [WORD]: makes the tables of docs/BENCH.md anew, or only those whose command has WORD in it. Each table stands in the page
# between a line '<!-- made by: COMMAND -->' and a line '<!-- end -->'.
set -eu
here=$(cd "$(dirname "$0")" && pwd)
cd "$here/.."
word=${1:-}
page=target/outside/BENCH.md
mkdir -p target/outside
skip=
while IFS= read -r line; do
    if [ "$line" = "<!-- end -->" ]; then skip=; fi
    [ -n "$skip" ] || printf '%s\n' "$line"
    case $line in
        "<!-- made by: "*"$word"*" -->")
            command=${line#"<!-- made by: "}
            ${command%" -->"} </dev/null
            skip=yes
            ;;
    esac
done < docs/BENCH.md > "$page"
cp "$page" docs/BENCH.md
