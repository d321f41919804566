#!/bin/sh
# Runs the console over every list of calls in a folder and compares what it prints with the answers
# beside it, byte for byte.
#
# usage: tools/compare_console.sh DIR
#
# DIR has NAME.in, a list of calls, and NAME.out, its answers. The console is crates/console/out/console,
# or what CONSOLE names.
set -u

if [ $# -ne 1 ] || [ ! -d "$1" ]; then
    echo "usage: tools/compare_console.sh DIR" >&2
    exit 2
fi
lists=$1
console=${CONSOLE-$(dirname "$0")/../crates/console/out/console}
if [ ! -x "$console" ]; then
    echo "compare_console.sh: $console is not there: run 'rt run' in crates/console first" >&2
    exit 2
fi

printed=$(mktemp) || exit 2
trap 'rm -f "$printed"' EXIT

agree=0
differ=0
for list in "$lists"/*.in; do
    [ -f "$list" ] || continue
    name=$(basename "$list" .in)
    if ! "$console" <"$list" >"$printed"; then
        echo "differs: $name: the console failed"
        differ=$((differ + 1))
    elif difference=$(cmp "$printed" "${list%.in}.out" 2>&1); then
        agree=$((agree + 1))
    else
        echo "differs: $name: $difference"
        differ=$((differ + 1))
    fi
done
echo "$agree agree, $differ differ"
[ $differ -eq 0 ] && [ $agree -gt 0 ]
