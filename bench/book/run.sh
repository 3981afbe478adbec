#!/usr/bin/env bash
# Times the calls of a book that grows to 10,000 divided cubes, ten times over, and to 100,000, each with a lemma
# (crates/book_bench/src/main.rt). It prints, and asserts nothing: where the last column is the same in both lines, a call
# costs the same in a large book as in a small one.
set -u
top=$(cd "$(dirname "$0")/../.." && pwd)
(cd "$top/crates/book_bench" && rt run > /dev/null 2>&1) || exit 1
program=$top/crates/book_bench/out/book_bench
spent=$(mktemp) && printed=$(mktemp)
trap 'rm -f "$spent" "$printed"' EXIT
for size in "10000 10" "100000 1"; do
    read -r count runs <<< "$size"
    /usr/bin/time -q -o "$spent" -f "%U %S %M" bash -c 'for _ in $(seq "$1"); do echo "$2" | "$3"; done' _ "$runs" "$count" "$program" > "$printed" || exit 1
    seconds=$(awk '{ print $1 + $2 }' "$spent") && kilobytes=$(awk '{ print $3 }' "$spent")
    awk -v seconds="$seconds" -v kilobytes="$kilobytes" -F 'events=' '
        { calls += $2; line = $0 }
        END { printf "%s  %d K  %.2f s for %d calls, %.2f us each\n", line, kilobytes, seconds, calls, seconds * 1e6 / calls }
    ' "$printed"
done
