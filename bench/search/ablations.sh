#!/usr/bin/env bash
# What each mechanism of the search is worth: times search_bench on files of clauses (crates/search_bench/src/reading.rt has
# their form), once with all mechanisms and once for each switch that leaves one out, and prints a table in Markdown: seconds
# of processor time, and conflicts. A verdict that differs is an error.
#
#     bench/search/ablations.sh FILE ..
#
# LIMIT is the limit of seconds of processor time for each run, 20 if it isn't set. PROGRAM is the program that is run, if it isn't the proved
# one: bench/native builds the same search in seconds.
set -u
top=$(cd "$(dirname "$0")/../.." && pwd)
limit=${LIMIT:-20}
switches=(--no-distances --no-new-literals --no-restarts --no-minimization --no-saved-phases --no-forgetting --pure-in-net --no-ladders)
ours=${PROGRAM:-$top/crates/search_bench/out/search_bench}
if [ -z "${PROGRAM:-}" ]; then
    (cd "$top/crates/search_bench" && rt run > /dev/null 2>&1 < /dev/null) || exit 1
fi
out=$(mktemp) && spent=$(mktemp)
trap 'rm -f "$out" "$spent"' EXIT
wrong=0
printf '| File | all |' && printf ' %s |' "${switches[@]}" && echo
printf '|---|---|' && printf '%s' "${switches[@]/*/---|}" && echo
for file in "$@"; do
    row="| $(basename "$file" .txt) |"
    first=""
    for switch in "" "${switches[@]}"; do
        # shellcheck disable=SC2086
        (ulimit -t "$limit" && exec /usr/bin/time -q -o "$spent" -f "%U" "$ours" $switch) < "$file" > "$out" 2>&1
        verdict=$(head -1 "$out")
        conflicts=$(grep -o 'conflicts=[0-9]*' "$out" | cut -d= -f2)
        if [ -z "$verdict" ]; then
            row+=" stopped |"
        else
            row+=" $(tail -1 "$spent"), $conflicts |"
            first=${first:-$verdict}
            [ "$verdict" = "$first" ] || { wrong=1 && row+=" VERDICTS DIFFER |"; }
        fi
    done
    echo "$row"
done
exit "$wrong"
