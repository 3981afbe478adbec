#!/usr/bin/env bash
# Times the search on each file of clauses in a folder (crates/search_bench/src/reading.rt has their form), and beside it
# another program that takes such a file as its last word and begins what it prints with sat or unsat. It prints, and
# asserts nothing but that the verdicts agree; at the end the ratio of the times, as a geometric mean over the files where
# both took at least 10 ms and none was stopped.
#
#     bench/search/run.sh FOLDER [COMMAND WORD ..]
#
# LIMIT is the limit of seconds for each run, 60 if it isn't set.
set -u
top=$(cd "$(dirname "$0")/../.." && pwd)
folder=${1:?"a folder with files of clauses"}
shift
limit=${LIMIT:-60}
(cd "$top/crates/search_bench" && rt run > /dev/null 2>&1) || exit 1
ours=$top/crates/search_bench/out/search_bench
out=$(mktemp) && spent=$(mktemp) && rows=$(mktemp)
trap 'rm -f "$out" "$spent" "$rows"' EXIT
wrong=0
for file in "$folder"/*.txt; do
    /usr/bin/time -q -o "$spent" -f "%U %M" timeout "$limit" "$ours" < "$file" > "$out" 2>&1
    verdict=$(head -1 "$out") && numbers=$(sed -n 2p "$out")
    read -r seconds memory < <(tail -1 "$spent")
    line=$(printf "%-32s %-6s %8.2f s %8d K  %s" "$(basename "$file" .txt)" "${verdict:-none}" "$seconds" "$memory" "$numbers")
    if [ $# -gt 0 ]; then
        /usr/bin/time -q -o "$spent" -f "%U %M" timeout "$limit" "$@" "$file" > "$out" 2>&1
        other=$(head -1 "$out")
        read -r other_seconds other_memory < <(tail -1 "$spent")
        line+=$(printf "  |  %8.2f s %8d K  %s" "$other_seconds" "$other_memory" "$other")
        if [ -n "$verdict" ] && [ -n "$other" ]; then
            [ "$verdict" = "${other%% *}" ] || { wrong=1 && line+="  VERDICTS DIFFER"; }
            echo "$seconds $other_seconds" >> "$rows"
        fi
    fi
    echo "$line"
done
awk '$1 >= 0.01 && $2 >= 0.01 { sum += log($1 / $2); n++ } END { if (n) printf "%.2f of its time over %d files\n", exp(sum / n), n }' "$rows"
exit "$wrong"
