#!/usr/bin/env bash
# Times the incremental network, whose values have 128 bits, beside the same algorithm in C++ with values of 64 and of
# 128 bits, where a C++ compiler is there. It prints, and asserts nothing: all print how many adds they made, and a sum
# of the schedule that must be the same.
#
#     bench/network/run.sh
set -u
top=$(cd "$(dirname "$0")/../.." && pwd)
(cd "$top/crates/network_bench" && rt run > /dev/null) || exit 1
programs=("$top/crates/network_bench/out/network_bench")
if command -v g++ > /dev/null; then
    built=$(mktemp -d)
    g++ -O2 -o "$built/cpp_64_bits" "$top/bench/network/network.cpp" && programs+=("$built/cpp_64_bits")
    g++ -O2 -DWIDE -o "$built/cpp_128_bits" "$top/bench/network/network.cpp" && programs+=("$built/cpp_128_bits")
fi
for words in "" search; do
    for program in "${programs[@]}"; do
        start=$(date +%s.%N)
        line=$("$program" $words)
        end=$(date +%s.%N)
        adds=$(echo "$line" | awk '{print $2}')
        awk -v a="$adds" -v s="$start" -v e="$end" -v n="$(basename "$program")" -v l="$line" \
            'BEGIN { printf "%-16s %5.2f s  %9.0f adds/s  %s\n", n, e - s, a / (e - s), l }'
    done
done
