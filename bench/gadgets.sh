#!/usr/bin/env bash
# Times `bits` of 32 into a CountSink and a TestSink, and `value_in` of 128 terms, by tv_core and tv_bits
# and by plain Rust, in turn. It needs rustc.
set -euo pipefail
bench=$(cd "$(dirname "$0")" && pwd)
. "$bench/scratch.sh"
prove gadgets tv_bits tv_core
rustc -O -C target-cpu=x86-64-v2 -o "$scratch/plain" "$bench/gadgets.rs" 2> "$scratch/warnings"
for turn in 1 2 3 4 5 6 7 8 9; do
    "$scratch/proved" > "$scratch/proved.out"
    "$scratch/plain" > "$scratch/plain.out"
    cmp <(grep answers "$scratch/proved.out") <(grep answers "$scratch/plain.out")
    paste -d ' ' "$scratch/proved.out" "$scratch/plain.out" | grep -v answers
done | awk '
    # the least of nine turns, in microseconds
    !($1 in proved) || $2 < proved[$1] { proved[$1] = $2 }
    !($1 in plain) || $4 < plain[$1] { plain[$1] = $4 }
    END {
        printf "count: 6.6 million constraints in %d us, plain %d us\n", proved["count"], plain["count"]
        printf "test: %.1f million constraints a second, plain %.1f, ratio of times %.2f\n", 6.6e6 / proved["test"], 6.6e6 / plain["test"], proved["test"] / plain["test"]
        printf "value: %.0f million terms a second, plain %.0f, ratio of times %.2f\n", 2.56e8 / proved["value"], 2.56e8 / plain["value"], proved["value"] / plain["value"]
    }'
