#!/usr/bin/env bash
# Times a thousand million dependent field multiplications, by tv_core and by plain Rust, in one run.
# It needs rustc.
set -euo pipefail
bench=$(cd "$(dirname "$0")" && pwd)
. "$bench/scratch.sh"
prove field tv_core
rustc -O -C target-cpu=x86-64-v2 -o "$scratch/plain" "$bench/field.rs"
TIMEFORMAT=%U
for turn in 1 2 3; do
    proved=$( { time "$scratch/proved" > "$scratch/proved.out"; } 2>&1)
    plain=$( { time "$scratch/plain" > "$scratch/plain.out"; } 2>&1)
    cmp "$scratch/proved.out" "$scratch/plain.out"
    echo "proved $proved s, plain $plain s, ratio $(awk "BEGIN { printf \"%.2f\", $proved / $plain }")"
done
