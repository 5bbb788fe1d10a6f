#!/usr/bin/env bash
# Times `assemble` on a text with many labels and on one without any against asm.rs, an assembler in plain Rust.
# It needs rustc.
# usage: bench/asm.sh [ROUNDS]
set -euo pipefail
bench=$(cd "$(dirname "$0")" && pwd)
. "$bench/scratch.sh"
prove asm tv_asm
rustc --edition 2024 -O -C target-cpu=x86-64-v2 -o "$scratch/plain" "$bench/asm.rs"
for text in labels numbers; do
    "$bench/make_text.py" "$text" > "$scratch/$text"
    echo "$text: $(wc -c < "$scratch/$text") bytes"
    "$bench/compare.py" "${1:-21}" "$scratch/proved" "$scratch/plain" -- "$scratch/$text"
done
