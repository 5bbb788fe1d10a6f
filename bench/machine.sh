#!/usr/bin/env bash
# Times `Machine::run` on the images of bench/programs against machine.rs, an emulator in plain Rust, over two
# memories: pages in a BTreeMap, and a table of tables of pages, as tv_mem has them. It needs rustc.
# usage: bench/machine.sh [ROUNDS]
set -euo pipefail
bench=$(cd "$(dirname "$0")" && pwd)
. "$bench/scratch.sh"
prove machine tv_step tv_word
plain=(rustc --edition 2024 -O -C target-cpu=x86-64-v2 --check-cfg 'cfg(tables)' "$bench/machine.rs")
"${plain[@]}" -o "$scratch/map"
"${plain[@]}" --cfg tables -o "$scratch/tables"
for program in loop page sieve; do
    "$bench/../bin/tinyr1cs" asm "$bench/programs/$program.asm" "$scratch/image"
    echo "$program: $("$scratch/proved" "$scratch/image")"
    for plain in map tables; do
        "$bench/compare.py" "${1:-9}" "$scratch/proved" "$scratch/$plain" -- "$scratch/image"
    done
done
