#!/usr/bin/env bash
# Times a network of 2^18 and of 2^20 items into a sink that counts and into one that forgets, the values of its wires,
# and its settings, these against networks.rs, the same in plain Rust; and prints the most memory that each held. Before
# each it prints the part, k, how many switches there were, and a sum. It needs rustc.
# usage: bench/networks.sh [ROUNDS]
set -euo pipefail
bench=$(cd "$(dirname "$0")" && pwd)
. "$bench/scratch.sh"
proofs=$scratch/crates/networks/proofs
mkdir -p "$proofs"/{power,ForgettingSink/fresh,ForgettingSink/put}
cp "$bench/networks_proofs/power.answers" "$proofs/power/Answers.antt"
for function in fresh put; do
    cp "$bench/networks_proofs/$function.answers" "$proofs/ForgettingSink/$function/Answers.antt"
done
prove networks tv_benes tv_core tv_lines tv_route
rustc --edition 2024 -O -C target-cpu=x86-64-v2 -o "$scratch/plain" "$bench/networks.rs"
for k in 18 20; do
    for part in count forget fill route; do
        "$scratch/proved" "$part" "$k"
        programs=("$scratch/proved")
        if [ "$part" = route ]; then programs+=("$scratch/plain"); fi
        "$bench/compare.py" "${1:-9}" "${programs[@]}" -- "$part" "$k"
        for program in "${programs[@]}"; do
            "$(type -P time)" -f "$(basename "$program") held %M KiB at most" "$program" "$part" "$k" > /dev/null
        done
    done
done
