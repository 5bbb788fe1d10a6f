#!/usr/bin/env bash
# Prints how many constraints of a step go into a sink that counts and into one that tests, and how many terms into one
# that reads each and forgets it, each a second, at 32 and at 16 bits: the best of TURNS turns, five where none are
# said.
# usage: bench/step.sh [TURNS]
set -euo pipefail
bench=$(cd "$(dirname "$0")" && pwd)
. "$bench/scratch.sh"
for function in fresh put; do
    mkdir -p "$scratch/crates/step/proofs/ForgettingSink/$function"
    sed 's/Rattle.networks/Rattle.step/' "$bench/networks_proofs/$function.answers" \
        > "$scratch/crates/step/proofs/ForgettingSink/$function/Answers.antt"
done
prove step tv_block tv_core tv_word
for ((turn = 0; turn < ${1:-5}; turn++)); do
    "$scratch/proved"
done | awk '
    # width, what was done, how many, microseconds, a sum that nothing is said of
    { key = $1 " bits, " $2; if (!(key in least)) order[++keys] = key }
    !(key in least) || $4 < least[key] { least[key] = $4; many[key] = $3 }
    END { for (i = 1; i <= keys; i++) printf "%-20s %.1f million a second\n", order[i], many[order[i]] / least[order[i]] }'
