#!/usr/bin/env bash
# Prints how many constraints of each gadget of words go into a sink that counts and into one that tests, and how
# many values its generator assigns to a list, each a second: the best of TURNS turns, five where none are
# said.
# usage: bench/words.sh [TURNS]
set -euo pipefail
bench=$(cd "$(dirname "$0")" && pwd)
. "$bench/scratch.sh"
prove words tv_bits tv_cmp tv_core tv_limb tv_logic tv_muldiv tv_shift
for ((turn = 0; turn < ${1:-5}; turn++)); do
    "$scratch/proved"
done | awk '
    # gadget, what was done, how many, microseconds, a sum that nothing is said of
    { key = $1 " " $2; if (!(key in least)) order[++keys] = key }
    !(key in least) || $4 < least[key] { least[key] = $4; many[key] = $3 }
    END { for (i = 1; i <= keys; i++) printf "%-20s %.1f million a second\n", order[i], many[order[i]] / least[order[i]] }'
