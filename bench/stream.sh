#!/usr/bin/env bash
# Times a StreamSink against stream.rs, a writer of the same constraints in plain Rust: with a buffer of 4,096 bytes,
# which a term is written to as two numbers or put together first, and with one of 65,536; over files that forget
# their bytes, and over the disk. Constraints have combinations of 3 terms, or of 96. It needs rustc.
# usage: bench/stream.sh [ROUNDS]
set -euo pipefail
bench=$(cd "$(dirname "$0")" && pwd)
. "$bench/scratch.sh"
mkdir -p "$scratch/crates/stream/proofs/put_all"
cat > "$scratch/crates/stream/proofs/put_all/Invariants.antt" <<'END'
use Rattle.tv_core.specs.Sinks.{Grows}
use Rattle.stream.proofs.put_all.Given as goal

abbrev pub invariant-loop-turn : goal.invariant-loop-turn
invariant-loop-turn g l = Grows g.S.Sink.meaning l.initial.sink l.sink 0 l._turn
END
prove stream tv_core tv_disk tv_files tv_r1cs_write tv_word
plain=(rustc --edition 2024 -O -C target-cpu=x86-64-v2 --check-cfg 'cfg(large, together)' "$bench/stream.rs")
"${plain[@]}" -o "$scratch/small"
"${plain[@]}" --cfg large -o "$scratch/large"
"${plain[@]}" --cfg together -o "$scratch/together"
for row in narrow wide; do
    "$scratch/proved" "$row" "$scratch/one"
    "$scratch/small" "$row" "$scratch/two"
    cmp "$scratch/one" "$scratch/two"
    echo "$row, forgotten: $("$scratch/proved" "$row")"
    "$bench/compare.py" "${1:-21}" "$scratch"/{proved,large,together,small} -- "$row"
    echo "$row, on the disk: $(stat -c %s "$scratch/one") bytes"
    "$bench/compare.py" "${1:-21}" "$scratch"/{proved,large,together,small} -- "$row" "$scratch/one"
done
