#!/bin/sh
# Times `tinyr1cs check` against check.rs, plain Rust as fast as one thread can, on systems of 1, 3, 9, 128, 2,000 and
# 1,000,000 terms a combination, of 23 to 36 MB each, and on one with nine terms a constraint; then prints the most memory
# that both held there, and on a system of twice the size. usage: bench/check.sh [ROUNDS]
set -eu

rounds=${1:-51}
bench=$(dirname -- "$(realpath -- "$0")")
folder=$(mktemp -d)
trap 'rm -rf "$folder"' EXIT
rustc --edition 2024 -O -C target-cpu=x86-64-v2 -o "$folder/check.rs" "$bench/check.rs"
example=$bench/../examples/sum
"$bench/../bin/tinyr1cs" run "$example.asm" "$example.tape" /dev/null 1000 > /dev/null
ln -s "$(realpath -- "$bench/../crates/tinyr1cs/out/tinyr1cs")" "$folder/tinyr1cs"

# The system of this many constraints, in a folder of its own, with this many terms a combination where they are said.
make() {
    mkdir "$folder/$1"
    cd "$folder/$1"
    "$bench/make_system.py" . "$2" ${3:+"$3"}
}

timed() {
    "$bench/compare.py" "$rounds" "$folder/tinyr1cs" "$folder/check.rs" -- check system.r1cs witness.wtns public.tape
}

for system in 1:500000 3:200000 9:70000 128:5000 2000:320 1000000:1; do
    terms=${system%:*}
    echo "terms a combination: $terms"
    make "$terms" "${system#*:}" "$terms"
    timed
    rm -r "${folder:?}/$terms"
done
echo "nine terms a constraint"
make once 200000
timed
make twice 400000
for size in once twice; do
    cd "$folder/$size"
    wires=$(($(stat -c %s witness.wtns) / 8))
    for program in tinyr1cs check.rs; do
        /usr/bin/time -f %M -o memory "$folder/$program" check system.r1cs witness.wtns public.tape > answer
        echo yes | cmp - answer
        echo "$program: $(cat memory) KiB at most, $((8 * wires / 1024)) KiB of them values"
    done
done
