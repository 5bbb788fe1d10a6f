#!/usr/bin/env bash
# Times `tinyr1cs build` on programs/rounds.asm for the given numbers of steps, else for 1,024, 65,536 and 262,144, and
# for 0 and 1,000 public words, unless WORDS says others: onto /dev/null, which forgets all that it gets, and, where a
# system has no more bytes than MOST, 11,000,000,000 where nothing else is said, onto the disk. Beside the second stand
# the verdict of check.rs, a program in plain Rust, on the file that was written, and a copy of the file, or of as much
# of it as MOST leaves room for, scaled; then `check` and `extract` on it too. Of ROUNDS runs of each, 3 where nothing
# else is said, it reports the one that took the least processor time, user and system together. It prints rows of the
# tables in README.md.
# usage: bench/build.sh [STEPS ..]
set -euo pipefail

bench=$(cd "$(dirname "$0")" && pwd)
. "$bench/takes.sh"

# A number of this many bytes at a place of a file, the lowest first.
number_at() {
    od -A n -t "u$2" -j "$3" -N "$2" "$1" | tr -d ' '
}

# The counts of a system, from the front of its file: $bytes, $wires and $constraints.
read_front() {
    wires=$(number_at "$1" 4 36)
    constraints=$(number_at "$1" 4 60)
    bytes=$((88 + $(number_at "$1" 8 68) + 8 * wires))
}

rustc --edition 2024 -O -C target-cpu=x86-64-v2 -o check.rs "$bench/check.rs"
mkfifo front.pipe
most=${MOST:-11000000000}
for steps in ${*:-1024 65536 262144}; do
    echo $(((steps - 5) / 8)) > rounds.aux
    for words in ${WORDS:-0 1000}; do
        # The front alone: the program's writing ends where nobody reads any more.
        (./tinyr1cs build "$rounds" "$words" "$steps" front.pipe > /dev/null 2>&1 || :) &
        head -c 76 front.pipe > front
        wait
        read_front front
        row="| $(number "$steps") | $(number "$words") | $(size "$bytes") | $(number "$constraints")"
        least ./tinyr1cs build "$rounds" "$words" "$steps" /dev/null
        echo "forgotten $row | $clock s | $processor s | $(per "$bytes" "$processor") | $(per "$constraints" "$processor") | $(number "$memory") KiB |"
        if [ "$bytes" -gt "$most" ]; then continue; fi
        least ./tinyr1cs build "$rounds" "$words" "$steps" system.r1cs
        [ "$(stat -c %s system.r1cs)" = "$bytes" ]
        build=$processor
        row="$row | $clock s | $build s | $(per "$bytes" "$build") | $(per "$constraints" "$build")"
        seq "$words" | tr '\n' ' ' > tape
        echo "0 $(cat tape)" > public
        ./tinyr1cs witness "$rounds" tape rounds.aux "$steps" witness.wtns
        least ./check.rs check system.r1cs witness.wtns public
        [ "$(cat said)" = yes ]
        plain=$processor
        row="$row | $plain s | $(ratio "$build" "$plain")"
        least ./tinyr1cs check system.r1cs witness.wtns public
        [ "$(cat said)" = yes ]
        checked="$processor s | $(ratio "$processor" "$plain") | $(number "$memory") KiB"
        least ./tinyr1cs extract "$rounds" "$words" "$steps" witness.wtns out.tape out.aux
        cmp -s rounds.aux out.aux
        echo "after it | $(number "$steps") | $(number "$words") | $checked | $processor s | $(number "$memory") KiB |"
        rm witness.wtns
        room=$((most - bytes))
        megabytes=$(((bytes < room ? bytes : room) / 1000000))
        least dd if=system.r1cs of=copy.r1cs bs=1MB count="$megabytes" status=none
        copy=$(scaled "$processor" "$bytes" $((megabytes * 1000000)))
        echo "on the disk $row | $copy s | $(ratio "$build" "$copy") |"
        rm system.r1cs copy.r1cs
    done
done
