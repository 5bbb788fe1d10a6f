#!/usr/bin/env bash
# Times `tinyr1cs witness` on programs/rounds.asm for the given numbers of steps, else for 1,024, 65,536 and 262,144,
# and for 0 and 1,000 public words, unless WORDS says others: onto /dev/null and onto the disk; beside them write.rs, a
# program in plain Rust that writes as many bytes from memory in pieces of as many, 4,096. Of ROUNDS runs, 3 where
# nothing else is said, it reports the one that took the least processor time, user and system together. Then, where
# there is `perf`, it reports how the time onto /dev/null is split: the machine's run, the sort of its lines, the
# settings, and the values of the steps, of the network and of the sorted lines. It prints rows of the tables in
# README.md.
# usage: bench/witness.sh [STEPS ..]
set -euo pipefail

bench=$(cd "$(dirname "$0")" && pwd)
. "$bench/takes.sh"

# Samples the program each quarter of a millisecond, and adds up the shares of functions by the part of the work that their
# path says. What is compiled into the command itself, the packing of lines among it, counts as writing.
split() {
    perf record -q -F 4000 -o samples -- "$@" > said
    perf report -q -i samples --stdio -F overhead,sym 2> /dev/null | awk '
        NF < 3 { next }
        { part = "others" }
        $3 ~ /^tv_(step|mem|isa|tape|word)::/ { part = "trace" }
        $3 ~ /sort|predecessors|address_order/ { part = "sort" }
        $3 ~ /^tv_route::/ { part = "route" }
        $3 ~ /^tv_(bits|limb|cmp|logic|shift|muldiv|decode|regs|block|numbers)::/ { part = "steps" }
        $3 ~ /^tv_(benes|waksman)::/ { part = "network" }
        $3 ~ /^tv_(argument::values|lines|scan)|fill_prefix/ { part = "lines" }
        $3 ~ /^(tv_plan|tv_top|tv_wtns|tv_container|tinyr1cs)::|write/ { part = "writing" }
        $2 == "[k]" { part = "system" }
        { shares[part] += $1 }
        END {
            count = split("trace sort route steps network lines writing system others", parts, " ")
            for (at = 1; at <= count; at++) printf "%s %.1f %%%s", parts[at], shares[parts[at]], at < count ? ", " : "\n"
        }
    '
}

rustc --edition 2024 -O -C target-cpu=x86-64-v2 -o write.rs "$bench/write.rs"
for steps in ${*:-1024 65536 262144}; do
    echo $(((steps - 5) / 8)) > rounds.aux
    for words in ${WORDS:-0 1000}; do
        seq "$words" | tr '\n' ' ' > tape
        # The text has 22 words.
        lines=2
        while [ "$lines" -lt $((22 + words + 3 * steps)) ]; do lines=$((2 * lines)); done
        least ./tinyr1cs witness "$rounds" tape rounds.aux "$steps" /dev/null
        forgotten="$clock s | $processor s"
        held=$memory
        least ./tinyr1cs witness "$rounds" tape rounds.aux "$steps" values.wtns
        bytes=$(stat -c %s values.wtns)
        values=$(((bytes - 52) / 8))
        written=$processor
        row="| $(number "$steps") | $(number "$words") | $(number "$lines") | $(size "$bytes") | $forgotten | $written s | $(per "$values" "$written")"
        least ./write.rs values.wtns "$bytes" 4096
        echo "$row | $processor s | $(ratio "$written" "$processor") | $(number "$held") KiB | $((1024 * held / lines)) |"
        rm values.wtns
        if command -v perf > /dev/null; then
            split ./tinyr1cs witness "$rounds" tape rounds.aux "$steps" /dev/null
        fi
    done
done
