#!/bin/bash
# The program without memory: of each command every allocation is refused in turn, once that one alone and once with
# all after it.
#
#     tests/refusals.sh [BINARY]
#
# The answer is then that of the unrefused run, with the same files; or status 9, `no memory` on standard error, at most
# a first part of the line said, and each name that is written holding a first part of what it should hold, or what it
# held. No other file changes, and after the refusal no file is opened, read or written. A command has a line with how
# many allocations it makes and how many runs ended in each way; the last line counts, and the status is 1 where a run
# failed. It wants `cc`, and stands outside the gate.
set -u

top=$(dirname -- "$(dirname -- "$(realpath -- "$0")")")
t=$(realpath -- "${1:-$top/crates/tinyr1cs/out/tinyr1cs}") || exit 2
scratch=$(mktemp -d) || exit 2
trap 'rm -rf -- "$scratch"' EXIT
export LC_ALL=C
passed=0
failed=0

cc -std=gnu11 -O1 -shared -fPIC -o "$scratch/refuse.so" "$top/tests/refuse.c" || exit 2

# The example that takes a factor from the auxiliary tape, a system and values of it, and the sample of the formats.
mkdir "$scratch/base" && cd "$scratch/base" || exit 2
cp "$top/examples/search.asm" P && cp "$top/examples/search.tape" X && cp "$top/examples/search.aux" W || exit 2
cp "$top"/crates/tinyr1cs/data/* "$top/examples/square.r1cs" . || exit 2
"$t" asm P I && "$t" build P 1 8 S && "$t" witness P X W 8 V && printf '0 91\n' >A || exit 2
for name in OUT TAPE AUX; do echo 'old bytes' >"$name"; done

# Runs the words of the table in a new folder with this allocation refused, and the further ones where `all` is set.
run() {
    local number=$1 all=$2
    shift 2
    rm -rf -- "$scratch/case" "$scratch/count" && cp -r "$scratch/base" "$scratch/case" && cd "$scratch/case" || exit 2
    timeout 60 env LD_PRELOAD="$scratch/refuse.so" REFUSE="$number" ${all:+REFUSE_ALL=1} REFUSE_COUNT="$scratch/count" \
        "$t" "$@" >"$scratch/out" 2>"$scratch/err" </dev/null
    status=$?
}

# Whether a file is a first part of another.
begins() {
    cmp -s -n "$(stat -c %s "$1")" "$1" "$2"
}

# Whether the files are those of the unrefused run.
are_whole() {
    diff -rq "$scratch/case" "$scratch/whole" >"$scratch/diff"
}

# Whether each name that is written holds a first part of what it should, or what it held, and the others what they held.
are_parts() {
    local name
    [ "$(ls "$scratch/case")" = "$(ls "$scratch/base")" ] || return
    for name in *; do
        case " $written " in
        *" $name "*) cmp -s "$name" "$scratch/base/$name" || begins "$name" "$scratch/whole/$name" ;;
        *) cmp -s "$name" "$scratch/base/$name" ;;
        esac || return
    done
}

# A command: the names that it writes, and its words.
refuse() {
    local written=$1 count later number all wants=0 same=0 status
    shift
    run 0 '' "$@"
    if [ "$status" != 0 ] || ! read -r count _ <"$scratch/count"; then
        echo "not done, or not counted: $*"
        exit 2
    fi
    rm -rf -- "$scratch/whole" && mv "$scratch/case" "$scratch/whole" && mv "$scratch/out" "$scratch/said" || exit 2
    for number in $(seq "$count"); do
        for all in '' all; do
            run "$number" "$all" "$@"
            read -r _ later <"$scratch/count" || later=unknown
            if [ "$status" = 9 ] && [ "$later" = 0 ] && [ "$(cat "$scratch/err")" = 'no memory' ] && begins "$scratch/out" "$scratch/said" &&
                are_parts; then
                wants=$((wants + 1))
            elif [ "$status" = 0 ] && [ ! -s "$scratch/err" ] && cmp -s "$scratch/out" "$scratch/said" && are_whole; then
                same=$((same + 1))
            else
                failed=$((failed + 1))
                echo "failed: allocation $number ${all:+and all after it }of $*: status $status, file calls behind it $later"
                echo "    output '$(head -c 200 "$scratch/out")', error '$(head -c 200 "$scratch/err")'"
            fi
        done
    done
    passed=$((passed + wants + same))
    echo "$1: $count allocations, $wants runs without memory, $same with the same answer"
}

refuse OUT asm P OUT
refuse OUT disasm I OUT
refuse '' run P X W 8
refuse OUT build P 1 8 OUT
refuse OUT witness P X W 8 OUT
refuse '' check system.r1cs witness.wtns tape.txt
refuse '' check S V A
refuse 'TAPE AUX' extract P 1 8 V TAPE AUX
refuse '' trial 0 1
refuse OUT shrink square.r1cs OUT
refuse OUT listing P 1 8 V cell OUT

echo "refusals: $passed passed, $failed failed"
[ "$failed" -eq 0 ]
