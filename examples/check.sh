#!/bin/sh
# For each program here: its image, disassembled and assembled again, is the same image; its run on its tapes says what
# README.md beside this says, `answers V at step S`; and for that answer and S steps its system is built, filled,
# checked and extracted, over Benes' network and over Waksman's, and checked by `verify.py` too. The system here that is
# none of a program is shrunk, and checked before and after. The last line counts; the status is 1 where one failed.
set -u

examples=$(dirname -- "$(realpath -- "$0")")
tinyr1cs=$(dirname -- "$examples")/bin/tinyr1cs
folder=$(mktemp -d) || exit 1
trap 'rm -rf -- "$folder"' EXIT

# A tape of a program; an empty one where it has none.
tape() {
    if [ -f "$1" ]; then echo "$1"; else echo "$folder/empty"; fi
}

# The words of a tape, one a line.
words() {
    tr -s ' \t\r\n' '\n' <"$1" | sed '/^$/d'
}

# Assembles a program, and the text of its image again.
assembles() {
    "$tinyr1cs" asm "$1" "$folder/image" &&
        "$tinyr1cs" disasm "$folder/image" "$folder/text" $2 &&
        "$tinyr1cs" asm "$folder/text" "$folder/again" &&
        cmp "$folder/image" "$folder/again"
}

# Checks the values against the system by `verify.py`, which reads both as other programs do, where there is Python and
# the system isn't large.
verifies() {
    [ "$(wc -c <"$folder/system")" -gt 100000000 ] || ! command -v python3 >"$folder/found" ||
        python3 -B "$examples/verify.py" "$folder/system" "$folder/values" >"$folder/said"
}

# Takes a program with its tapes, the number of its tape's words, its answer and the answering step, and the network's
# word, through all four commands.
reduces() {
    "$tinyr1cs" build "$1" "$4" "$6" "$folder/system" $7 &&
        "$tinyr1cs" witness "$1" "$2" "$3" "$6" "$folder/values" $7 &&
        { echo "$5" && words "$2"; } >"$folder/publics" &&
        [ "$("$tinyr1cs" check "$folder/system" "$folder/values" "$folder/publics")" = yes ] &&
        verifies &&
        [ "$("$tinyr1cs" extract "$1" "$4" "$6" "$folder/values" "$folder/tape" "$folder/aux" $7)" = "answer $5 at step $6" ] &&
        words "$2" | cmp - "$folder/tape" &&
        words "$3" | head -n "$(wc -l <"$folder/aux")" | cmp - "$folder/aux"
}

: >"$folder/empty"
passed=0
failed=0
for program in "$examples"/*.asm; do
    name=$(basename -- "$program" .asm)
    primary=$(tape "$examples/$name.tape")
    auxiliary=$(tape "$examples/$name.aux")
    wanted=$(sed -n "s/^| .$name. .* answers \([0-9]*\) at step \([0-9]*\) |\$/\1 \2/p" "$examples/README.md")
    answer=${wanted% *}
    step=${wanted#* }
    count=$(words "$primary" | wc -l)
    width=
    if head -n 1 "$program" | grep -q 'W=16'; then width=16; fi
    if [ -n "$wanted" ] && assembles "$program" "$width" &&
        [ "$("$tinyr1cs" run "$program" "$primary" "$auxiliary" 10000)" = "answer $answer at step $step" ] &&
        reduces "$program" "$primary" "$auxiliary" "$count" "$answer" "$step" "" &&
        reduces "$program" "$primary" "$auxiliary" "$count" "$answer" "$step" waksman; then
        passed=$((passed + 1))
    else
        echo "$name: failed" >&2
        failed=$((failed + 1))
    fi
done

# Whether the values of a system are right.
holds() {
    [ "$("$tinyr1cs" check "$examples/$1.r1cs" "$examples/$1.wtns" "$examples/square.public")" = yes ]
}

if "$tinyr1cs" shrink "$examples/square.r1cs" "$folder/shrunk" && cmp "$folder/shrunk" "$examples/square.shrunk.r1cs" &&
    holds square && holds square.shrunk; then
    passed=$((passed + 1))
else
    echo "square: failed" >&2
    failed=$((failed + 1))
fi

# The tape of sha256 is the digest of its auxiliary tape's bytes.
digest() {
    for byte in $(words "$examples/sha256.aux"); do printf "\\$(printf '%o' "$byte")"; done | sha256sum | cut -c 1-64 |
        fold -w 8 | while read -r word; do echo $((0x$word)); done
}

if [ "$(digest)" = "$(words "$examples/sha256.tape")" ]; then
    passed=$((passed + 1))
else
    echo "sha256: its tape is no digest of its auxiliary tape" >&2
    failed=$((failed + 1))
fi

echo "examples: $passed passed, $failed failed"
[ "$failed" -eq 0 ]
