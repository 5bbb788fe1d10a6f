#!/usr/bin/env bash
# What stands round the program: what it says on a terminal, its manual, the completion for bash, and what bin/install
# copies.
#
#     tests/tools.sh [BINARY]
#
# A message says which check failed; the last line counts, and the status is 1 where one failed. What needs a program
# that the machine lacks (`script`, `man`) is left out and named.
set -u

top=$(dirname -- "$(dirname -- "$(realpath -- "$0")")")
t=$(realpath -- "${1:-$top/crates/tinyr1cs/out/tinyr1cs}") || exit 2
[ -x "$t" ] || exit 2
scratch=$(mktemp -d) || exit 2
trap 'rm -rf -- "$scratch"' EXIT
export LC_ALL=C
cd "$scratch" || exit 2
passed=0
failed=0

# Counts a check, whose status is the first word; the others are the message.
count() {
    if [ "$1" = 0 ]; then
        passed=$((passed + 1))
    else
        failed=$((failed + 1))
        echo "failed: ${*:2}"
    fi
}

has() {
    command -v "$1" >/dev/null || { echo "without $1: not all is tried"; return 1; }
}

# What a command prints on a terminal: this, after the lines of its status.
on_terminal() {
    local wanted=$1
    shift
    script -qec "$t $*" "$scratch/typed" >/dev/null </dev/null
    sed '1{/^Script started/d};/^Script done/d' "$scratch/typed" | tr -d '\r' | grep -v '^$' | tail -n 1 >"$scratch/last"
    [ "$(cat "$scratch/last")" = "$wanted" ]
    count $? "on a terminal $*: '$(cat "$scratch/last")', wanted '$wanted'"
}

printf 'foo: answer 0\n' >label
printf 'answer r16\n' >register
printf 'answer 4294967296\n' >number
printf 'answer 0\n' >text
: >empty
echo x >bad
"$t" build text 0 1 system && "$t" witness text empty empty 1 witness && "$t" witness text empty empty 2 other || exit 2
echo 1 >one
if has script; then
    on_terminal 'hint: a label begins with _, and a line that begins with _name: defines it' asm label image
    on_terminal 'hint: registers are r0 to r15' asm register image
    on_terminal 'hint: numbers are decimal, or 0x and hexadecimal, and fit a word' asm number image
    on_terminal 'hint: words and items are counted from 0; a tape is numbers and blanks' run text bad empty 1
    on_terminal 'hint: the values are of another program, N, T or network; N is the number of words of TAPE' \
        check system other empty
    on_terminal 'hint: the values are of another program, N, T or network; N is the number of words of TAPE' \
        extract text 0 1 other tape aux
    on_terminal 'hint: wire 0 is 1, wire 1 the answer, and the next are the tape; PUBLIC has the answer first' \
        check system witness one
    on_terminal 'No such file or directory (os error 2)' asm absent image
    on_terminal 'tinyr1cs trial SEED K' trial
fi

# How much is read is shown: of a system of 12,000,000 constraints without terms, a file of 144 MB that takes no room.
data=$top/crates/tinyr1cs/data
{
    head -c 8 "$data/system.r1cs" && printf '\2\0\0\0' && tail -c +13 "$data/system.r1cs" | head -c 48 &&
        printf '\0\x1b\xb7\0\2\0\0\0\0\x44\x95\x08\0\0\0\0'
} >long || exit 2
truncate -s 144000076 long

# The lines that stand on a terminal one after another while a system is judged, with `COLUMNS` as given, without those
# that clear.
shown() {
    COLUMNS=$1 script -qec "$t check long $data/witness.wtns $data/tape.txt" "$scratch/typed" >/dev/null </dev/null
    tr '\r' '\n' <"$scratch/typed" | sed '/^Script/d;/^ *$/d' | tr '\n' '|'
}

if has script; then
    lines=$(shown 40)
    [ "$lines" = 'long: 64 MB |long: 128 MB |long: 64 MB |long: 128 MB |yes|' ]
    count $? "reading shows '$lines'"
    lines=$(shown 39)
    [ "$lines" = 'yes|' ]
    count $? "reading shows '$lines' on 39 columns"
fi

# Off a terminal there is no hint.
"$t" asm label image 2>error >/dev/null
[ ! -s error ]
count $? "a hint off a terminal: $(cat error)"

# The other program: what it prints, and its status.
tools=$top/crates/tinyr1cs_tools/out/tinyr1cs_tools
prints() {
    local wanted=$1 status=$2
    shift 2
    "$tools" "$@" >printed 2>error
    [ "$?" = "$status" ] && [ "$(cat printed)" = "$wanted" ]
    count $? "tinyr1cs-tools $*: '$(cat printed error)', wanted '$wanted' and status $status"
}

if [ -x "$tools" ]; then
    s=$top/examples/search
    printf 'read r1, 0\nstore.w 64, r1\nread r1, 1\n.raw 0xc8000000, 7\n' >stops
    printf '; TinyRAM W=16 K=16\nadd r1, r1, 65535\nadd r1, r1, 1\nanswer r1\n' >wraps
    prints $'1 0 read r1, 0; r1 0 -> 1; flag 0; taken 1 0\n2 8 store.w 64, r1; cell 16 0 -> 1; flag 0; taken 1 0
3 16 read r1, 1; r1 1 -> 0; flag 1; taken 1 0\n4 24 .raw 0xc8000000, 7; flag 1; taken 1 0\nundefined opcode 25 at step 4' \
        1 trace stops one empty 9
    prints $'2 8 store.w 64, r1; cell 16 0 -> 1; flag 0; taken 1 0\n4 24 .raw 0xc8000000, 7; flag 1; taken 1 0
undefined opcode 25 at step 4' 1 trace stops one empty 9 --from 2 --count 1
    prints $'2 8 store.w 64, r1; cell 16 0 -> 1; flag 0; taken 1 0\nno answer in 2 steps' 1 trace --from 2 stops one empty 2
    prints $'1 0 add r1, r1, 65535; r1 0 -> 65535; flag 0; taken 0 0\n2 4 add r1, r1, 1; r1 65535 -> 0; flag 1; taken 0 0
3 8 answer r1; flag 1; taken 0 0\nanswer 0 at step 3' 0 trace wraps empty empty 9
    "$t" run "$s.asm" "$s.tape" "$s.aux" 8 >ends
    prints "$(cat ends)" 0 trace "$s.asm" "$s.tape" "$s.aux" 8 --count 0
    prints 'bad tape: word 2, item 0' 4 trace --count 1 stops bad empty 9
    prints 'limit: steps 0, most 262144' 7 trace stops one empty 0
    prints '' 8 trace absent one empty 1
    prints '' 2 trace stops one empty
    for network in '' waksman; do
        "$t" build "$s.asm" 1 8 system $network
        "$t" witness "$s.asm" "$s.tape" "$s.aux" 8 witness $network
        "$tools" sizes "$s.asm" 1 8 $network >printed
        [ "$?" = 0 ] && [ "$(sed -n 's/^bytes //p' printed)" = "$(wc -c <system)" ] &&
            [ "$(sed -n 's/^wires //p' printed)" = $((($(wc -c <witness) - 52) / 8)) ]
        count $? "tinyr1cs-tools sizes $network: $(cat printed)"
    done
    prints 'limit: tape words 131073, most 131072' 7 sizes "$s.asm" 131073 8
    "$t" --version 2>wanted >/dev/null
    prints "$(sed 's/tinyr1cs/tinyr1cs-tools/' wanted)" 0 --version
    "$tools" trace --help >printed && grep -q '^Examples:' printed && "$tools" --help >printed && grep -q '^Examples:' printed
    count $? 'tinyr1cs-tools: help with examples'
else
    echo 'without tinyr1cs-tools: not all is tried'
fi

# The manual, which `man` reads without a complaint, and which has each command.
if has man; then
    for page in "$top"/docs/*.1; do
        man --warnings=w -l "$page" >shown 2>complaints
        [ -s shown ] && [ ! -s complaints ]
        count $? "$page: $(cat complaints)"
    done
fi
"$t" --help 2>&1 >/dev/null | sed -n 's/^tinyr1cs \([a-z]*\) .*/\1/p' >names
while read -r name; do
    grep -q "^.fBtinyr1cs $name.fR" "$top/docs/tinyr1cs.1"
    count $? "the manual lacks $name"
done <names
[ "$(wc -l <names)" = 10 ]
count $? "ten commands: $(cat names)"
grep -q "tinyr1cs $(cat "$top/VERSION")\"" "$top/docs/tinyr1cs.1" && grep -q "^## $(cat "$top/VERSION")$" "$top/CHANGELOG.md"
count $? "VERSION isn't that of the manual and of CHANGELOG.md"

# The completion: the words up to the one that is asked for, and what it offers.
completes() {
    local wanted=$1
    shift
    COMP_WORDS=("$@")
    COMP_CWORD=$(($# - 1))
    _tinyr1cs
    [ "${COMPREPLY[*]}" = "$wanted" ]
    count $? "completion of $*: '${COMPREPLY[*]}', wanted '$wanted'"
}

complete() { :; }
. "$top/docs/tinyr1cs.bash"
completes 'witness' tinyr1cs w
completes 'build' tinyr1cs b
completes 'waksman' tinyr1cs build text 0 1 system ''
completes 'time cell' tinyr1cs listing text 0 1 witness ''
completes '16' tinyr1cs disasm image text ''
completes 'register' tinyr1cs asm reg

# What is installed, where the library is built too.
if [ "$t" = "$top/crates/tinyr1cs/out/tinyr1cs" ] && [ -f "$top/crates/tinyr1cs_c/out/libtinyr1cs_c.a" ]; then
    DESTDIR=$scratch "$top/bin/install" /usr >installed 2>&1 && cmp -s "$t" usr/bin/tinyr1cs &&
        cmp -s "$top/docs/tinyr1cs.1" usr/share/man/man1/tinyr1cs.1 && cmp -s "$tools" usr/bin/tinyr1cs-tools &&
        [ -f usr/share/man/man1/tinyr1cs-tools.1 ] && [ -f usr/include/tinyr1cs.h ] &&
        [ -f usr/lib/libtinyr1cs_c.a ] && [ -f usr/share/bash-completion/completions/tinyr1cs ] &&
        [ -f usr/share/doc/tinyr1cs/COMMANDS.md ]
    count $? "bin/install: $(cat installed)"
fi

echo "tools: $passed passed, $failed failed"
[ "$failed" = 0 ]
