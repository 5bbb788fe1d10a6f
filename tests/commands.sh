#!/usr/bin/env bash
# The commands of the program on files whose answers are known: computed without this code, or written out by hand.
#
#     tests/commands.sh [BINARY]
#
# Each check is of an exit status with what is printed, or of the bytes of a file. A message says which failed; the last
# line counts, and the status is 1 where one failed. File calls, and faults of each, are `crates/tv_command_tests`.
set -u
# so that what counts at a pipe's end counts here
shopt -s lastpipe

top=$(dirname -- "$(dirname -- "$(realpath -- "$0")")")
t=$(realpath -- "${1:-$top/crates/tinyr1cs/out/tinyr1cs}") || exit 2
[ -x "$t" ] || exit 2
sample=$top/crates/tinyr1cs/data
scratch=$(mktemp -d) || exit 2
trap 'rm -rf -- "$scratch"' EXIT
export LC_ALL=C
passed=0
failed=0

usage='usage: asm, disasm, run, build, witness, check, extract, trial, shrink, listing\n'

# How the commands are called, and what standard error has where no first word says which is meant.
asm='tinyr1cs asm TEXT IMAGE'
disasm='tinyr1cs disasm IMAGE TEXT [16]'
run='tinyr1cs run TEXT TAPE AUX T'
build='tinyr1cs build TEXT N T SYSTEM [waksman]'
witness='tinyr1cs witness TEXT TAPE AUX T WITNESS [waksman]'
check='tinyr1cs check SYSTEM WITNESS PUBLIC'
extract='tinyr1cs extract TEXT N T WITNESS TAPE AUX [waksman]'
listing='tinyr1cs listing TEXT N T WITNESS BY OUT'
trial='tinyr1cs trial SEED K'
shrink='tinyr1cs shrink SYSTEM OUT'
commands="$asm: assembles a program
$disasm: writes a program of the image
$run: runs it for at most T steps
$build: writes its constraints
$witness: writes values of a run
$check: tests values and public ones
$extract: writes the tapes of values
$listing: writes memory accesses
$trial: tests the system of a drawn program
$shrink: removes linear constraints
\`man tinyr1cs\` and docs/COMMANDS.md of the sources describe them\\n"

# The number of the layout of systems. It is raised whenever `build` writes other bytes for the same arguments, and then
# the sums below are written anew.
layout=2
version="tinyr1cs $(cat "$top/VERSION"), layout of systems $layout\\n"

# What the system says of a name that isn't there, of a folder, and of a full disk.
absent='No such file or directory (os error 2)\n'
folder='Is a directory (os error 21)\n'
full='No space left on device (os error 28)\n'

# Counts a check, whose status is the first word; the others are the message.
count() {
    if [ "$1" = 0 ]; then
        passed=$((passed + 1))
    else
        failed=$((failed + 1))
        echo "failed: ${*:2}"
    fi
}

# Makes a folder for a case, in which the names that commands write hold `before`.
new() {
    rm -rf -- "$scratch/case" && mkdir "$scratch/case" && cd "$scratch/case" || exit 2
    local name
    for name in out system witness tape.out aux.out lines; do printf before >"$name"; done
}

# Writes a file: its name and its bytes, as `printf` reads them.
file() {
    printf '%b' "$2" >"$1"
}

# Checks that a file has these bytes.
holds() {
    printf '%b' "$2" | cmp -s - "$1"
    count $? "$1 holds '$(head -c 200 "$1" | tr '\0' '.')', wanted '$2', $said_by"
}

# Checks a command: the exit status, its line, or how it begins if what is given has no end, what standard error has, and
# the words, with blanks between them.
ends() {
    local wanted=$1 line=$2 error=$3 status most
    shift 3
    said_by="$*"
    "$t" "$@" >"$scratch/out" 2>"$scratch/err" </dev/null
    status=$?
    printf '%b' "$line" >"$scratch/line"
    most=$(stat -c %s "$scratch/line")
    case $line in '' | *'\n') most=$((most + 1)) ;; esac
    [ "$status" = "$wanted" ] && head -c "$most" "$scratch/out" | cmp -s - "$scratch/line" &&
        printf '%b' "$error" | cmp -s - "$scratch/err"
    count $? "$said_by: $status '$(head -c 200 "$scratch/out")' '$(head -c 200 "$scratch/err")', wanted $wanted '$line' '$error'"
}

# The same of a command that has nothing for standard error.
says() {
    ends "$1" "$2" '' $3
}

# A number as this many bytes, the lowest first.
le() {
    local value=$1 text= byte i
    for ((i = 0; i < $2; i++)); do
        printf -v byte '\\x%02x' $((value & 255))
        text+=$byte
        value=$((value >> 8))
    done
    printf '%b' "$text"
}

# Puts standard input into a file from a place on.
put() {
    dd of="$1" bs=1 seek="$2" conv=notrunc status=none
}

# Sets the values of wires in `witness`: a wire and a value, and so on.
alter() {
    while [ $# != 0 ]; do
        le "$2" 8 | put witness $((52 + 8 * $1))
        shift 2
    done
}

# Raises the value of a wire in `witness` by 1, modulo the prime.
increase() {
    local value
    value=$(od -An -t d8 -j $((52 + 8 * $1)) -N 8 witness)
    # the prime less 1, as a signed number
    if ((value == -4294967296)); then value=-1; fi
    alter "$1" $((value + 1))
}

# Cuts the last value off `witness`, so that this many are left.
shorten() {
    truncate -s -8 witness && le "$1" 4 | put witness 36 && le $((8 * $1)) 8 | put witness 44
}

# Texts and images: a command, what it reads, and what it writes.
makes() {
    new
    file in "$2"
    says 0 '' "$1"
    holds out "$3"
}

makes 'asm in out' 'add r1, r2, 5' '\0\0\x48\x24\5\0\0\0'
makes 'asm in out' 'answer 0' '\0\0\0\xfc\0\0\0\0'
makes 'asm in out' 'store.w 65536, r3' '\0\0\xc0\xe4\0\0\1\0'
makes 'asm in out' '.raw 0x00000001, 16' '\1\0\0\0\x10\0\0\0'
makes 'asm in out' 'jmp _e\n_e:' '\0\0\0\xa4\x8\0\0\0'
makes 'asm in out' '' ''
makes 'asm in out' '; TinyRAM V=2.000 M=vn W=32 K=16' ''
makes 'asm in out' '; TinyRAM V=2.000 M=vn W=16 K=16' ''
makes 'asm in out' '; TinyRAM W=16\nadd r1, r2, 5' '\x48\x24\5\0'
makes 'asm in out' '; TinyRAM W=16\nanswer 0' '\0\xfc\0\0'
makes 'disasm in out' '\0\0\0\0\0\0\0\0' 'and r0, r0, r0\n'
makes 'disasm in out' '\0\0\xc0\xe4\0\0\1\0' 'store.w 65536, r3\n'
makes 'disasm in out' '\1\0\0\0\x10\0\0\0' '.raw 0x00000001, 16\n'
makes 'disasm in out' '\0\0\0\xb8\0\0\0\0' '.raw 0xb8000000, 0\n'
makes 'disasm in out 16' '\x48\x24\5\0\0\xfc\0\0\0\xb8\0\0' '; TinyRAM W=16 K=16\nadd r1, r2, 5\nanswer 0\n.raw 0xb800, 0\n'

# What is no text or image: a command, what it reads, the status, and the line.
refuses_in() {
    new
    file in "$2"
    says "$3" "$4" "$1"
    holds out before
}

refuses_in 'asm in out' 'add r1, r2' 3 'bad program: line 1: 2 operands, 3 wanted\n'
refuses_in 'asm in out' 'jmp _x\nfoo' 3 'bad program: line 1: unknown label\n'
refuses_in 'asm in out' '_a:\n_a:' 3 'bad program: line 2: label defined twice\n'
refuses_in 'asm in out' '; TinyRAM W=8' 3 'bad program: line 1: bad header\n'
refuses_in 'asm in out' '; TinyRAM W=16 W=32' 3 'bad program: line 1: bad header\n'
refuses_in 'asm in out' '; TinyRAM W=16\nmov r1, 65536' 3 'bad program: line 2: bad number\n'
refuses_in 'disasm in out' '\0\0\0\0\0\0\0\0\0\0\0\0' 13 'bad image: 12 bytes\n'
refuses_in 'disasm in out 16' '\0\0\0\0\0\0' 13 'bad image: 6 bytes\n'

# Texts and images at their limits: standard input is what is read.
limits_in() {
    new
    cat >in
    says 7 "$2" "$1"
    holds out before
}

yes 'answer 0' | head -n 65537 | limits_in 'asm in out' 'limit: image words 131074, most 131072\n'
yes $'; TinyRAM W=16\nanswer 0' | head -n 32770 | limits_in 'asm in out' 'limit: image words 32770, most 32768\n'
head -c 4194305 /dev/zero | tr '\0' ' ' | limits_in 'asm in out' 'limit: text bytes 4194305, most 4194304\n'
head -c 524289 /dev/zero | limits_in 'disasm in out' 'limit: image bytes 524289, most 524288\n'
head -c 65537 /dev/zero | limits_in 'disasm in out 16' 'limit: image bytes 65537, most 65536\n'

# A program that is run, built, filled, checked and extracted over both networks: its text, the tape and the auxiliary
# tape, the most steps, what it answers and at which step, and what it takes of the auxiliary tape.
goes_round() {
    local net n line="answer $5 at step $6\n"
    for net in '' waksman; do
        new
        file text "$1"
        file tape "$2"
        file aux "$3"
        file public "$5 $2"
        n=$(wc -w <tape)
        says 0 "$line" "run text tape aux $4"
        says 0 '' "build text $n $4 system $net"
        says 0 '' "witness text tape aux $4 witness $net"
        says 0 'yes\n' 'check system witness public'
        says 0 "$line" "extract text $n $4 witness tape.out aux.out $net"
        holds tape.out "$2"
        holds aux.out "$7"
    done
}

# Answers by its two reads of the auxiliary tape.
two_reads='read r1, 1\nread r2, 1\nsub r3, r1, r2\nanswer r3'

# Reads of the tape, of it past its end, and of a tape that there isn't.
past_the_end='read r1, 0\nread r2, 0\nread r3, 2\nanswer r1'

# The third instruction becomes `answer 0`.
rewrites='mov r1, 0xfc000000\nstore.w 16, r1\n.raw 0, 0'

goes_round 'answer 0' '' '' 1 0 1 ''
goes_round 'answer 0' '' '' 2 0 1 ''
goes_round 'answer 0' '' '' 65 0 1 ''
goes_round 'answer 0' '5\n' '' 2 0 1 ''
goes_round 'mov r1, 7\nanswer r1' '' '' 2 7 2 ''
goes_round "$two_reads" '' '' 4 0 4 ''
goes_round "$two_reads" '' '9' 4 9 4 '9\n'
goes_round "$two_reads" '' '9 9' 4 0 4 '9\n9\n'
goes_round "$two_reads" '' '9 9 7' 4 0 4 '9\n9\n'
goes_round 'mov r1, 0\numulh r2, r1, r1\nanswer r2' '' '' 3 0 3 ''
# a jump after the end of memory's instructions, from which the first is met again
goes_round 'cjmp 17\njmp 4294967288\nanswer 0' '' '' 5 0 5 ''
# a word that is stored, a byte of it that is stored over, and the word that is loaded
goes_round 'mov r1, 0x11223344\nmov r2, 0xab\nstore.w 65536, r1\nstore.b 65537, r2\nload.w r3, 65539\nanswer r3' \
    '' '' 6 287484740 6 ''
goes_round "$rewrites" '' '' 3 0 3 ''
goes_round "$past_the_end" '4294967295\n' '' 4 4294967295 4 ''
# a store to the last word of memory, and bytes on both sides of a page's end
goes_round 'mov r1, 0xffffffff\nstore.w 4294967295, r1\nload.b r2, 4294967292\nsub r2, r2, 255\nanswer r2' '' '' 5 0 5 ''
goes_round 'mov r1, 7\nstore.b 8191, r1\nstore.b 8192, r1\nload.w r2, 8188\nload.w r3, 8192\nanswer r2' \
    '' '' 6 117440512 6 ''
# words of 16 bits
goes_round '; TinyRAM W=16\nmov r1, 65535\nadd r2, r1, 1\nanswer r2' '' '' 3 0 3 ''
goes_round '; TinyRAM W=16\nmov r1, 0x8000\nsmulh r2, r1, r1\nsub r2, r2, 0x4000\nanswer r2' '' '' 4 0 4 ''
goes_round '; TinyRAM W=16\ncjmp 9\njmp 65532\nanswer 0' '' '' 5 0 5 ''

# Writes the system and the witness of a program: its text, the tape and the steps.
fill() {
    new
    file text "$1"
    file tape "$2"
    file aux ''
    says 0 '' "build text $(wc -w <tape) $3 system"
    says 0 '' "witness text tape aux $3 witness"
}

# What `check` and `extract` say of a witness of that program that is altered: the public numbers, the two statuses and
# lines, and the wires with their new values, or a wire whose value rises by 1.
judges() {
    fill "$1" "$2" "$3"
    file public "$4"
    local n check=$5 line=$6 extract=$7 other=$8 tape=before aux=before
    n=$(wc -w <tape)
    if [ "$extract" = 0 ]; then tape=$2 aux=; fi
    if [ $# = 9 ]; then increase "$9"; else alter "${@:9}"; fi
    says "$check" "$line" 'check system witness public'
    says "$extract" "$other" "extract text $n $3 witness tape.out aux.out"
    holds tape.out "$tape"
    holds aux.out "$aux"
}

judges 'mov r1, 7\nanswer r1' '' 2 8 1 'no: public wire 1\n' 0 'answer 7 at step 2\n'
judges 'mov r1, 7\nanswer r1' '' 2 '' 1 'no: public wire 1\n' 0 'answer 7 at step 2\n'
judges 'mov r1, 7\nanswer r1' '' 2 8 1 'no: constraint ' 11 'not a run: answer 7 at step 2\n' 1 8
# The witness of `answer 0` in one step has 435 values: at wire 2 the 0 of the start state, at 367 the first bit of a
# reach, and at the end the excess of the last line, 0 too. Private are the wires 2 to 434, of which 218 is the middle.
judges 'answer 0' 5 2 '0 4294967296' 1 'no: constraint ' 11 'not a run: wire 2 is wide\n' 2 $((1 << 32))
judges 'answer 0' '' 1 0 1 'no: constraint ' 0 'answer 0 at step 1\n' 2 1
judges 'answer 0' '' 1 0 1 'no: constraint ' 0 'answer 0 at step 1\n' 367 2
judges 'answer 0' '' 1 0 1 'no: constraint ' 0 'answer 0 at step 1\n' 434 1
judges 'answer 0' '' 1 0 1 'no: constraint ' 0 'answer 0 at step 1\n' 218
fill 'answer 0' '' 1
file public 0
shorten 434
says 1 'no: 434 wires, 435 wanted\n' 'check system witness public'
says 11 'not a run: 434 wires, 435 wanted\n' 'extract text 0 1 witness tape.out aux.out'

# What `listing` writes of a program's witness: the order, the lines, and wires with new values.
lists() {
    fill "$1" "$2" "$3"
    alter "${@:6}"
    says 0 '' "listing text $(wc -w <tape) $3 witness $4 lines"
    holds lines "$5"
}

by_time='0 0 0 4227858432\n1 1 0 0\n2 0 4227858432 4227858432\n3 1 0 0\n4 1610612736 0 0\n'
by_cell='0 0 0 4227858432\n2 0 4227858432 4227858432\n1 1 0 0\n3 1 0 0\n4 1610612736 0 0\n'
lists 'answer 0' '' 1 time "$by_time"
lists 'answer 0' '' 1 cell "$by_cell"
lists 'answer 0' '' 3 time "$by_time"
lists 'answer 0' '' 3 cell "$by_cell"
# The first step of `answer 0` begins at wire 22, and the first word of its instruction is at 110.
lists 'answer 0' '' 1 time '0 0 0 4227858432\n1 1 0 0\n2 0 4227858433 4227858433\n3 1 0 0\n4 1610612736 0 0\n' 110 4227858433
lists '; TinyRAM W=16\nanswer 0' '' 1 time '0 0 0 64512\n1 1 0 0\n2 0 64512 64512\n3 1 0 0\n4 1610612736 0 0\n'
lists 'read r1, 0\nanswer r1' 5 2 cell "0 0 0 4097835008\n5 0 4097835008 4097835008\n1 1 0 0\n6 1 0 0\n\
2 2 0 4160749568\n8 2 4160749568 4160749568\n3 3 0 1\n9 3 1 1\n4 1073741824 0 5\n7 1073741824 5 5\n10 1610612736 0 0\n"
lists "$rewrites" '' 3 cell "0 0 0 2487222272\n6 0 2487222272 2487222272\n1 1 0 4227858432\n\
7 1 4227858432 4227858432\n2 2 0 3829399552\n9 2 3829399552 3829399552\n3 3 0 16\n10 3 16 16\n\
4 4 0 0\n11 4 0 4227858432\n12 4 4227858432 4227858432\n5 5 0 0\n13 5 0 0\n8 1610612736 0 0\n14 1610612736 0 0\n"

# What `check` says of the sample's files: of these with other tapes (standard input), changed, reversed and cut.
judges_sample() {
    new
    cp "$sample/system.r1cs" "$sample/witness.wtns" .
    file public 3
}

tapes() {
    judges_sample
    cat >public
    says "$1" "$2" 'check system.r1cs witness.wtns public'
}

printf 3 | tapes 0 'yes\n'
printf 4 | tapes 1 'no: public wire 1\n'
printf '' | tapes 1 'no: public wire 1\n'
printf '3 5' | tapes 1 'no: public wire 2\n'
printf '3 18446744069414584321' | tapes 4 'bad tape: word 3, item 1\n'
yes 7 | head -n 131073 | tr '\n' ' ' | tapes 1 'no: public wire 1\n'
yes 7 | head -n 262145 | tr '\n' ' ' | tapes 7 'limit: tape words 262145, most 262144\n'

# A place in one of the two files, the bytes that are there instead, the status, and the line.
changes() {
    judges_sample
    printf '%b' "$3" | put "$1" "$2"
    says "$4" "$5" 'check system.r1cs witness.wtns public'
}

changes witness.wtns 52 '\2' 1 'no: public wire 0\n'
changes witness.wtns 76 '\x10' 1 'no: constraint 0\n'
changes witness.wtns 60 '\4\0\0\0\xff\xff\xff\xff' 6 'bad witness: byte 60: not below p\n'
changes witness.wtns 36 '\3' 6 'bad witness: byte 52: 32 for 24\n'
changes system.r1cs 0 '\0' 5 'bad system: byte 0: bad magic\n'
changes system.r1cs 4 '\2' 5 'bad system: byte 4: version 2\n'
changes system.r1cs 8 '\2' 5 'bad system: byte 124: bytes after the end\n'
changes system.r1cs 8 '\4' 5 'bad system: byte 168: truncated\n'
changes system.r1cs 124 '\1' 5 'bad system: byte 124: section 1 doubled\n'
changes system.r1cs 124 '\2' 5 'bad system: byte 124: section 2 doubled\n'
changes system.r1cs 124 '\x9' 0 'yes\n'
changes system.r1cs 12 '\x9' 5 'bad system: byte 168: section 1 missing\n'
changes system.r1cs 64 '\x9' 5 'bad system: byte 168: section 2 missing\n'
changes system.r1cs 16 '\xff\xff\xff\xff\xff\xff\xff\xff' 5 'bad system: byte 12: truncated\n'
changes system.r1cs 24 '\x20' 5 'bad system: byte 24: another prime\n'
changes system.r1cs 28 '\2' 5 'bad system: byte 24: another prime\n'
changes system.r1cs 36 '\1' 5 'bad system: byte 24: 1 for 2\n'
changes system.r1cs 36 '\3' 5 'bad system: byte 136: 32 for 24\n'
changes system.r1cs 60 '\0' 5 'bad system: byte 76: 48 for 0\n'
changes system.r1cs 60 '\2' 5 'bad system: byte 124: truncated\n'
changes system.r1cs 76 '\1\0\x10' 5 'bad system: byte 76: 1048577 terms\n'
changes system.r1cs 76 '\2' 1 'no: constraint 0\n'
changes system.r1cs 80 '\4' 5 'bad system: byte 80: wire 4 of 4\n'
changes system.r1cs 84 '\1\0\0\0\xff\xff\xff\xff' 5 'bad system: byte 84: not below p\n'
changes system.r1cs 168 '\0' 5 'bad system: byte 168: bytes after the end\n'
judges_sample
cp witness.wtns witness
shorten 3
says 1 'no: 3 wires, 4 wanted\n' 'check system.r1cs witness public'

# The bytes of a file from a place on, so many.
bytes() {
    tail -c +$(($2 + 1)) "$1" | head -c "$3"
}

# the sections in the order 3, 2, 1
for part in '0 12' '124 44' '64 60' '12 52'; do bytes system.r1cs $part; done >reversed
says 0 'yes\n' 'check reversed witness.wtns public'

# A file that was cut, the status, its name in the line, and where its parts begin: the one in which it ends is truncated.
cuts() {
    local name=$1 status=$2 what=$3 size at begin
    shift 3
    judges_sample
    for ((size = 0; size < $(stat -c %s "$sample/$name"); size++)); do
        at=0
        for begin in "$@"; do if [ "$begin" -le "$size" ]; then at=$begin; fi; done
        head -c "$size" "$sample/$name" >"$name"
        says "$status" "bad $what: byte $at: truncated\n" 'check system.r1cs witness.wtns public'
    done
}

cuts system.r1cs 5 system 4 8 12 64 124
cuts witness.wtns 6 witness 4 8 12 40

# What the commands refuse, and runs without an answer: the status, the line, what standard error has, and the words. No
# file is changed then.
refuses() {
    rm -rf -- "$scratch/kept" && cp -r "$scratch/case" "$scratch/kept" || exit 2
    ends "$@"
    diff -r "$scratch/kept" "$scratch/case" >"$scratch/changed"
    count $? "$said_by: $(cat "$scratch/changed")"
}

# Words that are refused before any file is read: there is none to read.
new
refuses 2 "$usage" "$commands"
refuses 2 "$usage" "$commands" --help
refuses 2 "$usage" "$commands" -h
refuses 2 "$usage" "$commands" Build text 0 1 system
refuses 2 "$usage" "$version" --version
refuses 2 "$usage" "$asm\n" asm text
refuses 2 "$usage" "$disasm\n" disasm in out 32
refuses 2 "$usage" "$check\n" check
refuses 2 "$usage" "$build\n" build text 0 1 system place
refuses 2 "$usage" "$build\n" build text 0 18446744073709551616 system
refuses 2 "$usage" "$witness\n" witness text tape aux 1 witness benes
refuses 2 "$usage" "$witness\n" witness text tape aux -1 witness
refuses 2 "$usage" "$extract\n" extract text 0 1 witness tape.out aux.out 16
refuses 2 "$usage" "$run\n" run text tape aux +1
refuses 2 "$usage" "$trial\n" trial 0
refuses 2 "$usage" "$listing\n" listing text 0 1 witness place lines
refuses 2 "$usage" "$shrink\n" shrink square
refuses 2 "$usage" "$shrink\n" shrink square new 16
refuses 12 'same name: words 1 and 4\n' '' build text 0 1 text
refuses 12 'same name: words 1 and 4\n' '' build text 0 0 text
refuses 12 'same name: words 4 and 5\n' '' extract text 0 1 witness witness witness
refuses 12 'same name: words 1 and 2\n' '' shrink square square
refuses 7 'limit: tape words 131073, most 131072\n' '' build text 131073 0 system
refuses 7 'limit: steps 0, most 262144\n' '' run text tape aux 0
refuses 7 'limit: steps 0, most 262144\n' '' witness text tape aux 0 witness
refuses 7 'limit: steps 262145, most 262144\n' '' run text tape aux 262145
refuses 7 'limit: draws 0, most 8191\n' '' trial 0 0
refuses 7 'limit: draws 8192, most 8191\n' '' trial 0 8192

# The first file at fault is reported, and names that aren't there, of words that come later, are not looked at.
file text 'answer 0'
file tape ''
file aux ''
file foo foo
file words '1 x'
file wide 4294967296
file wide_16 65536
file nines '9 9'
file undefined '.raw 0xB8000000, 0'
file nothing ''
file again 'jmp 0'
file reads "$two_reads"
file past "$past_the_end"
file narrow '; TinyRAM W=16\nanswer 0'
cp "$sample/system.r1cs" s && cp "$sample/witness.wtns" w || exit 2
refuses 3 'bad program: line 1: unknown name\n' '' witness foo words absent 1 witness
refuses 4 'bad tape: word 2, item 1\n' '' witness text words absent 1 witness
refuses 4 'bad tape: word 2, item 0\n' '' run past wide aux 4
refuses 4 'bad tape: word 2, item 0\n' '' witness narrow wide_16 absent 1 witness
refuses 4 'bad tape: word 3, item 1\n' '' witness text tape words 1 witness
refuses 6 'bad witness: byte 0: bad magic\n' '' extract text 0 1 text tape.out aux.out
refuses 1 'undefined opcode 23 at step 1\n' '' run undefined tape aux 5
refuses 10 'no run: undefined opcode 23 at step 1\n' '' witness undefined tape aux 5 witness
refuses 1 'no answer in 64 steps\n' '' run nothing tape aux 64
refuses 10 'no run: no answer in 64 steps\n' '' witness nothing tape aux 64 witness
refuses 1 'no answer in 262144 steps\n' '' run nothing tape aux 262144
refuses 1 'no answer in 65536 steps\n' '' run again tape aux 65536
refuses 1 'no answer in 3 steps\n' '' run reads tape nines 3
refuses 10 'no run: no answer in 3 steps\n' '' witness reads tape nines 3 witness

# A name that isn't there, wherever it stands; and what standard error says of names and words that no line shows.
refuses 8 '' 'file fault: absent\n'"$absent" build absent 0 1 system
refuses 8 '' 'file fault: absent\n'"$absent" witness absent tape aux 1 witness
refuses 8 '' 'file fault: absent\n'"$absent" witness text absent aux 1 witness
refuses 8 '' 'file fault: absent\n'"$absent" witness text tape absent 1 witness
refuses 8 '' 'file fault: absent\n'"$absent" check absent w tape
refuses 8 '' 'file fault: absent\n'"$absent" check s absent tape
refuses 8 '' 'file fault: absent\n'"$absent" check s w absent
refuses 8 '' 'file fault: absent\n'"$absent" extract text 0 1 absent tape.out aux.out
refuses 8 '' 'file fault: absent\n'"$absent" listing text 0 1 absent time lines
refuses 8 '' 'file fault: absent\n'"$absent" shrink absent new
refuses 8 '' 'file fault: ab\\x0asent\n'"$absent" asm $'ab\nsent' out
refuses 8 '' 'file fault: absent/im\\x0aage\n'"$absent" asm text $'absent/im\nage'
refuses 8 '' 'file fault: a\\x9bb\xc2\xa0\n'"$absent" asm $'a\302\233b\302\240' out
refuses 8 '' 'file fault: .\n'"$folder" asm . out
refuses 8 '' 'file fault: /dev/full\n'"$full" asm text /dev/full
refuses 14 '' 'not UTF-8\n' asm text $'im\377age'
"$t" run text tape aux 1 2>"$scratch/err" >/dev/full
[ $? = 8 ] && printf 'file fault: output\n'"$full" | cmp -s - "$scratch/err"
count $? "a full output: $(cat "$scratch/err")"

# Tapes of `run` that are too long.
yes 1 | head -n 131073 | tr '\n' ' ' >long
refuses 7 'limit: tape words 131073, most 131072\n' '' run text long aux 1
yes 1 | head -n 262145 | tr '\n' ' ' >long
refuses 7 'limit: aux words 262145, most 262144\n' '' run text tape long 1

# What `build` writes for given arguments, as long as the layout's number stays: the program, N, T, the network and the
# sum of the file's bytes.
lays_out() {
    new
    cp "$top/examples/$1.asm" text
    says 0 '' "build text $2 $3 system $4"
    [ "$(md5sum <system)" = "$5  -" ]
    count $? "layout $layout: $1: $said_by: $(md5sum <system)"
}

lays_out sum 4 16 '' cd033069e52c1d06e32aa03f8d68b36d
lays_out search 1 8 waksman 84e228effb161db76a0a21e0d5547f91
lays_out divisor 2 16 '' 3712335c33a7cbc2d764b15cdeefd94c

# Drawn programs, whose systems hold on the values of their runs, each time: the draws, the steps, wires and constraints,
# and the sum that a reader of the files that `build` and `witness` write for the same program computes.
draws() {
    local i
    for i in 1 2; do says 0 "trial: steps $2, wires $3, constraints $4, sum $5, satisfied $4\n" "trial 0 $1"; done
}

draws 63 64 33890 35236 13454647276995662329
draws 64 65 34413 35780 17733869466957625144
draws 1023 1024 619678 641184 16434170743931403383

# Systems that are shrunk. The front of a file without labels: its wires, those that are public beside wire 0, its
# constraints and its terms.
front() {
    bytes "$sample/system.r1cs" 0 8
    le 2 4
    bytes "$sample/system.r1cs" 12 24
    le "$1" 4
    bytes "$sample/system.r1cs" 40 4
    le "$2" 4
    bytes "$sample/system.r1cs" 48 12
    le "$3" 4
    le 2 4
    le $((12 * ($3 + $4))) 8
}

# The sum of these wires.
sum() {
    le $# 4
    local wire
    for wire in "$@"; do
        le "$wire" 4
        le 1 8
    done
}

# A system of one constraint, wire 1 being public: its wires and terms, and the sums of these wires.
single() {
    front "$1" 1 1 "$2"
    sum $3
    sum $4
    sum $5
}

new
cp "$sample/system.r1cs" product && cp "$top/examples/square.r1cs" square || exit 2
# 1 times wire 1, which is public, is 0; with labels
{
    bytes product 0 36
    le 2 4
    bytes product 40 12
    le 2 8
    le 1 4
    le 2 4
    le 36 8
    sum 0
    sum 1
    sum
    le 3 4
    le 16 8
    le 0 8
    le 1 8
} >public
single 4 4 '1 1' 2 3 >doubled
single 200 129 "$(seq 0 128)" '' '' >wide
# 32,768 constraints of 128 terms each, which aren't linear, and one with one term
{ sum $(seq 0 63) && sum $(seq 0 63) && sum; } >rows
for i in $(seq 15); do cat rows rows >more && mv more rows; done
{ front 200 199 32769 4194305 && cat rows && sum 1 && sum && sum; } >long
rm rows
file tape 3
refuses 5 'bad system: byte 0: truncated\n' '' shrink tape new
refuses 7 'limit: combination terms 129, most 128\n' '' shrink wide new
refuses 7 'limit: system terms 4194305, most 4194304\n' '' shrink long new
rm long

# Shrinks a file, and compares what is left with another.
shrinks() {
    says 0 '' "shrink $1 new"
    cmp -s new "$2"
    count $? "$said_by"
}

shrinks product product
shrinks square "$top/examples/square.shrunk.r1cs"
shrinks public public
# the constraint of the first, between two that have no terms
{ front 4 1 3 3 && sum && sum && sum && sum 1 && sum 2 && sum 3 && sum && sum && sum; } >blank
shrinks blank product
cp product twice
le 2 1 | put twice 84
shrinks doubled twice

# The bytes that are left of a file.
leaves() {
    says 0 '' "shrink $1 new"
    [ "$(stat -c %s new)" = "$2" ]
    count $? "$said_by: $(stat -c %s new) bytes, wanted $2"
}

# Of the first wires 0 and 1 are left, and of the second all three wires and no constraint. In the third each sum is the
# one before and a wire of its own: the constraint stays that makes 128 terms, of 1, 128 and 1 terms, and the wires 0, 1,
# 200 summands, and two sums.
single 3 4 '0 1' 0 2 >sum
single 3 1 '' 2 '' >nothing
{
    front 403 1 200 800
    for i in $(seq 2 201); do
        sum 0
        sum "$i" $((i + 200))
        sum $((i + 201))
    done
} >growing
leaves sum 104
leaves nothing 112
leaves growing 3292

echo "commands: $passed passed, $failed failed"
[ "$failed" -eq 0 ]
