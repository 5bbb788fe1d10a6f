#!/bin/bash
# The program at its edges: closed streams, full disks, folders, absent names, pipes, files that are cut while they are
# read, a witness longer than the memory that there is, long words and words that aren't UTF-8, and one file under two
# paths.
#
#     tests/edges.sh [BINARY]
#
# A line of the table is: exit status, standard output, standard error, the files that are new or changed, and the
# command, where `$t` is the program. Each runs in a folder of its own that holds a program P, whose image I is, its
# system S and witness V, the text BAD, empty tapes E, a folder D, a program R that reads a word of either tape, the
# tape F and its witness VR, and a system Q of 4 wires. The last line counts; the status is 1 where one failed. A command
# that hangs is ended after 60 seconds and failed. The last cases are of bin/tinyr1cs, and need the kit's `rt`. It stands
# outside the gate.
set -u

top=$(dirname -- "$(dirname -- "$(realpath -- "$0")")")
t=$(realpath -- "${1:-$top/crates/tinyr1cs/out/tinyr1cs}") || exit 2
scratch=$(mktemp -d) || exit 2
trap 'rm -rf -- "$scratch"' EXIT
export t
export LC_ALL=C
passed=0
failed=0
limit=60

mkdir -p "$scratch/base/D" && cd "$scratch/base" || exit 2
echo 'answer 0' >P
echo 'nonsense' >BAD
: >E
echo 'old bytes' >OLD
"$t" asm P I && "$t" build P 0 1 S && "$t" witness P E E 1 V && printf '0\n' >A || exit 2
printf 'read r1, 0\nread r2, 1\nsub r3, r1, r2\nanswer r3\n' >R
echo 7 >F && "$t" witness R F F 4 VR || exit 2
wires=$((($(stat -c %s V) - 52) / 8))
cp "$top/crates/tinyr1cs/data/system.r1cs" Q || exit 2

# The names and sums of all files here.
sums() {
    find . -type f -exec md5sum {} + | sort
}

# One line of the table.
edge() {
    local status=$1 out=$2 err=$3 changed=$4 command=$5
    local seen_status seen_changed
    rm -rf -- "$scratch/case" && cp -r "$scratch/base" "$scratch/case" && cd "$scratch/case" || exit 2
    sums >"$scratch/before"
    timeout "$limit" bash -c "$command" >"$scratch/out" 2>"$scratch/said" </dev/null
    seen_status=$?
    # What helps is left out: the system's reason of a fault, and how commands are called. tests/commands.sh has it.
    sed '/(os error [0-9]*)$/d;/^tinyr1cs [a-z]* [A-Z]/d;/^.man tinyr1cs/d' "$scratch/said" >"$scratch/err"
    sums >"$scratch/after"
    seen_changed=$(comm -3 "$scratch/before" "$scratch/after" | sed 's/.* \.\///' | sort -u | tr '\n' ' ' | sed 's/ $//')
    printf '%b' "$out" >"$scratch/wanted_out"
    printf '%b' "$err" >"$scratch/wanted_err"
    if [ "$seen_status" = "$status" ] && [ "$seen_changed" = "$changed" ] &&
        cmp -s "$scratch/wanted_out" "$scratch/out" && cmp -s "$scratch/wanted_err" "$scratch/err"; then
        passed=$((passed + 1))
    else
        failed=$((failed + 1))
        echo "failed: $command"
        echo "    status $seen_status, wanted $status; changed '$seen_changed', wanted '$changed'"
        echo "    output '$(head -c 200 "$scratch/out")', wanted '$out'"
        echo "    error '$(head -c 200 "$scratch/err")', wanted '$err'"
    fi
}

# Closed streams: what can't be said is a fault, and no byte of it lands in a file.
edge 0 '' '' 'IMAGE' '$t asm P IMAGE >&- 2>&- && cmp -s I IMAGE'
edge 0 '' '' 'IMAGE' '$t asm P IMAGE <&- >&- 2>&- && cmp -s I IMAGE'
edge 8 '' '' '' '$t asm BAD IMAGE >&- 2>&-'
edge 8 '' '' '' '$t asm BAD OLD <&- >&- 2>&-'
edge 8 '' 'file fault: output\n' '' '$t asm BAD OLD >&-'
edge 8 '' '' '' '$t asm ABSENT OLD >&- 2>&-'
edge 8 '' '' '' '$t asm P D >&- 2>&-'
edge 8 '' '' '' '$t check S V A >&- 2>&-'
edge 8 '' '' '' '$t check S V A <&- >&- 2>&-'
edge 0 'yes\n' '' '' '$t check S V A 2>&-'
edge 0 'yes\n' '' '' '$t check S V A <&-'
edge 8 '' '' 'AUX TAPE' '$t extract P 0 1 V TAPE AUX >&- 2>&-; s=$?; test ! -s TAPE && test ! -s AUX && exit $s'
edge 8 '' '' 'AUX TAPE' '$t extract P 0 1 V TAPE AUX <&- >&- 2>&-; s=$?; test ! -s TAPE && test ! -s AUX && exit $s'
edge 8 '' '' '' '$t run P E E 1 >&- 2>&-'
edge 8 '' '' '' '$t trial 0 1 >&- 2>&-'
edge 8 '' '' '' '$t trial 0 0 >&- 2>&-'
edge 8 '' '' '' '$t build BAD 0 1 OLD >&- 2>&-'
edge 8 '' '' '' '$t witness P E BAD 1 OLD >&- 2>&-'
edge 8 '' '' '' '$t disasm BAD OLD >&- 2>&-'
edge 8 '' '' '' '$t listing P 0 1 S time OLD >&- 2>&-'
edge 8 '' '' '' '$t shrink V OLD >&- 2>&-'
edge 8 '' '' '' '$t >&- 2>&-'
edge 0 '' '' 'OUT' '$t disasm I OUT >&- 2>&- && $t asm OUT IMAGE && cmp -s I IMAGE && rm IMAGE'
edge 0 '' '' 'OUT' '$t build P 0 1 OUT >&- 2>&- && cmp -s S OUT'
edge 0 '' '' 'OUT' '$t witness P E E 1 OUT >&- 2>&- && cmp -s V OUT'
edge 0 '' '' 'OUT' '$t listing P 0 1 V time OUT >&- 2>&- && test $(wc -l <OUT) = 5'
edge 0 '' '' 'OUT' '$t shrink S OUT >&- 2>&- && test -s OUT'

# A closed stream that is named as a file: it is neither read nor written, and is a fault of its name.
edge 8 '' 'file fault: /dev/stdin\n' '' '$t asm /dev/stdin OUT <&-'
edge 8 '' 'file fault: /dev/stdin\n' '' '$t disasm /dev/stdin OUT <&-'
edge 8 '' 'file fault: /dev/stdin\n' '' '$t build /dev/stdin 0 1 OUT <&-'
edge 8 '' 'file fault: /dev/stdin\n' '' '$t run P E /dev/stdin 4 <&-'
edge 8 '' 'file fault: /dev/stdin\n' '' '$t run P /dev/stdin E 4 <&-'
edge 8 '' 'file fault: /dev/stdin\n' '' '$t witness P E /dev/stdin 4 OUT <&-'
edge 8 '' 'file fault: /dev/stdin\n' '' '$t check /dev/stdin V A <&-'
edge 8 '' 'file fault: /dev/stdin\n' '' '$t check S /dev/stdin A <&-'
edge 8 '' 'file fault: /dev/stdin\n' '' '$t check S V /dev/stdin <&-'
edge 8 '' 'file fault: /dev/stdin\n' '' '$t extract P 0 1 /dev/stdin TAPE AUX <&-'
edge 8 '' 'file fault: /dev/stdin\n' '' '$t listing P 0 1 /dev/stdin time OUT <&-'
edge 8 '' 'file fault: /dev/stdin\n' '' '$t shrink /dev/stdin OUT <&-'
edge 8 '' 'file fault: /dev/stdin\n' '' '$t asm P /dev/stdin <&-'
edge 8 '' 'file fault: /dev/stdout\n' '' '$t asm P /dev/stdout >&-'
edge 8 '' 'file fault: /dev/stdout\n' '' '$t asm /dev/stdout OUT >&-'
edge 8 '' 'file fault: /dev/stdout\n' '' '$t disasm I /dev/stdout >&-'
edge 8 '' 'file fault: /dev/stdout\n' '' '$t build P 0 1 /dev/stdout >&-'
edge 8 '' 'file fault: /dev/stdout\n' '' '$t witness P E E 1 /dev/stdout >&-'
edge 8 '' 'file fault: /dev/stdout\n' '' '$t extract P 0 1 V /dev/stdout AUX >&-'
edge 8 '' 'file fault: /dev/stdout\n' '' '$t listing P 0 1 V time /dev/stdout >&-'
edge 8 '' 'file fault: /dev/stdout\n' '' '$t shrink S /dev/stdout >&-'
edge 8 '' '' '' '$t asm P /dev/stderr 2>&-'
edge 8 '' '' '' '$t asm /dev/stderr OUT 2>&-'
edge 8 '' '' '' '$t build P 0 1 /dev/stderr 2>&-'
edge 8 '' '' '' '$t check S V /dev/stderr 2>&-'

# An output whose reader is gone.
edge 8 '' '' '' '{ sleep 0.2; $t check S V A 2>/dev/null; echo $? >s; } | true; s=$(cat s); rm s; exit $s'
edge 8 '' '' '' '{ sleep 0.2; $t trial 0 1 2>/dev/null; echo $? >s; } | true; s=$(cat s); rm s; exit $s'

# A full disk, as the name that is written and as standard output or error.
edge 8 '' 'file fault: /dev/full\n' '' '$t asm P /dev/full'
edge 8 '' 'file fault: /dev/full\n' '' '$t disasm I /dev/full'
edge 8 '' 'file fault: /dev/full\n' '' '$t build P 0 1 /dev/full'
edge 8 '' 'file fault: /dev/full\n' '' '$t witness P E E 1 /dev/full'
edge 8 '' 'file fault: /dev/full\n' '' '$t listing P 0 1 V time /dev/full'
edge 8 '' 'file fault: /dev/full\n' '' '$t shrink S /dev/full'
edge 8 '' 'file fault: output\n' '' '$t check S V A >/dev/full'
edge 8 '' 'file fault: output\n' '' '$t run P E E 1 >/dev/full'
edge 8 '' 'file fault: output\n' '' '$t trial 0 1 >/dev/full'
edge 8 '' 'file fault: output\n' '' '$t >/dev/full'
edge 8 '' 'file fault: output\n' 'AUX TAPE' '$t extract R 1 4 VR TAPE AUX >/dev/full; s=$?; cmp -s F TAPE && cmp -s F AUX && exit $s'
edge 8 '' 'file fault: /dev/full\n' '' '$t extract R 1 4 VR /dev/full AUX'
edge 8 '' 'file fault: /dev/full\n' 'TAPE' '$t extract R 1 4 VR TAPE /dev/full; s=$?; cmp -s F TAPE && exit $s'
edge 8 '' '' '' '$t check S V ABSENT 2>/dev/full'
edge 8 '' '' 'OUT' '(ulimit -f 8; trap "" XFSZ; $t build P 0 1 OUT 2>/dev/null); s=$?; test $(stat -c %s OUT) -le 8192 && exit $s'
edge 8 '' '' 'OUT' '(ulimit -f 2; trap "" XFSZ; $t witness P E E 1 OUT 2>/dev/null); s=$?; n=$(stat -c %s OUT)
    test $n -le 2048 && cmp -s -n $n V OUT && exit $s'

# A name that is a folder, and one that isn't there.
edge 8 '' 'file fault: D\n' '' '$t asm D IMAGE'
edge 8 '' 'file fault: D\n' '' '$t asm P D'
edge 8 '' 'file fault: D\n' '' '$t check D V A'
edge 8 '' 'file fault: D\n' '' '$t check S D A'
edge 8 '' 'file fault: D\n' '' '$t check S V D'
edge 8 '' 'file fault: D\n' '' '$t disasm D OUT'
edge 8 '' 'file fault: D\n' '' '$t disasm I D'
edge 8 '' 'file fault: D\n' '' '$t run P D E 1'
edge 8 '' 'file fault: D\n' '' '$t run P E D 1'
edge 8 '' 'file fault: D\n' '' '$t build P 0 1 D'
edge 8 '' 'file fault: D\n' '' '$t build D 0 1 OUT'
edge 8 '' 'file fault: D\n' '' '$t witness P E E 1 D'
edge 8 '' 'file fault: D\n' '' '$t extract R 1 4 D TAPE AUX'
edge 8 '' 'file fault: D\n' '' '$t extract R 1 4 VR D AUX'
edge 8 '' 'file fault: D\n' 'TAPE' '$t extract R 1 4 VR TAPE D; s=$?; cmp -s F TAPE && exit $s'
edge 8 '' 'file fault: D\n' '' '$t listing P 0 1 D time OUT'
edge 8 '' 'file fault: D\n' '' '$t listing P 0 1 V time D'
edge 8 '' 'file fault: D\n' '' '$t shrink D OUT'
edge 8 '' 'file fault: D\n' '' '$t shrink S D'
edge 8 '' 'file fault: ABSENT\n' '' '$t asm ABSENT IMAGE'
edge 8 '' 'file fault: ABSENT\n' '' '$t check S ABSENT A'
edge 8 '' 'file fault: D/ABSENT/OUT\n' '' '$t build P 0 1 D/ABSENT/OUT'
edge 8 '' 'file fault: ABSENT\n' '' '$t witness P ABSENT E 1 OLD'
edge 8 '' 'file fault: \n' '' '$t asm "" IMAGE'

# Pipes, both under the name of a standard stream and named. What is written may go into one, whatever the file.
edge 0 '' '' '' 'set -o pipefail; $t asm P /dev/stdout | cmp - I'
edge 0 '' '' '' 'set -o pipefail; $t disasm I /dev/stdout | $t asm /dev/stdin /dev/stdout | cmp - I'
edge 0 '' '' '' 'set -o pipefail; $t build P 0 1 /dev/stdout | cmp - S'
edge 0 '' '' '' 'set -o pipefail; $t build P 0 65 /dev/stdout | md5sum >a; $t build P 0 65 b; md5sum <b | cmp a - && rm a b'
edge 0 '' '' '' 'set -o pipefail; $t witness P E E 1 /dev/stdout | cmp - V'
edge 0 '' '' '' 'set -o pipefail; $t listing P 0 1 V time /dev/stdout | wc -l | grep -qx 5'
edge 0 '' '' '' 'set -o pipefail; $t shrink S a; $t shrink S /dev/stdout | cmp - a && rm a'
edge 0 'answer 0 at step 4\n' '' '' 'mkfifo p; cmp F p & $t extract R 1 4 VR p AUX && wait $! && cmp F AUX && rm p AUX'
edge 0 '' '' '' 'mkfifo p; cmp S p & $t build P 0 1 p && wait $! && rm p'
edge 0 '' '' '' 'mkfifo p; cmp V p & $t witness P E E 1 p && wait $! && rm p'

# A pipe whose reader is gone is a fault, also in the midst of what is written.
edge 8 '' 'file fault: /dev/stdout\n' '' '{ $t build P 0 65 /dev/stdout; echo $? >s; } | head -c 100 >/dev/null; s=$(cat s); rm s; exit $s'
edge 8 '' 'file fault: p\n' '' 'mkfifo p; head -c 100 p >/dev/null & $t witness P E E 65 p; s=$?; rm p; exit $s'

# Texts, images and tapes are read from their first byte on, so each may be a pipe.
edge 0 '' '' 'IMAGE' 'set -o pipefail; cat P | $t asm /dev/stdin IMAGE && cmp -s I IMAGE'
edge 0 '' '' 'OUT' 'set -o pipefail; cat I | $t disasm /dev/stdin OUT && $t asm OUT IMAGE && cmp -s I IMAGE && rm IMAGE'
edge 0 'answer 0 at step 4\n' '' '' '$t run <(cat R) <(cat F) <(cat F) 4'
edge 0 '' '' 'OUT' '$t build <(cat P) 0 1 OUT && cmp -s S OUT'
edge 0 '' '' 'OUT' '$t witness <(cat R) <(cat F) <(cat F) 4 OUT && cmp -s VR OUT'
edge 0 'answer 0 at step 4\n' '' 'AUX TAPE' '$t extract <(cat R) 1 4 VR TAPE AUX && cmp -s F TAPE && cmp -s F AUX'
edge 0 '' '' 'OUT' '$t listing <(cat P) 0 1 V time OUT && test $(wc -l <OUT) = 5'
edge 0 'yes\n' '' '' 'set -o pipefail; cat A | $t check S V /dev/stdin'
edge 3 'bad program: line 1: unknown name\n' '' '' '$t asm <(cat BAD) OLD'

# Systems and values are read at places, and by check a system twice: a pipe is a fault there, and nothing is written.
# (Values of at most 65,536 bytes that lie in the pipe at once are read without going to a place.)
edge 8 '' 'file fault: /dev/stdin\n' '' 'cat S | $t check /dev/stdin V A'
edge 8 '' 'file fault: /dev/stdin\n' '' 'cat Q | $t check /dev/stdin V A'
edge 8 '' 'file fault: /dev/stdin\n' '' '$t witness P E E 65 a; cat a | $t check S /dev/stdin A; s=$?; rm a; exit $s'
edge 8 '' 'file fault: /dev/stdin\n' '' 'cat S | $t shrink /dev/stdin OLD'
edge 8 '' 'file fault: /dev/stdin\n' '' '$t witness P E E 65 a; cat a | $t extract P 0 65 /dev/stdin OLD AUX; s=$?; rm a; exit $s'
edge 8 '' 'file fault: /dev/stdin\n' '' '$t witness P E E 65 a; cat a | $t listing P 0 65 /dev/stdin time OLD; s=$?; rm a; exit $s'
edge 8 '' 'file fault: p\n' '' 'mkfifo p; cat S >p & $t check p V A; s=$?; rm p; exit $s'

# A section that ends at a place that no file of the file system has is one that the file is too short for.
edge 5 'bad system: byte 12: truncated\n' '' 'HUGE' \
    'printf "r1cs\1\0\0\0\1\0\0\0\1\0\0\0\0\0\0\0\0\0\4\0" >HUGE; $t check HUGE V A'

# A witness of 4,000,000 values, all 0 but the last, over a system of few wires, in less memory than these values take:
# they are counted, and the last is judged.
export long='
long() {
    local last=$1 s
    shift
    printf "wtns\2\0\0\0\2\0\0\0\1\0\0\0\20\0\0\0\0\0\0\0\10\0\0\0\1\0\0\0\377\377\377\377\0\11\75\0\2\0\0\0\0\110\350\1\0\0\0\0" >LONG
    truncate -s 32000044 LONG && printf "$last" >>LONG
    (ulimit -v 16384; "$@"); s=$?
    rm LONG; return $s
}'
zero='\0\0\0\0\0\0\0\0'
prime='\1\0\0\0\377\377\377\377'
edge 1 'no: 4000000 wires, 4 wanted\n' '' '' 'eval "$long"; long "'$zero'" $t check Q LONG A'
edge 6 'bad witness: byte 32000044: not below p\n' '' '' 'eval "$long"; long "'$prime'" $t check Q LONG A'
edge 11 "not a run: 4000000 wires, $wires wanted\n" '' '' 'eval "$long"; long "'$zero'" $t extract P 0 1 LONG OLD AUX'
edge 6 'bad witness: byte 32000044: not below p\n' '' '' 'eval "$long"; long "'$prime'" $t extract P 0 1 LONG OLD AUX'
edge 11 "not a run: 4000000 wires, $wires wanted\n" '' '' 'eval "$long"; long "'$zero'" $t listing P 0 1 LONG time OLD'

# A system of 2^32 - 1 wires whose one constraint names the last of them but one, in less memory than a bit for each
# wire takes: `shrink` takes memory for the terms, and the file of all labels finds no room.
edge 8 '' 'file fault: /dev/full\n' 'FAR' '
    printf "r1cs\1\0\0\0\2\0\0\0\1\0\0\0\50\0\0\0\0\0\0\0\10\0\0\0\1\0\0\0\377\377\377\377\377\377\377\377" >FAR
    printf "\0\0\0\0\0\0\0\0\0\0\0\0\0\0\0\0\0\0\0\0\1\0\0\0\2\0\0\0\60\0\0\0\0\0\0\0" >>FAR
    printf "\1\0\0\0\376\377\377\377\1\0\0\0\0\0\0\0\1\0\0\0\0\0\0\0\1\0\0\0\0\0\0\0" >>FAR
    printf "\1\0\0\0\1\0\0\0\1\0\0\0\0\0\0\0" >>FAR; (ulimit -v 200000; $t shrink FAR /dev/full)'

# A file that is cut while it is read, at 20 moments: the answer is one of those of a file that it was, or of its front
# and a lost end, and none hangs.
export cutting='
cut_while() {
    local whole=$1 size=$2 i s
    shift 2
    for i in $(seq -w 2 2 40); do
        cp $whole CUT
        (sleep 0.0$i; truncate -s $size CUT) &
        $t "$@" >line
        s=$?
        wait
        rm CUT
        is_right $s || { echo "status $s, $(cat line)"; return 1; }
        rm line
    done
}'
edge 0 '' '' '' 'eval "$cutting"; is_right() { case $1 in 0) grep -qx yes line ;; 5) grep -q "^bad system: byte" line ;; *) false ;; esac; }
    $t build P 0 65 BIG && $t witness P E E 65 VBIG && cut_while BIG 1000 check CUT VBIG A && rm BIG VBIG'
edge 0 '' '' '' 'eval "$cutting"; is_right() { case $1 in 0) grep -qx yes line ;; 6) grep -q "^bad witness: byte" line ;; *) false ;; esac; }
    $t build P 0 65 BIG && $t witness P E E 65 VBIG && cut_while VBIG 1000 check BIG CUT A && rm BIG VBIG'
edge 0 '' '' '' 'eval "$cutting"; is_right() { case $1 in 0) grep -qx "answer 0 at step 1" line ;; 6) grep -q "^bad witness: byte" line ;; *) false ;; esac; }
    $t witness P E E 2048 VBIG && cut_while VBIG 1000 extract P 0 2048 CUT TAPE AUX && rm -f VBIG TAPE AUX'
edge 0 '' '' '' 'eval "$cutting"; is_right() { case $1 in 0) test ! -s line ;; 5) grep -q "^bad system: byte" line ;; *) false ;; esac; }
    $t build P 0 65 BIG && cut_while BIG 1000 shrink CUT OUT && rm -f BIG OUT'
edge 0 '' '' '' 'eval "$cutting"; is_right() { case $1 in 0) test ! -s line ;; 3) grep -qx "bad program: line [0-9]*: .*" line ;; *) false ;; esac; }
    yes "answer 0" | head -n 20000 >TEXT; cut_while TEXT 900 asm CUT IMAGE && rm -f TEXT IMAGE'

# Words of 1 MiB in all, more than one that isn't UTF-8, and names with control bytes.
edge 2 'usage: asm, disasm, run, build, witness, check, extract, trial, shrink, listing\n' '' '' '$t $(printf "%0120000d" 0)'
edge 2 'usage: asm, disasm, run, build, witness, check, extract, trial, shrink, listing\n' '' '' \
    'w=$(printf "%0116508d" 0); $t asm P OLD $w $w $w $w $w $w $w $w $w'
edge 8 '' '' '' '$t asm $(printf "%0120000d" 0) OLD 2>/dev/null'
edge 8 '' 'file fault: a\\x0ab\\x1b[1m\xc3\xa9\n' '' '$t asm "$(printf "a\nb\033[1m\303\251")" IMAGE'
edge 14 '' 'not UTF-8\n' '' '$t asm P $(printf "\\377")'
edge 14 '' 'not UTF-8\n' '' '$t $(printf "\\303")'
edge 14 '' '' '' '$t $(printf "\\303") >&- 2>&-'

# One file under two paths, of which one is written: all is read before the first write, so the command does what it
# says, and what the file held is gone.
edge 12 'same name: words 1 and 2\n' '' '' '$t asm P P'
edge 0 '' '' 'P' '$t asm P ./P && cmp -s I P'
edge 0 '' '' 'I' '$t disasm I ./I && $t asm I IMAGE && s=$(od -An -tx1 IMAGE) && rm IMAGE && test -n "$s"'
edge 0 '' '' 'P' '$t build P 0 1 ./P && cmp -s S P'
edge 0 '' '' 'P' '$t witness P E E 1 ./P && cmp -s V P'
edge 0 '' '' 'E' '$t witness P E E 1 ./E && cmp -s V E'
edge 0 'answer 0 at step 1\n' '' 'V' '$t extract P 0 1 V ./V AUX && test ! -s V && rm AUX'
edge 0 'answer 0 at step 1\n' '' 'TAPE' '$t extract P 0 1 V TAPE ./TAPE && test ! -s TAPE'
edge 0 '' '' 'V' '$t listing P 0 1 V time ./V && test $(wc -l <V) = 5'
edge 0 '' '' 'P' '$t listing P 0 1 V cell ./P && test $(wc -l <P) = 5'
edge 0 '' '' 'S' '$t shrink S OUT && $t shrink S ./S && cmp -s S OUT && rm OUT'

# bin/tinyr1cs in a repository of one small program: built at the first call, run at the second, and never run where the
# prover refuses the sources that are there now.
export repo=$scratch/repo
limit=600
mkdir -p "$repo/crates/tinyr1cs/src" && cp -r "$top/bin" "$repo" || exit 2
echo 'tinyr1cs:' >"$repo/crates.txt"
echo 'Handles allowed: none.' >"$repo/HANDLES"
echo yes >"$repo/crates/tinyr1cs/stdout"
cat >"$repo/crates/tinyr1cs/src/main.rt" <<'END'
// Says yes.
#![tactic(auto)]

ghost use Rattle.std.specs.Prelude.{◌≡◌};

use std::io;

fn one() -> u8
    ensures { result ≡ 1 }
{
    1
}

fn main(rt: HostRuntime) -> io::Result<()> {
    if one() == 1 {
        println!(rt; "yes")?;
    }
    Ok(())
}
END
edge 127 '' '' '' 'cd $repo; PATH=/usr/bin:/bin bin/tinyr1cs 2>/dev/null'
edge 0 'yes\n' '' '' 'cd $repo; bin/tinyr1cs 2>/dev/null'
edge 0 'yes\n' '' '' 'cd $repo; bin/tinyr1cs'
edge 127 '' '' '' 'cd $repo; sed -i "s/^    1$/    2/" crates/tinyr1cs/src/main.rt; bin/tinyr1cs 2>err; s=$?
    tail -n 1 err | grep -qx "tinyr1cs: not built of these sources" && grep -q "^fn tinyr1cs::one: no" err && exit $s'
edge 127 '' '' '' 'cd $repo; bin/tinyr1cs 2>/dev/null'
edge 0 'yes\n' '' '' 'cd $repo; sed -i "s/^    2$/    1/" crates/tinyr1cs/src/main.rt; bin/tinyr1cs'
edge 0 'yes\n' '' '' 'cd $repo; echo "not a program" >crates/tinyr1cs/out/tinyr1cs; bin/tinyr1cs 2>/dev/null'
edge 0 'yes\n' '' '' 'cd $repo; touch -d yesterday crates/tinyr1cs/src/main.rt; bin/tinyr1cs'

echo "edges: $passed passed, $failed failed"
[ "$failed" -eq 0 ]
