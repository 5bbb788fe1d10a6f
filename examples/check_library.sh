#!/bin/sh
# Builds the library by `bin/build library`, with the words given here, and runs the examples in c/, rust/ and python/ on a
# program here, each where the machine has what it needs: cc; rustc; python3, and cc for the shared object. The last
# line counts; the status is 1 where one failed.
set -u

examples=$(dirname -- "$(realpath -- "$0")")
top=$(dirname -- "$examples")
kit=$(dirname -- "$(dirname -- "$(realpath -- "$(command -v rt)")")")
built=$top/crates/tinyr1cs_c/out
folder=$(mktemp -d) || exit 1
trap 'rm -rf -- "$folder"' EXIT

if ! "$top/bin/build" library "$@" >"$folder/log" 2>&1; then
    tail -n 20 "$folder/log" >&2
    echo "library: 0 passed, 1 failed"
    exit 1
fi

passed=0
failed=0

# Whether the machine has a command.
has() {
    command -v "$1" >/dev/null || { echo "library: no $1 here" >&2 && false; }
}

# Counts whether a command passes.
count() {
    if "$@"; then passed=$((passed + 1)); else failed=$((failed + 1)); fi
}

# Runs an example on the program `search`; the words after the first are the example's own.
on_search() {
    example=$1
    shift
    "$example" "$examples/search.asm" "$examples/search.tape" "$examples/search.aux" 8 "$@"
}

c() {
    cc -O2 -I "$top/include" "$examples/c/check.c" "$built/libtinyr1cs_c.a" "$kit/c/liblibc_c.a" -o "$folder/c" &&
        on_search "$folder/c" 1 20
}

rust() {
    rustc --edition 2021 -O -L native="$built" -L native="$kit/c" -l static=tinyr1cs_c -l static=libc_c \
        "$examples/rust/check.rs" -o "$folder/rust" && on_search "$folder/rust"
}

# The archive as a shared object, and the example over it.
python() {
    cc -shared -Wl,--whole-archive "$built/libtinyr1cs_c.a" -Wl,--no-whole-archive "$kit/c/liblibc_c.a" \
        -o "$folder/libtinyr1cs.so" &&
        python3 -B "$examples/python/check.py" "$folder/libtinyr1cs.so" "$examples/search.asm" "$examples/search.tape" \
            "$examples/search.aux" 8
}

if has cc; then count c; fi
if has rustc; then count rust; fi
if has python3 && has cc; then count python; fi
echo "library: $passed passed, $failed failed"
[ "$failed" -eq 0 ]
