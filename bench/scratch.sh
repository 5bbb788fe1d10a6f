# What the scripts that time a library share; to be read in by a script that has set $bench. `prove NAME DEP ..` makes a
# scratch repository, removed at the end, of a program NAME and of the crates that it stands on: DEP .. and, by
# crates.txt, all below them, without their edits. The program's source is NAME.rattle here, since the gate reads every
# .rt file of the repository; what its proof needs beside it the caller puts below $scratch/crates/NAME/proofs first. It
# leaves the program that was proved as $scratch/proved. `rt ci` takes the proofs that the kit keeps, if it keeps them,
# and else proves the crates, for minutes; that the program prints times, and so nothing that `rt ci` knows, is no matter.
# Where PROVED is a folder, the program is taken from it, or kept there for the next time.
scratch=$(mktemp -d)
trap 'rm -rf "$scratch"' EXIT
mkdir "$scratch/.git" "$scratch/crates"

# The lines of crates.txt of these crates and of all that they stand on.
listed() {
    awk -F: -v wanted="$*" '
        /^#/ { next }
        { split($1, words, " "); line[words[1]] = $0; below[words[1]] = $2 }
        function mark(names, each, count, i) {
            count = split(names, each, " ")
            for (i = 1; i <= count; i++) {
                if (each[i] in seen || !(each[i] in line)) continue
                seen[each[i]] = 1
                print line[each[i]]
                mark(below[each[i]])
            }
        }
        END { mark(wanted) }
    ' "$bench/../crates.txt"
}

prove() {
    local name=$1
    shift
    if [ -x "${PROVED-}/$name" ]; then
        cp "$PROVED/$name" "$scratch/proved"
        return
    fi
    listed "$@" > "$scratch/crates.txt"
    local folders
    folders=$(cut -d : -f 1 "$scratch/crates.txt")
    (cd "$bench/../crates" && tar -cf - --exclude=out --exclude=must-fail $folders) | tar -xf - -C "$scratch/crates"
    mkdir -p "$scratch/crates/$name/src"
    cp "$bench/$name.rattle" "$scratch/crates/$name/src/main.rt"
    echo "$name: $*" >> "$scratch/crates.txt"
    (cd "$scratch/crates/$name" && rt fmt && cd "$scratch" && rt ci) > "$scratch/log" 2>&1 || :
    mv "$scratch/crates/$name/out/$name" "$scratch/proved" || { tail -20 "$scratch/log"; exit 1; }
    if [ -d "${PROVED-}" ]; then cp "$scratch/proved" "$PROVED/$name"; fi
}
