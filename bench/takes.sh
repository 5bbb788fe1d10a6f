# What build.sh and witness.sh share; to be read in by a script that has set $bench. It makes a folder that is removed at
# the end, goes there, and puts the program and the name of the text in place.
folder=$(mktemp -d)
trap 'rm -rf "$folder"' EXIT
rounds=$bench/programs/rounds.asm
"$bench/../bin/tinyr1cs" asm "$rounds" "$folder/image"
cp "$(realpath "$bench/../crates/tinyr1cs/out/tinyr1cs")" "$folder/tinyr1cs"
cd "$folder"
gauge=$(type -P time)
TIMEFORMAT='%3R %3U %3S'

# Runs a command ROUNDS times, and reports of the run with the least processor time $clock, $processor and $memory: the
# seconds by the clock, those of the processor, user and system together, and the most KiB that it held. What it said
# last is in the file `said`.
least() {
    local round seconds used
    processor=
    for ((round = 0; round < ${ROUNDS:-3}; round++)); do
        { time "$gauge" -f %M -o memory "$@" > said; } 2> times
        read -r seconds used < <(awk '{ printf "%.3f %.3f\n", $1, $2 + $3 }' times)
        if [ -z "$processor" ] || awk "BEGIN { exit !($used < $processor) }"; then
            clock=$seconds processor=$used memory=$(cat memory)
        fi
    done
}

# A number with commas.
number() {
    sed -E ':a; s/^([0-9]+)([0-9]{3})/\1,\2/; ta' <<< "$1"
}

# A number of bytes in MB, or in GB.
size() {
    awk "BEGIN { x = $1 / 1e6; if (x < 1000) printf \"%.0f MB\", x; else printf \"%.1f GB\", x / 1e3 }"
}

# Millions a second.
per() {
    awk "BEGIN { x = $1 / 1e6 / $2; if (x < 100) printf \"%.1f\", x; else printf \"%.0f\", x }"
}

ratio() {
    awk "BEGIN { printf \"%.2f\", $1 / $2 }"
}

# A time for some bytes, of which the last number was copied.
scaled() {
    awk "BEGIN { printf \"%.3f\", $1 * $2 / $3 }"
}
