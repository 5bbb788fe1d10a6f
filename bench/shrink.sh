#!/bin/sh
# Times `tinyr1cs shrink` on systems of TERMS terms, 4,194,304 where none are said, as a compiler of circuits leaves
# them, against `tinyr1cs check` on the same systems, in turn: processor time, the ratios, and the most memory held; and
# prints the terms, constraints and wires before and after. usage: bench/shrink.sh [TERMS [ROUNDS]]
set -eu

terms=${1:-4194304}
rounds=${2:-15}
bench=$(dirname -- "$(realpath -- "$0")")
"$bench/../bin/tinyr1cs" >/dev/null || [ $? -eq 2 ]
tinyr1cs=$(realpath -- "$bench/../crates/tinyr1cs/out/tinyr1cs")
folder=$(mktemp -d)
trap 'rm -rf "$folder"' EXIT
cd "$folder"

# The numbers of a system's header, and its terms, which section 2 has beside three counts a constraint.
told() {
    python3 -c '
import struct, sys
head = open(sys.argv[1], "rb").read(76)
wires, constraints, size = struct.unpack_from("<I", head, 36)[0], struct.unpack_from("<I", head, 60)[0], struct.unpack_from("<Q", head, 68)[0]
print(f"{size // 12 - constraints} terms, {constraints} constraints, {wires} wires")' "$1"
}

# Runs `check` and `shrink` in turn: the least and the median processor time of each, their ratios, and the most memory.
timed() {
    python3 - "$tinyr1cs" "$rounds" <<'END'
import os, statistics, subprocess, sys

COMMANDS = {"check": "check system.r1cs witness.wtns public.tape", "shrink": "shrink system.r1cs shrunk.r1cs"}


def run(command):
    process = subprocess.Popen([sys.argv[1], *command.split()], stdout=subprocess.DEVNULL)
    _, status, usage = os.wait4(process.pid, 0)
    assert status == 0, command
    return 1000 * (usage.ru_utime + usage.ru_stime), usage.ru_maxrss


times = {name: [] for name in COMMANDS}
for _ in range(int(sys.argv[2])):
    for name, command in COMMANDS.items():
        times[name].append(run(command))
least, median = min(times["check"])[0], statistics.median(time for time, _ in times["check"])
for name, taken in times.items():
    fast, middle, memory = min(taken)[0], statistics.median(time for time, _ in taken), max(memory for _, memory in taken)
    print(f"  {name:6} least {fast:.1f} ms, {fast / least:.2f}; median {middle:.1f} ms, {middle / median:.2f}; {memory} KiB")
END
}

for kind in rounds chain; do
    "$bench/make_chains.py" "$kind" . "$terms"
    sync
    timed
    echo "  left: $(told shrunk.r1cs)"
done
