#!/usr/bin/env python3
"""Times programs side by side on the same words, in turn, round after round.

usage: compare.py ROUNDS PROGRAM PROGRAM.. -- WORD..

Prints for each program the least and the median processor time of a run, and their ratios to the last
program's. All have to end with the same status and to print the same.
"""

import os
import statistics
import subprocess
import sys


def run(program, words):
    process = subprocess.Popen([program, *words], stdout=subprocess.PIPE, stderr=subprocess.DEVNULL)
    printed = process.stdout.read()
    _, status, usage = os.wait4(process.pid, 0)
    process.returncode = os.waitstatus_to_exitcode(status)
    return (process.returncode, printed), 1000 * (usage.ru_utime + usage.ru_stime)


def main(rounds, *rest):
    programs, words = rest[: rest.index("--")], rest[rest.index("--") + 1 :]
    times = {program: [] for program in programs}
    for _ in range(int(rounds)):
        ends = set()
        for program, taken in times.items():
            end, time = run(program, words)
            ends.add(end)
            taken.append(time)
        assert len(ends) == 1, ends
    least, median = min(times[programs[-1]]), statistics.median(times[programs[-1]])
    for program, taken in times.items():
        name, fast, middle = os.path.basename(program), min(taken), statistics.median(taken)
        print(f"{name:12} least {fast:.2f} ms, {fast / least:.2f}; median {middle:.2f} ms, {middle / median:.2f}")


main(*sys.argv[1:])
