#!/usr/bin/env python3
"""What the merge gate costs, by crate, as a table for README.md.

    bench/gate.py [COMMAND ..]

runs COMMAND, `rt ci` where none is given, at the top of this repository, and passes its output on. Then it prints, as
Markdown, the processor minutes of each crate's proof, of the proof of its tests and of its must-fail edits, with the
check that these begin with; the minute in which its proof ended; and the sums. The gate's output says which crates are
kept from an earlier run, but has no times. These are read from /proc, twice a second, of the prover's processes that
the gate starts, so this needs Linux. Ends with the status of COMMAND. `bench/gate.py bin/build` does the same for the
first build.
"""
import os
import re
import subprocess
import sys
import threading
import time

EVERY = 0.5
TICKS = os.sysconf("SC_CLK_TCK")
KINDS = ("proof", "tests", "edits")


def processes():
    """Returns the parent, the start and the ticks of each process, those of its ended children among them."""
    found = {}
    for name in os.listdir("/proc"):
        if name.isdigit():
            try:
                with open(f"/proc/{name}/stat", encoding="utf-8", errors="replace") as it:
                    fields = it.read().rpartition(")")[2].split()
            except OSError:
                continue
            found[int(name)] = int(fields[1]), fields[19], sum(map(int, fields[11:15]))
    return found


def task_of(pid):
    """Returns the crate that a process of the prover works on, and what of it, or None for another process."""
    try:
        with open(f"/proc/{pid}/cmdline", encoding="utf-8", errors="replace") as it:
            words = it.read().split("\0")
        folder = os.readlink(f"/proc/{pid}/cwd")
    except OSError:
        return None
    if "--crate-name" not in words[:-1]:
        return None
    in_tree = os.path.basename(os.path.dirname(folder)) == "crates"
    kind = "tests" if "--test" in words else "proof" if in_tree else "edits"
    return words[words.index("--crate-name") + 1], kind


class Meter:
    """The ticks of what a process started, by task."""

    def __init__(self, root):
        self.root, self.tasks, self.ticks, self.seen, self.all = root, {}, {}, {}, 0

    def look(self):
        """Reads the times that stand in /proc now. A task is the first of its processes below the root."""
        found = processes()
        below = {}
        for pid, (parent, _, _) in found.items():
            below.setdefault(parent, []).append(pid)

        def total(pid):
            return found[pid][2] + sum(map(total, below.get(pid, [])))

        def walk(pid):
            key = pid, found[pid][1]
            if pid != self.root and key not in self.tasks:
                task = task_of(pid)
                if task:
                    self.tasks[key] = task
            if key in self.tasks:
                self.ticks[key] = max(total(pid), self.ticks.get(key, 0))
                self.seen[self.tasks[key]] = time.time()
            else:
                for it in below.get(pid, []):
                    walk(it)

        if self.root in found:
            walk(self.root)
            self.all = max(self.all, total(self.root))

    def minutes(self):
        """Returns the minutes by crate and kind."""
        sums = {}
        for key, task in self.tasks.items():
            sums[task] = sums.get(task, 0) + self.ticks.get(key, 0) / TICKS / 60
        return sums


def table(sums, ends, kept, elapsed, whole):
    """Prints the crates, the dearest first."""
    crates = {crate for crate, _ in sums} | kept
    rows = {it: [sums.get((it, kind), 0) for kind in KINDS] for it in crates}
    print(f"\n| crate | {' | '.join(KINDS)} | all | proved by minute |\n|---|---|---|---|---|---|")
    for crate in sorted(rows, key=lambda it: (-sum(rows[it]), it)):
        end = "kept" if crate in kept else f"{ends[crate]:.0f}" if crate in ends else ""
        cells = [f"{it:.1f}" if it else "" for it in rows[crate]]
        print(f"| `{crate}` | {' | '.join(cells)} | {sum(rows[crate]):.1f} | {end} |")
    columns = [sum(it) for it in zip(*rows.values())] or [0, 0, 0]
    print(f"| all | {' | '.join(f'{it:.1f}' for it in columns)} | {sum(columns):.1f} | |")
    print(
        f"\n{whole:.0f} processor minutes, what runs and builds programs among them, in {elapsed:.0f} minutes"
        f" on {len(os.sched_getaffinity(0))} processors"
    )


def main(words):
    os.chdir(os.path.dirname(os.path.dirname(os.path.realpath(__file__))))
    begun = time.time()
    ran = subprocess.Popen(words or ["rt", "ci"], stdout=subprocess.PIPE, errors="replace")
    meter, kept, ended = Meter(ran.pid), set(), threading.Event()

    def look():
        while not ended.wait(EVERY):
            meter.look()

    looking = threading.Thread(target=look)
    looking.start()
    try:
        for line in ran.stdout:
            sys.stdout.write(line)
            sys.stdout.flush()
            found = re.match(r"rt: (\w+) is kept:", line)
            if found:
                kept.add(found[1])
        status = ran.wait()
    finally:
        ended.set()
        looking.join()
    # (the times of children count once they have ended)
    spent = os.times()
    whole = max(meter.all / TICKS, spent.children_user + spent.children_system) / 60
    ends = {crate: (at - begun) / 60 for (crate, kind), at in meter.seen.items() if kind == "proof"}
    table(meter.minutes(), ends, kept, (time.time() - begun) / 60, whole)
    return status


if __name__ == "__main__":
    sys.exit(main(sys.argv[1:]))
