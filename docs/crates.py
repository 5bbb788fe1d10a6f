"""Draws the crates by group as docs/crates.svg: python3 docs/crates.py > docs/crates.svg

The groups are those of docs/ARCHITECTURE.md, each above those that it stands on, which is read from crates.txt; the
arrows are those that don't follow from others. Crates of tests aren't drawn.
"""
import os
import re

TOP = os.path.dirname(os.path.dirname(os.path.abspath(__file__)))
WIDTH, LEFT, ROW, LINE, LANE = 944, 20, 10, 18, 16


def groups():
    """Returns the names of the groups with their crates, in the order of docs/ARCHITECTURE.md, by its headings."""
    found = []
    with open(f"{TOP}/docs/ARCHITECTURE.md", encoding="utf-8") as it:
        for line in it:
            if heading := re.match(r"\*\*(.+?)\*\*: ", line):
                found.append((heading[1], []))
            elif found and (cell := re.match(r"\| ((`\w+`(, )?)+) \|", line)):
                found[-1][1].extend(re.findall(r"`(\w+)`", cell[1]))
    return [(name, crates) for name, crates in found if crates]


def named():
    """Returns the crates that each crate stands on, by crates.txt."""
    with open(f"{TOP}/crates.txt", encoding="utf-8") as it:
        lines = [line.split(":") for line in it if re.match(r"\w.*:", line)]
    return {name.split()[0]: below.split() for name, below in lines}


def ordered(all_groups, below):
    """Returns the groups, each after those that it stands on, and the pairs of their places of which the first stands
    on the second and that don't follow from others."""
    of = {crate: at for at, (_, crates) in enumerate(all_groups) for crate in crates}
    missing = [it for it in below if it not in of and not it.endswith("_tests")]
    assert not missing, f"in no group of docs/ARCHITECTURE.md: {missing}"
    stands = {(of[a], of[b]) for a in of for b in below[a] if b in of and of[a] != of[b]}
    reach = set(stands)
    while more := {(a, d) for a, b in reach for c, d in stands if b == c} - reach:
        reach |= more
    order = sorted(range(len(all_groups)), key=lambda at: (sum(a == at for a, _ in reach), at))
    direct = {(a, b) for a, b in stands if not any((a, c) in reach and (c, b) in reach for c in order)}
    return [all_groups[at] for at in order], sorted((order.index(a), order.index(b)) for a, b in direct)


def rows(crates, most=92):
    """Returns the crates' names in lines of at most so many characters."""
    lines = [""]
    for crate in crates:
        if len(lines[-1]) + len(crate) + 3 > most:
            lines.append("")
        lines[-1] += ("   " if lines[-1] else "") + crate
    return lines


def main():
    all_groups, edges = ordered(groups(), named())
    boxes, y = [], 20
    for name, crates in reversed(all_groups):
        lines = rows(crates)
        boxes.append((name, lines, y, 30 + LINE * len(lines)))
        y += boxes[-1][3] + ROW
    right = WIDTH - LEFT - LANE * len(edges) - 20
    print(f'<svg xmlns="http://www.w3.org/2000/svg" viewBox="0 0 {WIDTH} {y + 10}" font-family="sans-serif" font-size="12">')
    print(f'<rect width="{WIDTH}" height="{y + 10}" fill="#fff"/>')
    print('<marker id="to" viewBox="0 0 8 8" refX="8" refY="4" markerWidth="7" markerHeight="7" orient="auto"><path d="M0 0 L8 4 L0 8 z"/></marker>')
    for name, lines, top, height in boxes:
        print(f'<rect x="{LEFT}" y="{top}" width="{right - LEFT}" height="{height}" fill="#eef" stroke="#000"/>')
        print(f'<text x="{LEFT + 10}" y="{top + 18}" font-weight="bold">{name}</text>')
        for at, line in enumerate(lines):
            print(f'<text x="{LEFT + 10}" y="{top + 37 + LINE * at}" xml:space="preserve" font-family="monospace">{line}</text>')
    middle = [top + height / 2 for _, _, top, height in reversed(boxes)]
    for lane, (above, below) in enumerate(edges):
        x = right + LANE * (lane + 1)
        start, end = middle[above] - 12 + 3 * (lane % 7), middle[below] - 12 + 3 * (lane % 7)
        print(f'<path d="M{right} {start:g} H{x} V{end:g} H{right + 2}" stroke="#555" fill="none" marker-end="url(#to)"/>')
    print("</svg>")


main()
