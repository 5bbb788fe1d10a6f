"""Draws the permutation network of six items as docs/network.svg: python3 docs/network.py > docs/network.svg

A line from left to right is a slot; a line from slot to slot is a switch, its ends filled in a bound stage and hollow in
an open one. The switches that Waksman's network leaves out are dashed. `stages` follows crates/tv_stages/specs/Stages.antt.
"""

ITEMS, RATE = 6, 3
ROW, GAP, TOP, LEFT = 42, 150, 62, 60


def stages(items):
    """The stages in order: the stride's logarithm, and the switches (lower slot, upper slot, whether Waksman's has it)."""
    height = (items - 1).bit_length()
    for stage in range(2 * height - 1):
        depth = stage if stage < height else 2 * height - 2 - stage
        stride = 2**depth
        slots = [x for x in range(items - stride) if x // stride % 2 == 0]
        if stage == height:
            slots = slots[: items - 2 ** (height - 1)]
        found = []
        for x in slots:
            residue = len(range(x % stride, items, stride))
            found.append((x, x + stride, stage < height or x >= stride or residue % 2 == 1 or items // stride == 2))
        yield depth, found


def main():
    columns = list(stages(ITEMS))
    width, height = 2 * LEFT + GAP * len(columns), TOP + ROW * (ITEMS - 1) + 34
    y = lambda slot: TOP + ROW * slot
    print(f'<svg xmlns="http://www.w3.org/2000/svg" viewBox="0 0 {width} {height}" font-family="sans-serif" font-size="13">')
    print(f'<rect width="{width}" height="{height}" fill="#fff"/>')
    for slot in range(ITEMS):
        print(f'<path d="M{LEFT - 30} {y(slot)} H{width - LEFT + 30}" stroke="#999"/>')
        for x in (LEFT - 42, width - LEFT + 42):
            print(f'<text x="{x}" y="{y(slot) + 5}" text-anchor="middle">{slot}</text>')
    for at, (depth, switches) in enumerate(columns):
        middle, bound = LEFT + GAP * at + GAP / 2, depth % RATE == 0
        for row, text in enumerate((f"stage {at}, {'bound' if bound else 'open'}", f"bit {depth}, stride {2**depth}")):
            print(f'<text x="{middle:g}" y="{18 + 17 * row}" text-anchor="middle">{text}</text>')
        residues = sorted({lower % 2**depth for lower, _, _ in switches})
        for lower, upper, everywhere in switches:
            x = middle + 28 * (residues.index(lower % 2**depth) - (len(residues) - 1) / 2)
            dash = "" if everywhere else ' stroke-dasharray="4 3"'
            print(f'<path d="M{x:g} {y(lower)} V{y(upper)}" stroke="#000" stroke-width="2"{dash}/>')
            for slot in (lower, upper):
                fill = "#000" if bound else "#fff"
                print(f'<circle cx="{x:g}" cy="{y(slot)}" r="5" fill="{fill}" stroke="#000" stroke-width="1.5"{dash}/>')
    print("</svg>")


main()
