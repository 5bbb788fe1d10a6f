"""Draws the parts of a step's constraints as docs/step.svg: python3 docs/step.py > docs/step.svg

The boxes stand on a diagonal, in the order in which the parts are put: first the state before the step, then the parts,
with their wires and constraints at 32 bits, then what the step returns. What a part makes leaves it to the right, and
goes down into each part that takes it, at a dot; lines that cross without a dot don't meet. The parts and what they take
are those of `computed_of` and `effects_of` in crates/tv_block/specs/Block.antt; arithmetic takes the test too, and binds
it with the result.
"""

BOXES = [  # name, what it makes, its size, what it takes
    ("state before", "pc, registers, flag, tapes", "", []),
    ("instruction", "two words, opcode's row", "90 wires, 91 constraints", []),
    ("registers read", "other, named, destination", "31 wires, 28 constraints", ["state before", "instruction"]),
    ("operand", "operand, its bits", "33 wires, 34 constraints", ["instruction", "registers read"]),
    ("arithmetic", "a row of 2 W bits", "110 wires, 120 constraints", ["instruction", "registers read", "operand"]),
    ("tapes", "what is taken, ended", "7 wires, 7 constraints", ["state before", "instruction", "operand"]),
    ("memory", "cell, old and new word, byte", "9 wires, 9 constraints", ["state before", "instruction", "registers read", "operand", "arithmetic", "tapes"]),
    ("result and test", "result, test for 0", "7 wires, 10 constraints", ["state before", "instruction", "operand", "arithmetic", "tapes", "memory"]),
    ("registers written", "registers", "17 wires, 18 constraints", ["state before", "instruction", "registers read", "result and test"]),
    ("flag", "flag", "3 wires, 3 constraints", ["state before", "instruction", "arithmetic", "tapes", "result and test"]),
    ("program counter", "pc", "4 wires, 4 constraints", ["state before", "instruction", "operand"]),
    ("state after", "pc, registers, flag, tapes", "", ["tapes", "registers written", "flag", "program counter"]),
    ("three lines of memory", "two fetched, one of data", "", ["state before", "instruction", "memory"]),
    ("answer, taken word", "whether, and which", "", ["instruction", "operand", "arithmetic", "tapes"]),
]

WIDTH, HEIGHT = 190, 52  # of a box
ACROSS, DOWN = 62, 64  # from a box to the next one
MARGIN = 16

NUMBER = {name: i for i, (name, *_) in enumerate(BOXES)}
PARTS = range(1, 11)  # the boxes that are parts


def corner(i):
    return MARGIN + ACROSS * i, MARGIN + DOWN * i


def row(i):
    """The height at which what box i makes goes to the right."""
    return corner(i)[1] + HEIGHT / 2


def column(i):
    """Where what box i takes comes down: right of all boxes before it."""
    return corner(i)[0] + WIDTH - ACROSS / 2


def main():
    last = corner(len(BOXES) - 1)
    width, height = last[0] + WIDTH + MARGIN, last[1] + HEIGHT + MARGIN
    print(f'<svg xmlns="http://www.w3.org/2000/svg" viewBox="0 0 {width} {height}" font-family="sans-serif" font-size="12">')
    print('<defs><marker id="tip" markerWidth="8" markerHeight="8" refX="7" refY="4" orient="auto"><path d="M0 0 L8 4 L0 8 z" fill="#555"/></marker></defs>')
    print(f'<rect width="{width}" height="{height}" fill="#fff"/>')
    takers = {i: [j for j, box in enumerate(BOXES) if BOXES[i][0] in box[3]] for i in range(len(BOXES))}
    for i, (name, *_, taken) in enumerate(BOXES):
        if takers[i]:
            print(f'<path d="M{corner(i)[0] + WIDTH} {row(i):g} H{column(takers[i][-1]):g}" stroke="#555" fill="none"/>')
        if taken:
            top = min(row(NUMBER[one]) for one in taken)
            print(f'<path d="M{column(i):g} {top:g} V{corner(i)[1]}" stroke="#555" fill="none" marker-end="url(#tip)"/>')
        for one in taken:
            print(f'<circle cx="{column(i):g}" cy="{row(NUMBER[one]):g}" r="3" fill="#555"/>')
    for i, (name, makes, size, _) in enumerate(BOXES):
        x, y = corner(i)
        fill = "#cde" if i in PARTS else "#fff"
        print(f'<rect x="{x}" y="{y}" width="{WIDTH}" height="{HEIGHT}" fill="{fill}" stroke="#000"/>')
        texts = [text for text in (name, makes, size) if text]
        for line, text in enumerate(texts):
            weight = ' font-weight="bold"' if line == 0 else ""
            print(f'<text x="{x + WIDTH / 2:g}" y="{y + (17 if len(texts) == 3 else 24) + 15 * line}" text-anchor="middle"{weight}>{text}</text>')
    print("</svg>")


main()
