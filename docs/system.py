"""Draws a system's wires and constraints as docs/system.svg: python3 docs/system.py > docs/system.svg

Above the wires in their order, below them the constraints that hold each part; a bracket spans the wires that the
constraints under it are about. The order is that of `layout_of` in crates/tv_layout/specs/Layout.antt.
"""

WIDTH, HEIGHT = 944, 330

WIRES = [  # text, width, private
    (["0", "the 1"], 56, False),
    (["1", "answer"], 66, False),
    (["2 .. n + 1", "tape"], 86, False),
    (["W n", "bits of the", "tape's words"], 96, True),
    (["20", "start state:", "all are 0"], 76, True),
    (["R", "step 1"], 96, True),
    (["R", "step 2"], 96, True),
    (["..", "T steps"], 76, True),
    (["3 or 5 a switch", "network"], 106, True),
    (["m + 1 a line", "within m bits:", "reach and e"], 150, True),
]

CONSTRAINTS = [  # text, over the wires from .. to ..
    (["each is below 2^W"], 2, 3),
    (["they are 0"], 4, 4),
    (["each step from the state that the one before leads to"], 4, 7),
    (["the last step answers, and its value is wire 1"], 1, 7),
    (["memory: the lines are honest"], 2, 9),
]


def main():
    print(f'<svg xmlns="http://www.w3.org/2000/svg" viewBox="0 0 {WIDTH} {HEIGHT}" font-family="sans-serif" font-size="12">')
    print(f'<rect width="{WIDTH}" height="{HEIGHT}" fill="#fff"/>')
    x, places = 20, []
    for texts, width, private in WIRES:
        places.append((x, width))
        fill = "#cde" if private else "#fff"
        print(f'<rect x="{x}" y="20" width="{width}" height="70" fill="{fill}" stroke="#000"/>')
        for row, text in enumerate(texts):
            print(f'<text x="{x + width / 2:g}" y="{42 + 18 * row}" text-anchor="middle">{text}</text>')
        x += width
    for row, (texts, first, last) in enumerate(CONSTRAINTS):
        y = 110 + 42 * row
        start, end = places[first][0], places[last][0] + places[last][1]
        print(f'<path d="M{start + 3} {y} v8 H{end - 3} v-8" stroke="#555" fill="none"/>')
        print(f'<text x="{(start + end) / 2:g}" y="{y + 24}" text-anchor="middle">{" ".join(texts)}</text>')
    print("</svg>")


main()
