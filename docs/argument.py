"""Draws the check of one line of memory as docs/argument.svg: python3 docs/argument.py > docs/argument.svg

Above, a line and the item that it sends into the permutation network; below, the item that the network brings to the
same place, that of the line's predecessor p; between them the check. The names are those of docs/CONSTRAINTS.md.
"""

WIDTH, HEIGHT, CELL = 944, 250, 42


def text(x, y, words, more=""):
    print(f'<text x="{x}" y="{y}" text-anchor="middle"{more}>{words}</text>')


def box(x, y, width, words, fill="#fff"):
    print(f'<rect x="{x}" y="{y}" width="{width}" height="{CELL}" fill="{fill}" stroke="#000"/>')
    text(x + width / 2, y + 26, words)


def arrow(path):
    print(f'<path d="{path}" stroke="#555" fill="none" marker-end="url(#tip)"/>')


def main():
    print(f'<svg xmlns="http://www.w3.org/2000/svg" viewBox="0 0 {WIDTH} {HEIGHT}" font-family="sans-serif" font-size="13">')
    print('<defs><marker id="tip" markerWidth="8" markerHeight="8" refX="7" refY="4" orient="auto"><path d="M0 0 L8 4 L0 8 z" fill="#555"/></marker></defs>')
    print(f'<rect width="{WIDTH}" height="{HEIGHT}" fill="#fff"/>')
    text(160, 26, "line i: cell, time, old and new word")
    for at, words in enumerate(("c", "i", "o", "n")):
        box(40 + 60 * at, 38, 60, words)
    text(540, 26, "its item")
    box(420, 38, 110, "2^32 c", "#cde")
    box(530, 38, 130, "2^32 i + n", "#cde")
    print(f'<rect x="740" y="20" width="160" height="{HEIGHT - 40}" fill="#eef" stroke="#000"/>')
    text(820, 118, "permutation network")
    text(820, 138, "of all L lines' items")
    box(420, 168, 110, "u = 2^32 c_p", "#cde")
    box(530, 168, 130, "v = 2^32 p + n_p", "#cde")
    text(540, 230, "output i: the item of the predecessor p")
    box(40, 168, 240, "check: reach and e")
    arrow("M280 59 H418")
    arrow("M660 59 H738")
    arrow("M740 189 H662")
    arrow("M420 189 H282")
    arrow("M160 80 V166")
    text(200, 128, "c, i, o")
    text(702, 50, "slot i")
    text(702, 180, "slot i")
    print("</svg>")


main()
