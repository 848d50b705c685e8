#!/usr/bin/env python3
"""Draws a table and its backbone: python3 backbone.py TABLE CHAIN >PICTURE.svg

TABLE is what the program prints for a script, CHAIN what the example `chain` prints for it. A piece is a line from its
left to its right end, A to the right and B up: rising if it is direct, falling if it is reversed. The pieces of the
backbone are drawn over the others.
"""

import sys
from pathlib import Path

SIDE = 640
MARGIN = 40
COLOURS = {"direct": "#9aa5b1", "reversed": "#e0a458", "backbone": "#1f4e8c"}


def main():
    table, chain = (Path(name).read_text(encoding="utf-8").splitlines() for name in sys.argv[1:3])
    letters = [int(word) for word in table[0].split()[1:]]
    rows = [line.split() for line in table[2:] if not line.startswith("class")]
    pieces = [([int(number) for number in row[1:4]], row[4] == "-") for row in rows]
    backbone = [pieces[int(line.split()[0]) - 1][0] for line in chain[1:]]
    lines = {
        "direct": [numbers for numbers, reversed_ in pieces if not reversed_],
        "reversed": [numbers for numbers, reversed_ in pieces if reversed_],
        "backbone": backbone,
    }
    size = SIDE + 2 * MARGIN
    print(f'<svg xmlns="http://www.w3.org/2000/svg" viewBox="0 0 {size} {size}" font-family="sans-serif" font-size="13">')
    print("<title>Pieces of a table, and its backbone</title>")
    print(f'<rect width="{size}" height="{size}" fill="#ffffff"/>')
    print(f'<rect x="{MARGIN}" y="{MARGIN}" width="{SIDE}" height="{SIDE}" fill="none" stroke="#444444"/>')
    for kind, width in (("direct", 2), ("reversed", 2), ("backbone", 4)):
        way = "".join(stroke(piece, kind == "reversed", letters) for piece in lines[kind])
        print(f'<path d="{way}" stroke="{COLOURS[kind]}" stroke-width="{width}" stroke-linecap="round" fill="none"/>')
    for k, kind in enumerate(COLOURS):
        x = MARGIN + 160 * k
        print(f'<path d="M{x} 20h24" stroke="{COLOURS[kind]}" stroke-width="4"/>')
        print(f'<text x="{x + 30}" y="24">{kind}, {len(lines[kind]):,}</text>')
    print(f'<text x="{size / 2}" y="{size - 12}" text-anchor="middle">A, {letters[0]:,} letters</text>')
    print(f'<text transform="translate(24 {size / 2}) rotate(-90)" text-anchor="middle">B, {letters[1]:,} letters</text>')
    print("</svg>")


def stroke(piece, falls, letters):
    """A line over the stretches of a piece; B goes up."""
    left_a, left_b, length = piece
    ends = (left_b + length, left_b) if falls else (left_b, left_b + length)
    x = [MARGIN + SIDE * at / letters[0] for at in (left_a, left_a + length)]
    y = [MARGIN + SIDE - SIDE * at / letters[1] for at in ends]
    return f"M{x[0]:.1f} {y[0]:.1f}L{x[1]:.1f} {y[1]:.1f}"


if __name__ == "__main__":
    main()
