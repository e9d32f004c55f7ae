#!/usr/bin/env python3
"""The picture of the counts: reads the CSV that target/bench/costs prints from standard input, prints an SVG.

Bars begin at 0 and are as long as the stores are many. The largest operation has a part of its own with another scale,
so that the others can be told apart."""

import csv
import sys
from html import escape

METHODS = {"this store": "#1f5f8b", "redo journal": "#d08a2e", "shadow to the root": "#9a9fa5"}
LARGEST = "rewrite of 4,096 bytes"

WIDTH, LEFT, RIGHT = 940, 330, 130
BAR, GAP, TOP = 13, 15, 96
GROUP = len(METHODS) * BAR + GAP
INK, PALE, LINE, GROUND = "#22262a", "#5c6369", "#dde1e4", "#fbfbf9"


def text(x, y, words, size=13, anchor="start", fill=INK, weight="normal"):
    style = f'font-size="{size}" text-anchor="{anchor}" fill="{fill}" font-weight="{weight}"'
    return f'<text x="{x:g}" y="{y:g}" {style}>{escape(words)}</text>'


def read_rows():
    """Operations in their order: the stores and barriers of each method."""
    rows = {}
    for row in csv.DictReader(sys.stdin):
        if row["method"] in METHODS:
            rows.setdefault(row["operation"], {})[row["method"]] = (int(row["stores"]), int(row["barriers"]))
    return rows


def group(name, costs, y, scale):
    """The bars of one operation."""
    yield text(LEFT - 12, y + len(METHODS) * BAR / 2 + 5, name, anchor="end")
    for i, (method, colour) in enumerate(METHODS.items()):
        top = y + i * BAR
        if method not in costs:
            yield text(LEFT + 5, top + 10, "not offered", 11, fill=PALE)
            continue
        stores, barriers = costs[method]
        length = stores * scale
        yield f'<rect x="{LEFT}" y="{top + 1}" width="{length:.1f}" height="{BAR - 2}" fill="{colour}"/>'
        number = f'<tspan font-weight="bold" fill="{INK}">{stores:,}</tspan>'
        words = f", {barriers} barrier{'s' if barriers > 1 else ''}"
        place = f'x="{LEFT + length + 5:.1f}" y="{top + 10}"'
        halo = f'paint-order="stroke" stroke="{GROUND}" stroke-width="3"'
        yield f'<text {place} font-size="11" fill="{PALE}" {halo}>{number}{words}</text>'


def part(rows, y, step):
    """Operations on one scale, under lines at the multiples of the step. Answers the picture and where it ends."""
    most = max(stores for costs in rows.values() for stores, _ in costs.values())
    scale = (WIDTH - LEFT - RIGHT) / most
    end = y + len(rows) * GROUP - GAP + 6
    lines = []
    for value in range(0, most + 1, step):
        x = LEFT + value * scale
        lines.append(f'<line x1="{x:.1f}" y1="{y - 6}" x2="{x:.1f}" y2="{end}" stroke="{LINE}"/>')
        lines.append(text(round(x, 1), end + 15, f"{value:,}", 11, "middle", PALE))
    for i, (name, costs) in enumerate(rows.items()):
        lines += group(name, costs, y + i * GROUP, scale)
    return lines, end + 22


def legend():
    x = LEFT
    for method, colour in METHODS.items():
        yield f'<rect x="{x}" y="58" width="12" height="12" fill="{colour}"/>'
        yield text(x + 18, 68.5, method)
        x += 175


def picture(rows):
    small = {name: costs for name, costs in rows.items() if name != LARGEST}
    bars, end = part(small, TOP, 20)
    large, end = part({LARGEST: rows[LARGEST]}, end + 40, 200)
    lines = [
        text(24, 32, "Stores that a change of a file takes, by method", 18, weight="bold"),
        *legend(), *bars,
        *large,
        text(24, end + 22, "A store is one word of eight bytes. Barriers include the one after the last store. "
             "The last operation has a scale of its own.", 12, fill=PALE),
    ]
    height = end + 40
    yield f'<svg xmlns="http://www.w3.org/2000/svg" width="{WIDTH}" height="{height:g}"'
    yield f'     viewBox="0 0 {WIDTH} {height:g}" font-family="DejaVu Sans, Verdana, Arial, sans-serif">'
    yield f'<rect width="{WIDTH}" height="{height:g}" fill="{GROUND}"/>'
    yield from lines
    yield "</svg>"


if __name__ == "__main__":
    print("\n".join(picture(read_rows())))
