#!/usr/bin/env python3
"""Draws what bench/beside.py printed: for each kind of command a bar, how many times as many commands a second the array served
as the other target, on a scale on which twice as many is the same step everywhere. Writes an SVG.

usage: bench/picture.py FIGURES > FILE.svg
       bench/beside.py > FIGURES

FIGURES are the lines of bench/beside.py, or the front of such a line and only the ratio behind the colon, as bench/beside.txt has
them. Of the lines that begin with # the first is the picture's caption; the others are passed over.
"""

import html
import math
import re
import sys
import textwrap

LINE = re.compile(r"(?P<kind>\w+) (?P<size>\d+) bytes, (?P<depth>\d+) deep, (?P<sessions>\d+) sessions?: "
                  r"(?:arrayd [\d,]+ a second, (?P<name>[\w./-]+) [\d,]+: )?(?P<ratio>[\d.]+)(?:,|$)")
WIDTH, LEFT, RIGHT, TOP, ROW, GAP = 760, 170, 40, 64, 15, 14
# one colour for each way in which a command is sent; dark enough on white, light enough on black
COLOURS = ["#3b6fb6", "#79a7e0", "#b5651d", "#e0a15e"]
# So many characters of the caption stand in one line, and so high is a line.
LINE_LENGTH, LINE_HEIGHT = 115, 16


def read(path):
    caption, rows = "", []
    with open(path, encoding="utf-8") as file:
        for line in file:
            if line.startswith("#"):
                caption = caption or line[1:].strip()
                continue
            found = LINE.match(line)
            if found:
                rows.append(found)
    return caption, rows


def size(count):
    return f"{count} bytes" if count < 1024 else f"{count // 1024} KiB"


class Scale:
    """Where ratios stand: each doubling is a step, from the one below the least ratio, or 1, to the one above the greatest."""

    def __init__(self, ratios):
        self.low = math.floor(math.log2(min(1, *ratios)))
        self.high = math.ceil(math.log2(max(2, *ratios)))

    def marks(self):
        return [2.0 ** step for step in range(self.low, self.high + 1)]

    def at(self, ratio):
        return LEFT + (math.log2(ratio) - self.low) * (WIDTH - LEFT - RIGHT) / (self.high - self.low)


def name_of(rows):
    """The other target: tgt, where no line names one."""
    return next((row["name"] for row in rows if row["name"]), "tgt")


def text(x, y, words, anchor="start", weight="normal"):
    return f'<text x="{x:.0f}" y="{y:.0f}" text-anchor="{anchor}" font-weight="{weight}">{html.escape(words)}</text>'


def main():
    if len(sys.argv) != 2:
        sys.exit(__doc__.split("\n\n")[1])
    caption, rows = read(sys.argv[1])
    groups, ways = {}, []
    for row in rows:
        way = f"{row['depth']} deep, {row['sessions']} session{'' if row['sessions'] == '1' else 's'}"
        if way not in ways:
            ways.append(way)
        groups.setdefault(f"{row['kind']} {size(int(row['size']))}", {})[way] = float(row["ratio"])
    scale = Scale([float(row["ratio"]) for row in rows])
    told = textwrap.wrap(caption, LINE_LENGTH)
    bottom = TOP + sum(ROW * len(group) + GAP for group in groups.values()) + 6
    height = bottom + 24 + LINE_HEIGHT * len(told)
    out = [f'<svg xmlns="http://www.w3.org/2000/svg" viewBox="0 0 {WIDTH} {height}" width="{WIDTH}" height="{height}" '
           'font-family="sans-serif" font-size="12">',
           f"<title>{html.escape(caption)}</title>", f'<rect width="{WIDTH}" height="{height}" fill="#ffffff"/>',
           text(10, 20, "Commands a second of arrayd, over those of " + name_of(rows), weight="bold")]
    for number, way in enumerate(ways):
        x = 10 + number * 150
        out.append(f'<rect x="{x}" y="32" width="12" height="12" fill="{COLOURS[number % len(COLOURS)]}"/>' + text(x + 17, 42, way))
    for ratio in scale.marks():
        x = scale.at(ratio)
        out.append(f'<line x1="{x:.0f}" y1="{TOP - 8}" x2="{x:.0f}" y2="{bottom}" stroke="{"#333333" if ratio == 1 else "#cccccc"}"/>')
        out.append(text(x, bottom + 14, f"{ratio:g}", "middle"))
    y = TOP
    for name, group in groups.items():
        out.append(text(LEFT - 10, y + ROW * len(group) / 2 + 4, name, "end"))
        for number, way in enumerate(ways):
            if way not in group:
                continue
            ratio = group[way]
            low, high = sorted((scale.at(1), scale.at(ratio)))
            out.append(f'<rect x="{low:.1f}" y="{y + 1}" width="{max(high - low, 1):.1f}" height="{ROW - 3}" '
                       f'fill="{COLOURS[number % len(COLOURS)]}"/>' + text(high + 4, y + ROW - 4, f"{ratio:.1f}"))
            y += ROW
        y += GAP
    out += [text(10, bottom + 18 + LINE_HEIGHT * (number + 1), line) for number, line in enumerate(told)]
    out.append("</svg>")
    print("\n".join(out))


if __name__ == "__main__":
    main()
