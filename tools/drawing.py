#!/usr/bin/env python3
"""Draws what a text tells, as an SVG that can be read on a light page and on a dark one. The text is of one of two forms, of boxes
or of messages; in both a line that begins with # is passed over, and so is an empty one. The first lines are

    title: WORDS                 what the picture shows
    desc: WORDS                  the same for whoever does not see it; more such lines go on with it

Boxes lie on a grid of 12 columns. A box has its column, row, width and height, a heading, and lines of text:

    box 0 2 12 1: portal | accept loops; a worker a session
    arrow 2 1 2 2                from one place of the grid to another

Messages go from one lane to another, from the top to the bottom:

    lane host: Host              a lane, by a short name and what stands above it
    host > worker: WRITE (10)    a message; with >> in place of > its line is dashed
    worker: asks the rules       what happens at a lane
    held unit: under the lock    from here on the lane is held, until
    free unit
    part: where no lane has it   a line across, with a heading

Ends with status 1 where a text is too long for its place.

usage: tools/drawing.py TEXT > FILE.svg         tools/drawings.py makes docs/NAME.svg of each tools/drawings/NAME.txt
"""

import html
import re
import sys

WIDTH, MARGIN, LINE = 960, 16, 16
# A character takes so much at most of the width of a line, in the two sizes of text.
NORMAL, SMALL = 6.7, 6.1
STYLE = """
.page{fill:#ffffff}.box{fill:#eef3fa;stroke:#5b7ea8}.held{fill:#f3dfc3}.line{stroke:#57606a;fill:none}.tip{fill:#57606a}
.text{fill:#1f2328}.dim{fill:#57606a}.part{stroke:#b0b8c0}.over{stroke:#ffffff;stroke-width:4;paint-order:stroke}
@media (prefers-color-scheme:dark){.page{fill:#0d1117}.box{fill:#1b2a3f;stroke:#6d93c4}.held{fill:#4d3a1e}
.line{stroke:#9aa4af}.tip{fill:#9aa4af}.text{fill:#e6edf3}.dim{fill:#9aa4af}.part{stroke:#4a525c}.over{stroke:#0d1117}}
"""


class Wrong(Exception):
    """What is wrong with a text."""


def text(x, y, words, room, small=False, anchor="start", weight="normal", over=False):
    if len(words) * (SMALL if small else NORMAL) > room:
        raise Wrong(f"too long for {room:.0f}: {words}")
    size, kind = (11, "dim") if small else (12, "text")
    # what lies over lines is parted from them by the colour of the page
    kind += " over" if over else ""
    return (f'<text class="{kind}" x="{x:.0f}" y="{y:.0f}" font-size="{size}" text-anchor="{anchor}" '
            f'font-weight="{weight}">{html.escape(words)}</text>')


def arrow(x1, y1, x2, y2, dashed=False):
    dash = ' stroke-dasharray="5 4"' if dashed else ""
    return (f'<line class="line" x1="{x1:.0f}" y1="{y1:.0f}" x2="{x2:.0f}" y2="{y2:.0f}"{dash} '
            'marker-end="url(#tip)"/>')


def boxes(lines):
    """The boxes and arrows of a picture, and how high it is."""
    column, row = (WIDTH - 2 * MARGIN) / 12, 46
    out, bottom = [], 0

    def at(x, y):
        return MARGIN + float(x) * column, MARGIN + float(y) * row

    for line in lines:
        found = re.fullmatch(r"box ([\d.]+) ([\d.]+) ([\d.]+) ([\d.]+): ([^|]*)(?:\|(.*))?", line)
        if found:
            (x, y), wide, high = at(found[1], found[2]), float(found[3]) * column - 6, float(found[4]) * row - 6
            out.append(f'<rect class="box" x="{x:.0f}" y="{y:.0f}" width="{wide:.0f}" height="{high:.0f}" rx="4"/>')
            out.append(text(x + 8, y + 16, found[5].strip(), wide - 12, weight="bold"))
            told = [words.strip() for words in (found[6] or "").split("|") if words.strip()]
            if 16 + len(told) * 15 > high:
                raise Wrong(f"too many lines for its height: {line}")
            out += [text(x + 8, y + 31 + 15 * n, words, wide - 12, small=True) for n, words in enumerate(told)]
            bottom = max(bottom, y + high)
            continue
        found = re.fullmatch(r"arrow ([\d.]+) ([\d.]+) ([\d.]+) ([\d.]+)", line)
        if not found:
            raise Wrong(f"neither a box nor an arrow: {line}")
        out.append(arrow(*at(found[1], found[2]), *at(found[3], found[4])))
    return out, bottom + MARGIN


class Messages:
    """A picture of messages, which grows downwards."""

    def __init__(self, lanes):
        self.names = [name for name, _ in lanes]
        self.step = (WIDTH - 2 * MARGIN) / len(lanes)
        self.behind, self.out, self.held, self.y = [], [], {}, MARGIN + 46
        for name, title in lanes:
            x = self.x(name)
            self.out.append(f'<rect class="box" x="{x - self.step / 2 + 6:.0f}" y="{MARGIN}" width="{self.step - 12:.0f}" '
                            'height="30" rx="4"/>')
            self.out.append(text(x, MARGIN + 20, title, self.step - 16, anchor="middle", weight="bold"))

    def x(self, name):
        if name not in self.names:
            raise Wrong(f"no such lane: {name}")
        return MARGIN + self.step * (self.names.index(name) + 0.5)

    def message(self, source, target, words, dashed):
        a, b = self.x(source), self.x(target)
        room = WIDTH - max(a, b) - MARGIN + abs(b - a) - 12
        self.out.append(text(min(a, b) + 8, self.y + 8, words, room, over=True))
        self.out.append(arrow(a, self.y + 14, b - (3 if b > a else -3), self.y + 14, dashed))
        self.y += 32

    def note(self, name, words):
        x = self.x(name)
        self.out.append(f'<circle class="tip" cx="{x:.0f}" cy="{self.y + 6:.0f}" r="3"/>')
        self.out.append(text(x + 8, self.y + 10, words, WIDTH - x - MARGIN - 8, small=True, over=True))
        self.y += 22

    def part(self, words):
        self.y += 6
        self.out.append(f'<line class="part" x1="{MARGIN}" y1="{self.y:.0f}" x2="{WIDTH - MARGIN}" y2="{self.y:.0f}"/>')
        self.out.append(text(MARGIN + 4, self.y + 16, words, WIDTH - 2 * MARGIN, weight="bold", over=True))
        self.y += 28

    def hold(self, name, words):
        self.held[name] = self.y
        self.out.append(text(self.x(name) + 8, self.y + 10, words, WIDTH - self.x(name) - MARGIN, small=True, over=True))
        self.y += 18

    def let_go(self, name):
        top, x = self.held.pop(name), self.x(name)
        self.behind.append(f'<rect class="held" x="{x - 5:.0f}" y="{top:.0f}" width="10" height="{self.y - top:.0f}"/>')
        self.y += 6

    def end(self):
        lifelines = [f'<line class="part" x1="{self.x(name):.0f}" y1="{MARGIN + 30}" x2="{self.x(name):.0f}" y2="{self.y:.0f}"/>'
                     for name in self.names]
        return lifelines + self.behind + self.out, self.y + MARGIN


def messages(lines):
    picture = None
    lanes = [re.fullmatch(r"lane (\w+): (.*)", line) for line in lines]
    picture = Messages([(found[1], found[2]) for found in lanes if found])
    for line, lane in zip(lines, lanes):
        if lane:
            continue
        head, _, words = (part.strip() for part in line.partition(":"))
        sent = re.fullmatch(r"(\w+) (>>?) (\w+)", head)
        if sent:
            picture.message(sent[1], sent[3], words, sent[2] == ">>")
        elif head == "part":
            picture.part(words)
        elif head.startswith("held "):
            picture.hold(head[5:], words)
        elif head.startswith("free "):
            picture.let_go(head[5:])
        else:
            picture.note(head, words)
    return picture.end()


def main():
    if len(sys.argv) != 2:
        sys.exit(__doc__.split("\n\n")[-1])
    with open(sys.argv[1], encoding="utf-8") as file:
        lines = [line.strip() for line in file if line.strip() and not line.startswith("#")]
    title = next(line[6:].strip() for line in lines if line.startswith("title:"))
    told = " ".join(line[5:].strip() for line in lines if line.startswith("desc:"))
    lines = [line for line in lines if not line.startswith(("title:", "desc:"))]
    try:
        out, height = (messages if lines[0].startswith("lane ") else boxes)(lines)
    except Wrong as wrong:
        sys.exit(f"{sys.argv[1]}: {wrong}")
    print(f'<svg xmlns="http://www.w3.org/2000/svg" viewBox="0 0 {WIDTH} {height:.0f}" width="{WIDTH}" height="{height:.0f}" '
          f'font-family="sans-serif" role="img" aria-labelledby="title desc">\n<title id="title">{html.escape(title)}</title>\n'
          f'<desc id="desc">{html.escape(told)}</desc>\n<style>{STYLE}</style>\n'
          '<defs><marker id="tip" viewBox="0 0 8 8" refX="7" refY="4" markerWidth="8" markerHeight="8" orient="auto">'
          '<path class="tip" d="M0,0 L8,4 L0,8 z"/></marker></defs>\n'
          f'<rect class="page" width="{WIDTH}" height="{height:.0f}"/>')
    print("\n".join(out) + "\n</svg>")


if __name__ == "__main__":
    main()
