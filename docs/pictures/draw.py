#!/usr/bin/env python3
"""Draws the pictures of the documents: the same bytes each time, by the standard library alone.

    docs/pictures/draw.py [FOLDER]    draws them into this folder, or into the one where this script lies

hash_device.svg shows the hash device of 257 data blocks, with counts, places and closing order by tests/lib/trees.py;
speeds.svg shows the first table of docs/SPEED.md.
"""

import os
import re
import sys

HERE = os.path.dirname(os.path.abspath(__file__))
sys.dont_write_bytecode = True
sys.path.insert(1, os.path.join(HERE, "..", "..", "tests", "lib"))
from trees import Settings, Shape

STYLE = """
  .paper { fill: #ffffff } text { fill: #1f2328; font: 13px sans-serif } .small { font-size: 11px }
  .head { font-weight: bold } .line { stroke: #57606a; fill: none } .tip { fill: #57606a }
  .box { stroke: #57606a } .super { fill: #eaeef2 } .data { fill: #ffffff }
  .level0 { fill: #cfe8ff } .level1 { fill: #ffe2b8 } .level2 { fill: #d8f0cf }
  .here { fill: #1f6fb5 } .debian { fill: #afb8c1 } .grid { stroke: #d0d7de }
  @media (prefers-color-scheme: dark) {
    .paper { fill: #0d1117 } text { fill: #e6edf3 } .line { stroke: #9aa4ae } .tip { fill: #9aa4ae }
    .box { stroke: #9aa4ae } .super { fill: #2d333b } .data { fill: #0d1117 }
    .level0 { fill: #17405f } .level1 { fill: #5c3f11 } .level2 { fill: #24491c }
    .here { fill: #58a6ff } .debian { fill: #6e7681 } .grid { stroke: #30363d }
  }
"""


class Picture:
    """The lines of a picture of this size, with its title and what it shows in words."""

    def __init__(self, width, height, title, words):
        self.lines = [
            f'<svg xmlns="http://www.w3.org/2000/svg" viewBox="0 0 {width} {height}" width="{width}" height="{height}"'
            ' role="img" aria-labelledby="title words">',
            f'<title id="title">{title}</title>',
            f'<desc id="words">{words}</desc>',
            f"<style>{STYLE}</style>",
            f'<rect class="paper" width="{width}" height="{height}"/>',
        ]

    def text(self, x, y, text, names="", anchor="middle"):
        names = f' class="{names}"' if names else ""
        self.lines.append(f'<text x="{x}" y="{y}" text-anchor="{anchor}"{names}>{text}</text>')

    def rect(self, x, y, width, height, names):
        self.lines.append(f'<rect class="{names}" x="{x}" y="{y}" width="{width}" height="{height}"/>')

    def path(self, steps, names="line"):
        self.lines.append(f'<path class="{names}" d="{steps}"/>')

    def arrow(self, steps, x, y, down):
        """A line that ends in a tip at x, y."""
        back = -6 if down else 6
        self.path(steps)
        self.path(f"M{x} {y} l-4 {back} h8 z", "tip")

    def bytes(self):
        return ("\n".join(self.lines + ["</svg>"]) + "\n").encode()


def hash_device():
    """The hash device of 257 data blocks, by 16 digests a hash block."""
    blocks, cell, left, top = 257, 40, 20, 118
    shape = Shape(Settings("sha256", 512, 512, b"", blocks, 1), 1)
    fan_out, level_sizes, order = shape.fan, shape.level_sizes, list(shape.closing_order(blocks))
    firsts = [shape.place(level, 0) for level in range(len(level_sizes))]
    bottom = top + 92
    picture = Picture(
        left * 2 + cell * shape.end,
        bottom + 128,
        "A hash device, and the order in which its blocks close",
        f"For {blocks} data blocks and {fan_out} digests a hash block: the superblock, then level 2 with one block,"
        " level 1 with two and level 0 with 17. Each block of level 0 stands for 16 data blocks, but the last one for one."
        " Blocks close from level 0 upward, as soon as the last data block below them has come.",
    )

    def x(place):
        return left + cell * place

    picture.text(left, 24, f"Hash device: {blocks} data blocks, {fan_out} digests a hash block", "head", "start")
    picture.rect(x(0), top, cell, cell, "box super")
    picture.text(x(0) + cell / 2, top + 25, len(order) + 1)
    picture.text(x(0) + cell / 2, top + cell + 16, 0, "small")
    for number, (level, index) in enumerate(order, 1):
        place = firsts[level] + index
        picture.rect(x(place), top, cell, cell, f"box level{level}")
        picture.text(x(place) + cell / 2, top + 25, number)
        picture.text(x(place) + cell / 2, top + cell + 16, place, "small")
    # Which blocks a block has the digests of, from above.
    for level in range(len(level_sizes) - 1):
        for above in range(level_sizes[level + 1]):
            first = firsts[level] + above * fan_out
            last = min(first + fan_out, firsts[level] + level_sizes[level]) - 1
            to, middle = x(firsts[level + 1] + above) + cell / 2, (x(first) + x(last + 1)) / 2
            low, high = top - 8, top - (58 if (level, above) == (0, 0) else 36)
            picture.path(f"M{x(first) + 4} {top - 2} V{low} H{x(last + 1) - 4} V{top - 2}")
            picture.arrow(f"M{middle} {low} V{high} H{to} V{top - 4}", to, top - 1, True)
    for level in (1, 2):
        picture.text(x(firsts[level]) + level_sizes[level] * cell / 2, top + cell + 36, f"level {level}", "small")
    picture.text(x(0) + cell / 2 - 3, top + cell + 36, "super-", "small")
    picture.text(x(0) + cell / 2 - 3, top + cell + 49, "block", "small")
    picture.text(x(firsts[0]) + 8, top - 14, "level 0", "small", "start")
    # The data, below the blocks of level 0 that have its digests.
    picture.text(left, bottom + 25, "Data device", "head", "start")
    for index in range(level_sizes[0]):
        first, last = index * fan_out, min(blocks, (index + 1) * fan_out) - 1
        at = x(firsts[0] + index)
        picture.rect(at, bottom, cell, cell, "box data")
        picture.text(at + cell / 2, bottom + 16, first, "small")
        if last > first:
            picture.text(at + cell / 2, bottom + 31, f"to {last}", "small")
        picture.arrow(f"M{at + cell / 2} {bottom} V{bottom - 18}", at + cell / 2, bottom - 24, False)
    lines = [
        "In a block: the order in which blocks close, and are written or compared;"
        " below it: its place, in hash blocks.",
        "A block closes when the last data block below it has come, from level 0 upward: here "
        + ", ".join(f"{number} with data block {i}" for number, i in ((1, 15), (16, 255)))
        + f" and then {order.index((1, 0)) + 1};",
        f"{order.index((0, 16)) + 1}, {order.index((1, 1)) + 1} and {order.index((2, 0)) + 1} with data block 256."
        f" Last of all the superblock is written, {len(order) + 1}.",
    ]
    for number, line in enumerate(lines):
        picture.text(left, bottom + 70 + 20 * number, line, "small", "start")
    return picture


def speeds_of(page):
    """The rows of the first table of docs/SPEED.md: function, block size, and of `format` and `digest` the speed in MiB
    per second and how many times Debian's it is, if there is one."""
    rows, columns = [], None
    for line in page.split("\n"):
        cells = [cell.strip() for cell in line.strip("|").split("|")]
        if cells[:2] == ["Function", "Block"]:
            columns = {name: cells.index(name) for name in ("format", "digest")}
        elif columns and re.fullmatch(r"sha\d+", cells[0]):
            both = [re.fullmatch(r"(\d+) \(([\d.]+)\)", cells[columns[name]]) for name in ("format", "digest")]
            rows.append((cells[0], int(cells[1]), *((int(it[1]), float(it[2])) if it else None for it in both)))
        elif columns and rows:
            break
    return rows


def speeds(page):
    """The speeds by block size, beside Debian's."""
    rows = speeds_of(page)
    panels = []
    for index, program in ((2, "veritysetup format"), (3, "fsverity digest")):
        for function in sorted({row[0] for row in rows}, key=[row[0] for row in rows].index):
            bars = [(row[1], *row[index]) for row in rows if row[0] == function and row[index]]
            if bars:
                panels.append((program, function, bars))
    most, highest = max(len(bars) for _, _, bars in panels), max(speed for _, _, bars in panels for _, speed, _ in bars)
    across, width, height = 3, 64 * most + 34, 215
    words = "; ".join(
        f"{program} by {function}: "
        + ", ".join(f"{times:.2f} times in blocks of {size}" for size, _, times in bars)
        for program, function, bars in panels
    )
    picture = Picture(
        across * width + 40,
        80 + height * -(-len(panels) // across),
        "Speed by block size, beside Debian's programs without SHA instructions",
        f"How many times the speed of Debian's programs. {words}.",
    )
    picture.text(20, 24, "MiB per second of processor time, by the size of a block in bytes", "head", "start")
    picture.rect(20, 38, 12, 12, "here")
    picture.text(38, 49, "here", "small", "start")
    picture.rect(80, 38, 12, 12, "debian")
    picture.text(98, 49, "Debian's, by the measured ratio", "small", "start")
    picture.text(310, 49, "×: here / Debian's", "small", "start")
    scale = 120 / highest
    for number, (program, function, bars) in enumerate(panels):
        # A second program begins a new row.
        row = sum(1 for it in panels[:number] if it[0] != program) and 1
        column = sum(1 for it in panels[:number] if it[0] == program)
        left, floor = 20 + column * width, 80 + height * row + 165
        picture.text(left, floor - 148, f"{program}, {function}", "small head", "start")
        picture.path(f"M{left} {floor} h{width - 30}", "line")
        for place, (size, speed, times) in enumerate(bars):
            at, other = left + 8 + place * 64, round(speed / times)
            for offset, value, name in ((0, speed, "here"), (26, other, "debian")):
                tall = round(value * scale, 1)
                picture.rect(at + offset, round(floor - tall, 1), 24, tall, name)
                picture.text(at + offset + 12, round(floor - tall - 4, 1), value, "small")
            picture.text(at + 25, floor + 16, size, "small")
            picture.text(at + 25, floor + 31, f"×{times:.2f}", "small head")
    return picture


def main():
    folder = sys.argv[1] if len(sys.argv) > 1 else HERE
    with open(os.path.join(HERE, "..", "SPEED.md"), encoding="utf-8") as page:
        pictures = {"hash_device.svg": hash_device(), "speeds.svg": speeds(page.read())}
    for name, picture in pictures.items():
        with open(os.path.join(folder, name), "wb") as file:
            file.write(picture.bytes())


if __name__ == "__main__":
    main()
