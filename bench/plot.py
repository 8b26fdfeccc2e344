#!/usr/bin/env python3
"""Draws docs/performance.svg from the figures of `run.py --sizes`: what a record costs among more and more.

    python3 bench/plot.py [FIGURES [PICTURE]]

Both axes are logarithmic, so a level line is a cost that doesn't grow. The picture has its own background, in
light colors, or in dark ones if the reader's system prefers them.
"""
import math
import pathlib
import sys

import sizes
from parts import TOP

PICTURE = TOP / "docs" / "performance.svg"
WIDTH, HEIGHT, LEFT, RIGHT, UPPER, LOWER = 860, 540, 84, 210, 58, 62
# each work with its words in the picture, its color on light, and its color on dark
WORKS = {
    "push": ("push: a record", "#b3460b", "#ff9a5c"),
    "search": ("search by name: a request", "#0067a3", "#62b8f0"),
    "simulate": ("simulate: an event", "#7a3fc4", "#c09bf5"),
    "opening": ("opening a store: a user", "#00785a", "#45d3a5"),
    "first page": ("first page of a list: a user", "#8a6d00", "#e2c044"),
    "page": ("later pages: a user", "#b0307a", "#f58cc4"),
    "map": ("map: a row", "#4d5866", "#b4bfcc"),
}
# those that the programs in Rust do too (when they open a store, they look at no row)
COMPARED = ("push", "search", "page", "map")
FEWEST, MOST = 1_000, 1_000_000
# Pixels between the lines of labels
LABEL_STEP = 17
STYLE = """svg { font: 13px system-ui, -apple-system, "Segoe UI", sans-serif; }
.back { fill: #ffffff; } .word { fill: #1f2328; } .faint { fill: #59636e; }
.grid { stroke: #d6dbe1; } .frame { stroke: #8b949e; fill: none; } .key { stroke: #1f2328; }
path, .key { fill: none; stroke-width: 2; stroke-linejoin: round; }
.rust { stroke-dasharray: 5 5; stroke-width: 1.4; }
"""
DARK_STYLE = """.back { fill: #0d1117; } .word { fill: #e6edf3; } .faint { fill: #9aa5b1; }
.grid { stroke: #2b323b; } .frame { stroke: #7d8590; } .key { stroke: #e6edf3; }
"""


def style_of(place, color):
    return f".line{place} {{ stroke: {color}; }} .name{place} {{ fill: {color}; }}\n"


class Picture:
    """The parts of a picture, over costs by work, program and size."""

    def __init__(self, costs):
        self.costs, self.lines = {work: self.shown(work, costs[work]) for work in WORKS if work in costs}, []
        curves = [points for work in self.costs.values() for points in work.values()]
        values = [cost for points in curves for cost in points.values()]
        self.lowest = math.floor(math.log10(min(values)))
        self.highest = math.ceil(math.log10(max(values)))

    @staticmethod
    def shown(work, programs):
        """The points of the programs that are in the picture."""
        return {name: points for name, points in programs.items() if name == "scimlink" or work in COMPARED}

    def x(self, size):
        share = math.log10(size / FEWEST) / math.log10(MOST / FEWEST)
        return LEFT + share * (WIDTH - LEFT - RIGHT)

    def y(self, cost):
        share = (math.log10(cost) - self.lowest) / (self.highest - self.lowest)
        return HEIGHT - LOWER - share * (HEIGHT - UPPER - LOWER)

    def put(self, line):
        self.lines.append(line)

    def text(self, x, y, words, kind="word", anchor="start", more=""):
        self.put(f'<text class="{kind}" x="{x:.1f}" y="{y:.1f}" text-anchor="{anchor}"{more}>{words}</text>')

    def grid(self):
        """The lines of the powers of ten, and their numbers."""
        right, low = WIDTH - RIGHT, HEIGHT - LOWER
        for power in range(self.lowest, self.highest + 1):
            y = self.y(10 ** power)
            self.put(f'<line class="grid" x1="{LEFT}" y1="{y:.1f}" x2="{right}" y2="{y:.1f}"/>')
            told = f"{10 ** power:g} µs" if power < 3 else f"{10 ** (power - 3):g} ms"
            self.text(LEFT - 8, y + 4, told, "faint", "end")
        for power in range(3, 7):
            x = self.x(10 ** power)
            self.put(f'<line class="grid" x1="{x:.1f}" y1="{UPPER}" x2="{x:.1f}" y2="{low}"/>')
            self.text(x, low + 20, f"{10 ** power:,}", "faint", "middle")
        sides = f'width="{right - LEFT}" height="{low - UPPER}"'
        self.put(f'<rect class="frame" x="{LEFT}" y="{UPPER}" {sides}/>')

    def titles(self):
        """What the picture and its axes show."""
        middle = (UPPER + HEIGHT - LOWER) / 2
        large, turned = ' font-size="16" font-weight="600"', f' transform="rotate(-90 18 {middle})"'
        self.text(LEFT, 24, "What one record costs among more and more", more=large)
        self.put(f'<line class="key" x1="{LEFT}" y1="41" x2="{LEFT + 34}" y2="41"/>')
        self.text(LEFT + 42, 45, "scimlink")
        self.put(f'<line class="key rust" x1="{LEFT + 116}" y1="41" x2="{LEFT + 150}" y2="41"/>')
        self.text(LEFT + 158, 45, "the same by hand in Rust")
        told = "records: rows of a file, users of a store, or events"
        self.text((LEFT + WIDTH - RIGHT) / 2, HEIGHT - 16, told, anchor="middle")
        self.text(18, middle, "time for one", anchor="middle", more=turned)

    def curves(self):
        """A line for each work and program, and a label at the end of those of scimlink."""
        labels = {}
        for place, (work, (words, _, _)) in enumerate(WORKS.items()):
            for name, points in self.costs.get(work, {}).items():
                ends = [(self.x(int(size)), self.y(cost)) for size, cost in points.items()]
                kind = f"line{place}" + (" rust" if name == "rust" else "")
                self.put(f'<path class="{kind}" d="M {" L ".join(f"{x:.1f} {y:.1f}" for x, y in ends)}"/>')
                if name == "scimlink":
                    labels.setdefault(round(ends[-1][0]), []).append([ends[-1][1] + 4, f"name{place}", words])
        for x, found in labels.items():
            found.sort()
            self.spread(found)
            for y, kind, words in found:
                self.text(x + 8, y, words, kind)

    def spread(self, found):
        """Moves labels apart that would be on each other, and none below the frame."""
        for above, below in zip(found, found[1:]):
            below[0] = max(below[0], above[0] + LABEL_STEP)
        lowest = HEIGHT - LOWER + LABEL_STEP
        for label in reversed(found):
            label[0] = min(label[0], lowest - LABEL_STEP)
            lowest = label[0]

    def draw(self):
        """The whole picture, as text."""
        light, dark = STYLE, DARK_STYLE
        for place, (_, on_light, on_dark) in enumerate(WORKS.values()):
            light, dark = light + style_of(place, on_light), dark + style_of(place, on_dark)
        self.put(f'<svg xmlns="http://www.w3.org/2000/svg" viewBox="0 0 {WIDTH} {HEIGHT}" '
                 f'width="{WIDTH}" height="{HEIGHT}" role="img">')
        self.put("<title>Costs of scimlink among 1,000 to 1,000,000 records</title>")
        self.put(f"<style>\n{light}@media (prefers-color-scheme: dark) {{\n{dark}}}\n</style>")
        self.put(f'<rect class="back" width="{WIDTH}" height="{HEIGHT}"/>')
        self.grid()
        self.titles()
        self.curves()
        return "\n".join([*self.lines, "</svg>", ""])


def main():
    figures, picture = (sys.argv[1:] + [sizes.FIGURES, PICTURE][len(sys.argv) - 1:])[:2]
    costs = sizes.read(figures)["costs"]
    pathlib.Path(picture).write_text(Picture(costs).draw(), encoding="utf-8")


if __name__ == "__main__":
    main()
