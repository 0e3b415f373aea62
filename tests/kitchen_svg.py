#!/usr/bin/env python3
"""docs/kitchen.svg: the small kitchen of crates/paper as a picture, drawn from what that program prints.

Again, after crates/paper has changed:  python3 tests/kitchen_svg.py > docs/kitchen.svg
The gate compares the two, and crates/paper/stdout with the program, so the picture can't grow stale.
"""

import re
from pathlib import Path

PAPER = Path(__file__).resolve().parent.parent / "crates" / "paper"

# Where things stand, in pixels: a column of labels, and the hashes 0..p beside it.
WIDTH, LEFT, RIGHT = 960, 272, 930
LEVELS_TOP, LEVEL_STEP, EVENING_STEP, DOT = 112, 31, 46, 10

INK, FAINT, PAGE, EDGE = "#2b2a33", "#6d6a75", "#fffdf6", "#d9d3c3"
FILLS = ["#f1eee4", "#e2ecdf", "#c9dfca", "#acd0b4", "#8fc09e", "#74b089", "#5aa075"]
COLOURS = {"first handheld": "#1f6f9f", "second handheld": "#b8532c", "merge": "#5d4a8f"}

ABOVE = "Each cell stands at its hash. It passes at a level where its hash is below the region, which halves, rounded down."
BETWEEN = "Filled: kept. Ring: let go in this step, to make room. The band is the region of the level after the step."
BELOW = "Merging starts at the higher of the two levels: below it, one handheld has let cells go already."


def rows(lines, heading):
    """The rows of numbers that follow a heading."""
    found = []
    for told in lines[lines.index(heading) + 1 :]:
        if not re.fullmatch(r"[\d ]+", told):
            break
        found.append([int(word) for word in told.split()])
    return found


def evening(lines):
    """Each step: who, what was done, the cells that came together, and after it the level, the cells kept, the estimate."""
    kept, steps, merged = {}, [], {}
    for told in lines:
        m = re.fullmatch(r"(.+): level (\d+), cells((?: \d+)*), (exactly|about) (?:.+ = )?(\d+)", told)
        if not m:
            continue
        what, after = m[1], (int(m[2]), [int(c) for c in m[3].split()], f"{m[4]} {m[5]}")
        sees = re.fullmatch(r"(.+) sees (\d+)\.\.(\d+)", what)
        if sees:
            who = sees[1]
            together = kept.get(who, set()) | set(range(int(sees[2]), int(sees[3]) + 1))
            kept[who] = set(after[1])
            steps.append((who, what, together, *after))
        else:
            merged[what] = after
    assert merged["first with second"] == merged["second with first"], "the order of merging matters"
    both = kept["first handheld"] | kept["second handheld"]
    return steps + [("merge", "both merged, in either order", both, *merged["first with second"])]


def text(x, y, words, size=14, colour=INK, anchor="", bold=False):
    more = (f' text-anchor="{anchor}"' if anchor else "") + (' font-weight="bold"' if bold else "")
    return f'<text x="{x:.1f}" y="{y:.1f}" font-size="{size}" fill="{colour}"{more}>{words}</text>'


def rect(x, y, width, height, fill, more=""):
    return f'<rect x="{x:.1f}" y="{y:.1f}" width="{width:.1f}" height="{height:.1f}" fill="{fill}"{more}/>'


def line(x1, y1, x2, y2, colour, more=""):
    return f'<line x1="{x1:.1f}" y1="{y1:.1f}" x2="{x2:.1f}" y2="{y2:.1f}" stroke="{colour}"{more}/>'


def dot(x, y, cell, colour, kept=True):
    """A cell: filled where it is kept, and an empty dashed ring where it is let go."""
    ring = f' stroke="{colour}"' + ("" if kept else ' stroke-dasharray="3 2"')
    circle = f'<circle cx="{x:.1f}" cy="{y:.1f}" r="{DOT}" fill="{colour if kept else PAGE}"{ring}/>'
    return circle + "\n" + text(x, y + 4.2, cell, 12, "#ffffff" if kept else colour, "middle", kept)


class Kitchen:
    def __init__(self):
        lines = (PAPER / "stdout").read_text().splitlines()
        source = (PAPER / "src" / "main.rt").read_text()
        self.capacity = re.search(r"^ +capacity: (\d+),$", source, re.M)[1]
        self.regions = [size for level, size in rows(lines, "level region")]
        listed = rows(lines, "cell hash highest level")
        self.hashes = {cell: hash_ for cell, hash_, highest in listed}
        self.steps = evening(lines)
        for cell, hash_, highest in listed:
            passed = [level for level, size in enumerate(self.regions) if hash_ < size]
            assert highest == max(passed), f"cell {cell}: not its highest level"

    def at(self, hash_):
        return LEFT + (RIGHT - LEFT) * hash_ / self.regions[0]

    def dot(self, cell, y, colour, kept=True):
        return dot(self.at(self.hashes[cell]), y, cell, colour, kept)

    def band(self, level, y, height):
        """The region of a level, and its end."""
        end = self.at(self.regions[level])
        return [
            rect(LEFT, y, end - LEFT, height, FILLS[level % len(FILLS)], ' rx="3"'),
            line(end, y - 2, end, y + height + 2, INK, ' stroke-width="1.5"'),
        ]

    def axis(self, y):
        out = [line(LEFT, y, RIGHT, y, FAINT), text(LEFT - 14, y - 7, "hash", 12, FAINT, "end")]
        for hash_ in range(0, self.regions[0], 10):
            x = self.at(hash_)
            out += [text(x, y - 11, hash_, 11, FAINT, "middle"), line(x, y - 6, x, y, FAINT)]
        return out

    def level(self, level, y):
        """A level, its region, and the cells that pass; a cell that just doesn't is named."""
        size = self.regions[level]
        passing = [cell for cell, hash_ in self.hashes.items() if hash_ < size]
        notes = [f"cell {cell} has hash {size}, which isn't below {size}" for cell, hash_ in self.hashes.items() if hash_ == size]
        if not passing:
            notes = ["no cell passes"]
        out = [text(24, y + 16, f"level {level}", bold=True), text(LEFT - 14, y + 16, f"hash below {size}", 13, FAINT, "end")]
        out += self.band(level, y, 22)
        out += [text(self.at(size) + 12, y + 16, words, 12, FAINT) for words in notes]
        return out + [self.dot(cell, y + 11, INK) for cell in passing]

    def step(self, step, y):
        who, what, together, level, kept, estimate = step
        out = [text(24, y + 15, what, 14, COLOURS[who], bold=True), text(24, y + 33, f"level {level}: {estimate} cells", 13, FAINT)]
        out += self.band(level, y + 2, 34)
        return out + [self.dot(cell, y + 19, COLOURS[who], cell in kept) for cell in sorted(together)]

    def picture(self):
        middle = LEVELS_TOP + LEVEL_STEP * len(self.regions) + 38
        height = middle + 46 + EVENING_STEP * len(self.steps) + 44
        out = [
            f'<svg xmlns="http://www.w3.org/2000/svg" viewBox="0 0 {WIDTH} {height}" width="{WIDTH}" height="{height}"'
            '\nfont-family="DejaVu Sans, Verdana, Helvetica, Arial, sans-serif" role="img">',
            "<title>Cells along their hashes, regions that halve, and what two handhelds and their merge keep</title>",
            rect(0.5, 0.5, WIDTH - 1, height - 1, PAGE, f' rx="10" stroke="{EDGE}"'),
            text(24, 34, "Which cells pass at which level", 17, bold=True),
            text(24, 56, ABOVE, 13, FAINT),
            text(24, middle, f"An evening on two handhelds, with room for {self.capacity} cells", 17, bold=True),
            text(24, middle + 22, BETWEEN, 13, FAINT),
            text(24, height - 18, BELOW, 13, FAINT),
        ]
        out += self.axis(LEVELS_TOP - 13)
        for level in range(len(self.regions)):
            out += self.level(level, LEVELS_TOP + LEVEL_STEP * level)
        for i, step in enumerate(self.steps):
            out += self.step(step, middle + 46 + EVENING_STEP * i)
        return "\n".join(out + ["</svg>"])


print(Kitchen().picture())
