#!/usr/bin/env python3
"""What the documents show of the programs' input and output is what the gate runs them on and compares.

README.md and docs/RULES.md show crates/potcount/stdin with its stdout; docs/KITCHEN.md has the numbers of
crates/paper/stdout in three tables, and the loop of crates/plain that it explains. Prints nothing where all of it agrees.
"""

import re
from pathlib import Path

ROOT = Path(__file__).resolve().parent.parent


def lines(name):
    return (ROOT / name).read_text().splitlines()


def cells_of(row):
    return [cell.strip() for cell in row.strip("|").split("|")]


def listing(name):
    """The rows of a document whose first two cells are code: what goes in, and what comes out."""
    found = [re.match(r"\| `([^`]+)` \| `([^`]+)` \|", line) for line in lines(name)]
    return [(m[1], m[2]) for m in found if m]


def numbers(words):
    return [int(word) for word in re.findall(r"\d+", words)]


def main():
    potcount = list(zip(lines("crates/potcount/stdin"), lines("crates/potcount/stdout"), strict=True))
    for name in ("README.md", "docs/RULES.md"):
        assert listing(name) == potcount, f"{name}: its listing is not that of crates/potcount"

    tables = [cells_of(line) for line in lines("docs/KITCHEN.md") if line.startswith("|")]
    paper = lines("crates/paper/stdout")
    start = paper.index("cell hash highest level") + 1
    shown = [[row[0], row[2], row[3]] for row in tables if len(row) == 4 and row[0].isdigit()]
    assert shown == [line.split() for line in paper[start : start + len(shown)]], "docs/KITCHEN.md: its cells"

    # the plain engine's count: each cell with its hash, what it counts, and what has been counted so far
    start = paper.index("cell hash counts so far") + 1
    end = next(i for i, line in enumerate(paper) if line.startswith("counted "))
    shown = [row for row in tables if len(row) == 5 and row[0].isdigit()]
    assert [row[:2] + row[3:] for row in shown] == [line.split() for line in paper[start:end]], "docs/KITCHEN.md: its count"
    assert [row[2] == "yes" for row in shown] == [row[3] == "1" for row in shown], "docs/KITCHEN.md: its tests of a hash"
    assert f"So it answers {numbers(paper[end])[0]}." in (ROOT / "docs/KITCHEN.md").read_text(), "docs/KITCHEN.md: the count's answer"
    loop = [line for line in lines("docs/KITCHEN.md") if line.startswith("    ") and "potcount" not in line][:5]
    assert "\n".join(loop) in (ROOT / "crates/plain/src/lib.rt").read_text(), "docs/KITCHEN.md: its loop is not that of crates/plain"

    # a step: its level, the cells kept, and the estimate's kind and numbers, with the division that it comes from
    told = [re.fullmatch(r".+: level (\d+), cells(.*), (exactly|about) (.+)", line) for line in paper]
    steps = [(m[1], numbers(m[2]), m[3], numbers(m[4])) for m in told if m]
    shown = [(row[2], numbers(row[3]), row[4].split()[0], numbers(row[4])) for row in tables if len(row) == 5 and row[2].isdigit()]
    assert shown == steps[: len(shown)] and len(shown) == 5, "docs/KITCHEN.md: its evening"


main()
