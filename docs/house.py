#!/usr/bin/env python3
"""Draws docs/house.svg, the crates and their dependencies: house.py [--check]

A crate is drawn above all crates on which it depends, by crates.txt. Its box names these crates, except those that follow from others.
The box also contains the number of its definitions on which public contracts and laws depend. With --check, nothing is written, and the
exit status is 1 if the drawing isn't up to date.
"""
import functools
import pathlib
import sys

TOP = pathlib.Path(__file__).resolve().parent.parent
sys.path.insert(0, str(TOP / "tests" / "support"))
import harness
import promises

DRAWING = TOP / "docs" / "house.svg"
MARGIN, GAP, BOX, ROW, LEGEND = 12, 10, 48, 60, 60
NOTE = "A crate stands on those that its box names, and on what these stand on. "
NOTE += "So many of its definitions public contracts and laws rest on."
# How wide a letter of a name and of the small text is.
LETTER, SMALL = 7.3, 4.9
PROGRAM, PROMISE, LAW, ENGINE, TEST = "program", "public calls and values", "definitions and laws", "engine", "test or sample"
COLOURS = {PROGRAM: "#f6b26b", PROMISE: "#9fc5e8", LAW: "#b6d7a8", ENGINE: "#d9d9d9", TEST: "#ffe599"}
# Whose types the public calls take and give.
VALUES = ["aig_base", "aig_circuit"]
TESTS = ["aig_callers", "aig_script"]
LINES = harness.crates()


def kind_of(name, code):
    """Returns the kind of a crate."""
    if name in TESTS:
        return TEST
    if (TOP / "crates" / name / "src" / "main.rt").exists():
        return PROGRAM
    if name in VALUES or any(name in crates for _, crates in promises.CALLS):
        return PROMISE
    functions = [part for item in code.exports[name] for part in code.functions.get(item, ()) if not part.is_law]
    methods = [part for item in code.exports[name] for part in code.types.get(item, ()) if part.name]
    return ENGINE if functions or methods else LAW


def text(x, y, size, words, anchor="middle"):
    return f'<text x="{x}" y="{y}" font-size="{size}" text-anchor="{anchor}">{words}</text>'


def rectangle(x, y, width, height, colour):
    return f'<rect x="{x}" y="{y}" width="{width}" height="{height}" rx="4" fill="{colour}" stroke="#404040"/>'


@functools.cache
def below(name):
    """Returns the crates that the line of a crate names."""
    return [other for other in LINES[name].partition(":")[2].split() if other in LINES]


@functools.cache
def under(name):
    """Returns all crates on which a crate depends."""
    return set(below(name)).union(*map(under, below(name)))


def row(name):
    """Returns the row of a crate, counted from the bottom."""
    return 1 + max(map(row, below(name)), default=-1)


class Box:
    """A crate, with the small lines below its name."""

    def __init__(self, name, code, definitions):
        needed = [low.removeprefix("aig_") for low in below(name) if not any(low in under(it) for it in below(name))]
        count = sum(word.crate == name for word in definitions)
        self.name, self.colour = name, COLOURS[kind_of(name, code)]
        self.lines = [f"on {', '.join(needed)}"] * bool(needed) + [f"{count} definition{'s' * (count != 1)}"] * bool(count)
        self.width = round(max([LETTER * len(name), *(SMALL * len(line) for line in self.lines)])) + 2 * GAP

    def drawn(self, x, y):
        middle = x + self.width // 2
        lines = [text(middle, y + 30 + 12 * i, 9.5, line) for i, line in enumerate(self.lines)]
        return [rectangle(x, y, self.width, BOX, self.colour), text(middle, y + 17, 12, self.name), *lines]


def drawing():
    """Returns the text of the drawing."""
    _, code, (*_, (_, definitions, _)) = promises.layers()
    rows = [[Box(name, code, definitions) for name in sorted(LINES) if row(name) == at] for at in range(max(map(row, LINES)), -1, -1)]
    widths = [sum(box.width + GAP for box in boxes) - GAP for boxes in rows]
    page, height, drawn = 2 * MARGIN + max(widths), len(rows) * ROW + LEGEND, []
    for at, (boxes, width) in enumerate(zip(rows, widths)):
        x = (page - width) // 2
        for box in boxes:
            drawn += box.drawn(x, MARGIN + at * ROW)
            x += box.width + GAP
    x = MARGIN
    drawn.append(text(x, height - 44, 12, NOTE, "start"))
    for kind, colour in COLOURS.items():
        drawn += [rectangle(x, height - 30, 16, 16, colour), text(x + 22, height - 17, 12, kind, "start")]
        x += 50 + round(len(kind) * LETTER)
    head = f'<svg xmlns="http://www.w3.org/2000/svg" viewBox="0 0 {page} {height}" font-family="Helvetica, Arial, sans-serif">'
    title, paper = "<title>The crates, and what they stand on</title>", f'<rect width="{page}" height="{height}" fill="#ffffff"/>'
    return "\n".join([head, title, paper, *drawn, "</svg>", ""])


def main():
    parser = harness.parser(__doc__)
    parser.add_argument("--check", action="store_true", help="write nothing, and fail where the drawing is another")
    if not parser.parse_args().check:
        DRAWING.write_text(drawing())
    elif not DRAWING.exists() or DRAWING.read_text() != drawing():
        sys.exit("docs/house.svg is another drawing: run docs/house.py")


if __name__ == "__main__":
    main()
