#!/usr/bin/env python3
"""Measures bin/aigprove on the designs in Verilog of tests/verilog and examples: run verilog [OTHER [TIMES]]

A row has, for a design, the processor seconds of the aigprove in this tree and of that in the tree OTHER, including all programs that
they run. Each number is the best of TIMES (3) runs, which take turns. Both use the programs of this tree and the same engines. The last
row has the sums over the designs that both answer."""
import pathlib
import sys

from measuring import CHECK, EDIT, TESTS, TOOL, TOP, heads, row, run

WORDS = ["--engine", "steps,windows", "--timeout", "60", "--aigtool", TOOL, "--aigedit", EDIT, "--aigcheck", CHECK]
ANSWERS = (10, 20)


def seconds(tree, design):
    """Returns the processor seconds of one run with all programs that it runs, or None if there is no answer."""
    status, took, _ = run([tree / "bin" / "aigprove", *WORDS, design])
    return took if status in ANSWERS else None


def main():
    trees = [TOP, *map(lambda path: pathlib.Path(path).resolve(), sys.argv[1:2])]
    times = int(sys.argv[2]) if len(sys.argv) > 2 else 3
    sums = [0] * len(trees)
    heads("design", *trees)
    for design in sorted([*(TESTS / "verilog").glob("*v"), *(TOP / "examples").glob("*.v")]):
        runs = []
        while len(runs) < times and (not runs or None not in runs[-1]):
            runs.append([seconds(tree, design) for tree in trees])
        if None not in runs[-1]:
            best = [min(of_tree) for of_tree in zip(*runs)]
            sums = [sum(it) for it in zip(sums, best)]
            row(design.name, *(f"{took:.2f}" for took in best))
    row("sum", *(f"{it:.2f}" for it in sums))
    if len(trees) > 1:
        print(f"ratio {sums[0] / sums[1]:.2f}")


if __name__ == "__main__":
    main()
