#!/usr/bin/env python3
"""Measures printing the clauses of large files: run printing [GATES [RUNS]]

The file has GATES (200000) random gates, 1000 inputs and 1000 latches, and its outputs are bad state properties. The script measures
`aigcheck obligations` with the file as its own certificate, `aigcheck window` for two steps and for three, and `aigtool cnf` of a file
with five times the gates for 10 steps. The table has processor seconds, the least of RUNS (3), and the greatest peak of memory."""
import sys

from measuring import CHECK, EDIT, TOOL, heads, make, new_folder, numbers, row, run


def print_row(name, words, runs):
    statuses, seconds, peaks = zip(*(run(words) for _ in range(runs)))
    if any(statuses):
        sys.exit(f"{' '.join(map(str, words))} failed")
    row(name, f"{min(seconds):.2f} s", f"{max(peaks) / 1024:.0f} MiB")


def main():
    gates, runs = numbers(200_000, 3)
    with new_folder() as folder:
        made, file, large = (folder / f"{name}.aag" for name in ["made", "file", "large"])
        make("random", gates, made)
        make("random", 5 * gates, large)
        with file.open("wb") as out:
            run([EDIT, "bads", made], out)
        heads("Clauses", "Time", "Peak")
        print_row("`obligations`", [CHECK, "obligations", file, file], runs)
        for k in range(2):
            print_row(f"`window`, {k + 2} steps", [CHECK, "window", file, k], runs)
        print_row("`cnf`, 10 steps", [TOOL, "cnf", large, 10], runs)


if __name__ == "__main__":
    main()
