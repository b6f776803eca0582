#!/usr/bin/env python3
"""Compares `aigedit miter` with the time to read both files and to write the miter: run joins [GATES [RUNS]]

Two files have the same GATES (1000000) random gates, 1000 inputs and 1000 latches. One file has them in any order, and the other in
order. `aigtool text` of both files reads them, and writes the gates of their miter except those that compare. `aigtool text` also reads
and writes the miter. The table has processor seconds, the least of RUNS (3), and peaks of memory."""
import sys

from measuring import EDIT, TOOL, make, new_folder, numbers, row, run


def least(words, runs):
    """Returns the least seconds and the greatest peak of several runs, which have to succeed."""
    statuses, seconds, peaks = zip(*(run(words) for _ in range(runs)))
    return (min(seconds), max(peaks)) if not any(statuses) else sys.exit(f"{' '.join(map(str, words))} failed")


def main():
    gates, runs = numbers(1_000_000, 3)
    with new_folder() as folder:
        files = [folder / f"{kind}.aag" for kind in ["shuffled", "random"]]
        for file in files:
            make(file.stem, gates, file)
        miter = [EDIT, "miter", *files]
        files.append(folder / "miter.aag")
        with files[-1].open("wb") as out:
            run(miter, out)
        costs = [least(words, runs) for words in [miter, *([TOOL, "text", file] for file in files)]]
    for name, (seconds, peak) in zip(["miter", "text of the first", "text of the second", "text of the miter"], costs):
        row(name, f"{seconds:.2f} s", f"{peak / 1024:.0f} MiB")
    mine, first, second, third = (seconds for seconds, _ in costs)
    print(f"miter / both texts: {mine / (first + second):.2f}, / all three: {mine / (first + second + third):.2f}")


if __name__ == "__main__":
    main()
