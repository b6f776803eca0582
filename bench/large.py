#!/usr/bin/env python3
"""Measures all commands on a large file: run large [GATES [STEPS]]

The file has GATES (1000000) random gates, 1000 inputs and 1000 latches, and its 16 outputs are bad state properties. Commands that unroll
get STEPS (20) further steps, and all get `--limit`. Each row has the processor seconds of a command, its peak of memory, and the ratio of
its time to that for a quarter of the gates. A ratio of four means that the time is linear. A command may take ten minutes. If a command
is refused, the row has its status instead of the seconds."""
import sys

from measuring import CHECK, EDIT, TOOL, heads, make, new_folder, numbers, row, run

MOST = 600
ONE = ["refine", "reencode", "reduce", "move", "compress", "property 0", "possible", "question STEPS", "unroll STEPS", "info"]
COMMANDS = [
    *((TOOL, words) for words in ["text FILE", "binary FILE OUT", "strash FILE", "cnf FILE 10"]),
    *((EDIT, " ".join([name, "FILE", *rest])) for name, *rest in map(str.split, ONE)),
    *((EDIT, words) for words in ["cone MADE 0", "miter FILE FILE", "merge FILE FILE", "join FILE FILE"]),
    *((CHECK, words) for words in ["clauses FILE STEPS", "window FILE STEPS", "bounded FILE STEPS", "obligations FILE FILE"]),
    (CHECK, "run FILE WITNESS"),
]


def files(gates, steps, folder):
    """Returns the arguments of commands that stand for files, and the steps."""
    folder.mkdir()
    paths = {name: folder / name.lower() for name in ["MADE", "FILE", "OUT", "WITNESS"]}
    make("random", gates, paths["MADE"])
    with paths["FILE"].open("wb") as out:
        run([EDIT, "bads", paths["MADE"]], out)
    paths["WITNESS"].write_text("\n".join(["1", "b0", "0" * 1000, *["1" * 1000] * (steps + 1), ".", ""]))
    return {**paths, "STEPS": steps}


def main():
    gates, steps = numbers(1_000_000, 20)
    heads("command", "seconds", "peak", "of a quarter")
    with new_folder() as folder:
        small, large = (files(count, steps, folder / str(count)) for count in [gates // 4, gates])
        for program, words in COMMANDS:
            limit = [] if program == TOOL else ["--limit", 2 * gates * (steps + 2)]
            (_, less, _), (status, seconds, peak) = (
                run(["timeout", MOST, program, *limit, *(given.get(word, word) for word in words.split())]) for given in (small, large)
            )
            took = f"{seconds:.2f}" if status in (0, 1, 20) else f"status {status}"
            row(f"`{program.rpartition('/')[2]} {words}`", took, f"{peak / 1024:.0f} MiB", f"{seconds / max(less, 0.01):.1f}")


if __name__ == "__main__":
    sys.exit(main())
