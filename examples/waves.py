#!/usr/bin/env python3
"""Prints the run of a witness as a value change dump (VCD, IEEE 1364), which wave viewers such as gtkwave read.

FILE is an AIGER file, text or binary. WITNESS is a witness in the format of docs/reference/witnesses.md. Inputs, latches, outputs, bad
state properties and constraints become signals, in a scope for each kind. A signal gets the name that it has in FILE. If it has no name
there, its new name consists of the letter of its kind and its position. Bits with the names `d[0]`, `d[1]` and so on become one word `d`,
and the parts of a name `a.b.d` become scopes. A value is 0, 1 or x, from a simulation with three values. Step t is at time t, and the
dump ends one time unit after the last step. In a name, each byte that isn't printable, and the percent sign, is replaced by a percent
sign and two hexadecimal digits.

The program doesn't check the run. Use `aigcheck run` to check that it starts in an initial state, meets the constraints and is bad at its
last step.

The exit status is 0 if the dump was printed, 1 if there was an error, which is printed in one line, and 2 if the arguments aren't valid.
"""
import argparse
import pathlib
import sys

sys.path.insert(0, str(pathlib.Path(__file__).resolve().parent.parent / "lib"))

from aigprove.circuits import witness
from aigprove.output import waves
from aigprove.circuits.aiger import Circuit, Fault, Lines


def positive(word):
    if not word.isascii() or not word.isdigit() or int(word) == 0:
        raise argparse.ArgumentTypeError(f"{word} is no number from 1 on")
    return int(word)


def parse():
    parser = argparse.ArgumentParser(description=__doc__, formatter_class=argparse.RawDescriptionHelpFormatter)
    parser.add_argument("--number", metavar="N", type=positive, default=1, help="which witness of the stream, from 1 on (1)")
    parser.add_argument("file", metavar="FILE", help="a file in AIGER form, text or binary")
    parser.add_argument("witness", metavar="WITNESS", help="a text of witnesses")
    parser.add_argument("out", metavar="OUT", nargs="?", help="where the dump goes (standard output)")
    return parser.parse_intermixed_args()


def show(words):
    """Reads both files, and prints the dump."""
    circuit = Circuit(Lines(pathlib.Path(words.file).read_bytes(), "FILE"))
    lines = Lines(pathlib.Path(words.witness).read_bytes(), "WITNESS")
    for _ in range(words.number):
        told = witness.read(lines, len(circuit.latches), len(circuit.inputs))
    text = "".join(line + "\n" for line in waves.dump(circuit, told.start, told.steps))
    with open(words.out or 1, "w", encoding="ascii", closefd=bool(words.out)) as out:
        out.write(text)


def main():
    words = parse()
    try:
        show(words)
    except (Fault, OSError, ValueError) as fault:
        print(f"waves: {fault}", file=sys.stderr)
        sys.exit(1)


if __name__ == "__main__":
    main()
