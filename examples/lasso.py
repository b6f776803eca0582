#!/usr/bin/env python3
"""Prints the fair lasso that a witness of a live file contains: lasso.py FILE J WITNESS

FILE is an AIGER file, text or binary. WITNESS is a witness, in the format of docs/reference/witnesses.md, of the file that `aigedit live
FILE J` prints. The lasso is a witness of FILE for its justice property J. It is WITNESS without the values of the latches and the input
that the live file has in addition.

The program doesn't check the lasso. Use `aigcheck run FILE LASSO` for this.

The exit status is 0 if the lasso was printed, 1 if there was an error, which is printed in one line, and 2 if the arguments aren't valid.
"""
import argparse
import pathlib
import sys

sys.path.insert(0, str(pathlib.Path(__file__).resolve().parent.parent / "lib"))

from aigprove.circuits import witness
from aigprove.circuits.aiger import Circuit, Fault, Lines


def property_number(word):
    if not word.isascii() or not word.isdigit():
        raise argparse.ArgumentTypeError(f"{word} is no number of a justice property")
    return int(word)


def parse():
    parser = argparse.ArgumentParser(description=__doc__, formatter_class=argparse.RawDescriptionHelpFormatter)
    parser.add_argument("file", metavar="FILE", help="a file in AIGER form, text or binary")
    parser.add_argument("number", metavar="J", type=property_number, help="which justice property, from 0 on")
    parser.add_argument("witness", metavar="WITNESS", help="a witness of its live file")
    return parser.parse_args()


def lasso(words):
    """Reads both files, and returns the text of the lasso."""
    circuit = Circuit(Lines(pathlib.Path(words.file).read_bytes(), "FILE"))
    if words.number >= len(circuit.justice):
        raise Fault(f"{words.file}: no such justice property")
    # The live file has a copy of each latch more, one that says whether a state was saved, and one for each literal that is asked for.
    asked = len(circuit.justice[words.number]) + len(circuit.fairness)
    latches, inputs = len(circuit.latches), len(circuit.inputs)
    lines = Lines(pathlib.Path(words.witness).read_bytes(), "WITNESS")
    told = witness.read(lines, 2 * latches + 1 + asked, inputs + 1)
    return told.lasso(words.number, latches).text()


def main():
    words = parse()
    try:
        print(lasso(words), end="")
    except (Fault, OSError, ValueError) as fault:
        print(f"lasso: {fault}", file=sys.stderr)
        sys.exit(1)


if __name__ == "__main__":
    main()
