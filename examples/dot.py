#!/usr/bin/env python3
"""Prints the circuit of a small AIGER file, text or binary, as a graph for Graphviz: dot.py FILE | dot -Tsvg > circuit.svg

Inputs are triangles, latches are boxes, and gates are circles. Outputs, bad state properties and constraints are at the ends of the
graph. Each item is labelled with its name in FILE. If it has no name, its label consists of the letter of its kind and its position. The
box of a latch contains its initial value, which is ? if the latch is open, and a bold edge leads to it from its next value. An inverted
edge is dashed. Gates have their numbers in FILE.

The exit status is 0 if the graph was printed, 1 if there was an error, which is printed in one line, and 2 if the arguments aren't valid.
"""
import argparse
import json
import pathlib
import sys

sys.path.insert(0, str(pathlib.Path(__file__).resolve().parent.parent / "lib"))

from aigprove.circuits.aiger import Circuit, Fault, Lines

# How many gates a picture has at most, where nothing is said.
MOST = 300
SHAPES = {"i": "invtriangle", "l": "box", "o": "triangle", "b": "octagon, color=red", "c": "house"}


def edge(literal, to, style=""):
    """Returns the line for an edge from the node of a literal. Nodes are named after their even literals."""
    words = ", ".join(["style=dashed"] * (literal & 1) + [style] * bool(style))
    return f"  n{literal & ~1} -> {to}{f' [{words}]' * bool(words)};"


def graph(circuit):
    """Returns the lines of the graph: leaves, gates, properties, and edges."""
    kinds, edges = {letter: [] for letter in SHAPES}, []
    for letter, i, literal in circuit.signals():
        name, label = f"n{literal}", circuit.name(letter, i).decode("utf-8", "replace")
        if letter == "l":
            label += " = " + "01?"[min(circuit.resets[i], 2)]
        elif letter != "i":
            name = f"{letter}{i}"
            edges.append(edge(literal, name))
        kinds[letter].append(f"  {name} [label={json.dumps(label)}, shape={SHAPES[letter]}];")
    if kinds["l"]:
        kinds["l"] = ["  subgraph cluster_latches {", *("  " + line for line in kinds["l"]), "  }"]
    edges[:0] = [edge(next, f"n{latch}", "penwidth=2") for latch, next in zip(circuit.latches, circuit.nexts)]
    edges[:0] = [edge(operand, f"n{gate}") for gate, *operands in circuit.gates for operand in operands]
    zero = ['  n0 [label="0", shape=plaintext];'] * any(line.startswith("  n0 ") for line in edges)
    gates = [f'  n{gate} [label="{gate}", shape=circle];' for gate, _, _ in circuit.gates]
    leaves, ends = kinds["i"] + kinds["l"], kinds["o"] + kinds["b"] + kinds["c"]
    return ["digraph {", "  rankdir=LR;", *zero, *leaves, *gates, *ends, *edges, "}"]


def parse():
    parser = argparse.ArgumentParser(description=__doc__, formatter_class=argparse.RawDescriptionHelpFormatter)
    parser.add_argument("--gates", metavar="N", type=int, default=MOST, help=f"draw a circuit of up to so many gates ({MOST})")
    parser.add_argument("file", metavar="FILE", help="a file in AIGER form, text or binary")
    return parser.parse_args()


def main():
    words = parse()
    try:
        circuit = Circuit(Lines(pathlib.Path(words.file).read_bytes(), "FILE"))
        if len(circuit.gates) > words.gates:
            raise Fault(f"FILE has {len(circuit.gates)} gates; --gates {len(circuit.gates)} draws them")
        print("\n".join(graph(circuit)))
    except (Fault, OSError, ValueError) as fault:
        print(f"dot: {fault}", file=sys.stderr)
        sys.exit(1)


if __name__ == "__main__":
    main()
