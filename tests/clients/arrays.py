"""Checks that numpy takes what the package aig gives without a copy, and that the package takes
arrays, of a circuit that is worked out by hand: two inputs, a latch, and the and of the first input
and the inverse of the second."""
from __future__ import annotations

import numpy

import aig


def check_taken(circuit: aig.Circuit) -> None:
    """Gives arrays to calls: edges, nodes, and values in each size of numbers."""
    circuit.set_edges(aig.BADS, numpy.array([6, 7]))
    assert circuit.bads.tolist() == [6, 7]
    assert bytes(circuit.coi(numpy.array([1]))) == bytes([1, 1, 0, 0, 0])
    for kind in (bool, numpy.uint8, numpy.int32, numpy.int64):
        inputs, state = numpy.array([1, 0], dtype=kind), numpy.array([0], dtype=kind)
        # In order: false, both inputs, the gate, and the latch; then the first input is stored.
        assert circuit.simulate(state, inputs) == (bytes([0, 1, 0, 1, 0]), b"\1"), kind


def main() -> None:
    with aig.Circuit() as circuit:
        x, y = circuit.new_input(), circuit.new_input()
        circuit.push_edge(aig.OUTPUTS, circuit.new_and_node(2 * x, 2 * y + 1))
        circuit.new_latch(2 * x, 1)
        nodes, latches = circuit.nodes_buffer(), circuit.latchs_buffer()
        views = [circuit.inputs, circuit.outputs, circuit.coi([3]), circuit.cnf(), nodes, latches]
        arrays = [numpy.asarray(view) for view in views]
        check_taken(circuit)
    for view, array in zip(views, arrays):
        assert numpy.shares_memory(array, numpy.frombuffer(view, dtype=numpy.uint8)), view
    inputs, outputs, cone, numbers, table, rows = arrays
    assert inputs.tolist() == [1, 2] and outputs.tolist() == [6]
    assert cone.tolist() == [True, True, True, True, False]
    assert numbers.tolist()[:2] == [-1, 0] and numbers.dtype == numpy.int32
    gate = [2, 2, 5]
    assert table.tolist() == [[0, 0, 0], [1, 0, 0], [1, 0, 0], gate, [1, 0, 0]]
    row = rows[0]
    assert (row["input"], row["next"], row["init"], row["has_init"]) == (4, 2, 1, True)
    print("shared")


if __name__ == "__main__":
    main()
