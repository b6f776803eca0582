"""Checks what scripts of calls don't reach of the package aig: signals of two circuits, circuits
that are closed or used beside themselves, numbers that C can't be given, and names. All values are
worked out by hand."""
from __future__ import annotations

from collections.abc import Callable

import aig

EMPTY, RANGE, HEADER = 110, 111, 10


def raises(kind: type[Exception], call: Callable[[], object]) -> Exception:
    """Returns the error of this kind that a call raises."""
    try:
        call()
    except kind as error:
        return error
    raise AssertionError("the call wasn't refused")


def refused(call: Callable[[], object]) -> int:
    """Returns the status for which a call is refused."""
    error = raises(aig.Refused, call)
    assert isinstance(error, aig.Refused)
    return error.status


def check_signals() -> None:
    with aig.Circuit() as circuit, aig.Circuit() as other:
        x, y = circuit.signal(2 * circuit.new_input()), circuit.signal(2 * circuit.new_input())
        foreign = other.signal(2 * other.new_input())
        raises(ValueError, lambda: x & foreign)
        assert refused(lambda: x & 98) == RANGE and len(circuit) == 3
        assert (x & y).literal == 6 and (x & y).node == 4 and (~x).is_inverted
        assert (x | ~x).literal == 1 and (x & True).literal == 2 and (False | x).literal == 2
        # The equality of two inputs takes nodes 5, 6 and 7, and is the inverse of 7.
        assert (x ^ y).literal == 14 and x.equals(x).literal == 1 and x.implies(x).literal == 1
        # Comparing signals adds no gate.
        assert x == circuit.signal(2) and x != y and x != foreign and len({x, ~x, ~~x}) == 2
        assert [node.kind for node in circuit] == [0, *[aig.LEAF] * 2, *[aig.AND] * 5]


def check_circuits() -> None:
    circuit = aig.Circuit()
    circuit.push_edge(aig.OUTPUTS, 2 * circuit.new_input())
    circuit.merge(circuit)
    assert len(circuit) == 3 and circuit.outputs.tolist() == [2, 4]
    assert circuit.begins_with(circuit)
    for call in (circuit.has_node, circuit.unroll_to, circuit.add_input):
        raises(ValueError, lambda: call(-1))
    raises(ValueError, lambda: circuit.push_edge(aig.OUTPUTS, 2**32))
    assert not circuit.has_node(2**70) and refused(lambda: circuit.add_input(2**70)) == 116
    circuit.set_symbol(1, "é")
    assert circuit.get_symbol(1) == "é" and circuit.get_symbol(2) is None
    simulation = aig.Simulation(circuit, b"")
    circuit.close()
    circuit.close()
    assert refused(circuit.num_nodes) == EMPTY and refused(circuit.clone) == EMPTY
    simulation.simulate([aig.TRUE, aig.UNKNOWN])
    assert [simulation.value(edge) for edge in (2, 3, 5)] == [aig.TRUE, aig.FALSE, aig.UNKNOWN]
    with simulation:
        pass
    assert refused(simulation.state) == EMPTY
    assert refused(lambda: aig.Circuit.from_aiger(b"")) == HEADER


if __name__ == "__main__":
    check_signals()
    check_circuits()
    print("all hold")
