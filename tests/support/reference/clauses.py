"""The clauses of a circuit, with one variable for each node, and its values with unknown ones."""
from __future__ import annotations

from collections.abc import Iterator, Sequence
from typing import NamedTuple

from reference.circuit import Circuit, Gate

Clause = list[int]
# The three values, as they are handed over.
ZERO, ONE, UNKNOWN = 0, 1, 2


class Relation(NamedTuple):
    """What a gate's clauses say: their literals, and the nodes whose gates it calls for."""

    clauses: list[Clause]
    calls: set[int]


def dimacs(literal: int) -> int:
    """Returns the number of a literal in DIMACS form, where node n has the variable n + 1."""
    return (literal // 2 + 1) * (-1 if literal % 2 else 1)


def both(node: int, gate: Gate) -> Relation:
    """Returns how a gate is the and of its operands."""
    n, (low, high) = 2 * node, gate
    return Relation([[n ^ 1, low], [n ^ 1, high], [n, low ^ 1, high ^ 1]], {low // 2, high // 2})


def differ(node: int, x: int, y: int) -> Relation:
    """Returns how a gate is an exclusive or."""
    n = 2 * node
    clauses = [[n ^ 1, x, y], [n ^ 1, x ^ 1, y ^ 1], [n, x ^ 1, y], [n, x, y ^ 1]]
    return Relation(clauses, {x // 2, y // 2})


def choose(node: int, c: int, t: int, e: int) -> Relation:
    """Returns how a gate is `t` where `c` is true, and else `e`."""
    n = 2 * node
    clauses = [[c ^ 1, t ^ 1, n], [c ^ 1, t, n ^ 1], [c, e ^ 1, n], [c, e, n ^ 1]]
    return Relation(clauses, {c // 2, t // 2, e // 2})


def choices(p: Gate, q: Gate) -> Iterator[tuple[int, int, int]]:
    """Yields the choices that the inverses of two gates make, the one that decides first."""
    for place in (0, 1):
        for other in (0, 1):
            if p[place] == q[other] ^ 1:
                yield p[place], p[1 - place] ^ 1, q[1 - other] ^ 1


def pattern(circuit: Circuit, node: int, gate: Gate) -> Relation | None:
    """Returns how a gate is an exclusive or, or a choice, if it is one."""
    p, q = (circuit.nodes[edge // 2] for edge in gate)
    if not (gate.low % 2 and gate.high % 2 and p and q):
        return None
    if (p.low, p.high) == (q.low ^ 1, q.high ^ 1) and p.low // 2 != p.high // 2:
        return differ(node, *p)
    found = next(choices(p, q), None)
    if found and len({edge // 2 for edge in found}) == 3:
        return choose(node, *found)
    return None


def relation(circuit: Circuit, node: int, gate: Gate, optimize: bool) -> Relation:
    found = pattern(circuit, node, gate) if optimize else None
    return found or both(node, gate)


def clauses(circuit: Circuit, optimize: bool) -> list[list[Clause]]:
    """Returns the clauses that each variable was given."""
    found: list[list[Clause]] = [[] for _ in circuit.nodes]
    found[0].append([1])
    roots = circuit.property_edges() + circuit.initial_edges()
    roots += [latch.next for latch in circuit.latches]
    called = {edge // 2 for edge in roots}
    for node in reversed(range(len(circuit.nodes))):
        gate = circuit.nodes[node]
        if gate and node in called:
            found[node], calls = relation(circuit, node, gate, optimize)
            called |= calls
    return found


# ---- three values


def inverted(value: int, inverts: int) -> int:
    return value if value == UNKNOWN else value ^ inverts


def joined(left: int, right: int) -> int:
    if ZERO in (left, right):
        return ZERO
    return ONE if left == right == ONE else UNKNOWN


def value_of(values: Sequence[int], edge: int) -> int:
    return inverted(values[edge // 2], edge % 2)


def ternary(circuit: Circuit, inputs: Sequence[int], latches: Sequence[int]) -> list[int]:
    """Returns the value of each node, where free leaves are unknown."""
    values = [UNKNOWN] * len(circuit.nodes)
    values[0] = ZERO
    leaves = [*circuit.inputs, *circuit.latch_leaves()]
    for leaf, value in zip(leaves, [*inputs, *latches], strict=True):
        values[leaf] = value
    for node, gate in enumerate(circuit.nodes):
        if gate:
            values[node] = joined(value_of(values, gate.low), value_of(values, gate.high))
    return values


def following(circuit: Circuit, values: Sequence[int]) -> list[int]:
    """Returns the state after a step with these values."""
    return [value_of(values, latch.next) for latch in circuit.latches]
