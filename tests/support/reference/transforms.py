"""Transforms of circuits, as they are defined: what is kept, and what number each node has."""
from __future__ import annotations

from collections.abc import Sequence

from reference.circuit import PROPERTIES, TRUE, Circuit, Gate, Latch, Numbering, gate_of, mapped


def mapped_gate(number: Numbering, gate: Gate | None) -> Gate | None:
    """Returns a node with operands of other numbers, which are put in order again."""
    return gate and gate_of(mapped(number, gate.low), mapped(number, gate.high))


def mapped_latch(number: Numbering, latch: Latch) -> Latch:
    init = None if latch.init is None else mapped(number, latch.init)
    return Latch(number(latch.leaf), mapped(number, latch.next), init)


def append_lists(to: Circuit, circuit: Circuit, number: Numbering) -> None:
    """Appends the latches and the properties of a circuit, with other numbers."""
    to.latches += [mapped_latch(number, latch) for latch in circuit.latches]
    append_properties(to, circuit, lambda edge: mapped(number, edge))


def append_properties(to: Circuit, circuit: Circuit, edge_of: Numbering) -> None:
    """Appends the properties of a circuit, each edge as another one."""
    for name in PROPERTIES:
        to.properties(name).extend(map(edge_of, circuit.properties(name)))
    to.justice += [list(map(edge_of, one)) for one in circuit.justice]


def renumbered(circuit: Circuit, order: Sequence[int], number: Numbering) -> Circuit:
    """Returns the circuit of these of the nodes in this order, where each has the number that it is
    given. An input and a name stay where their nodes do."""
    made = Circuit([mapped_gate(number, circuit.nodes[node]) for node in order])
    kept = set(order)
    made.inputs = [number(node) for node in circuit.inputs if node in kept]
    made.names = {number(node): name for node, name in circuit.names.items() if node in kept}
    append_lists(made, circuit, number)
    return made


def refined(circuit: Circuit) -> Circuit:
    """Returns the circuit of what is reached from properties, latches and initial edges."""
    inits = [edge for edge in circuit.initial_edges() if edge > TRUE]
    roots = [edge // 2 for edge in circuit.property_edges() + inits]
    order = sorted(circuit.influence(roots + circuit.latch_leaves()))
    places = {node: place for place, node in enumerate(order)}
    return renumbered(circuit, order, places.__getitem__)


def reencoded(circuit: Circuit) -> Circuit:
    """Returns the circuit with its inputs first, then its latches, then its gates."""
    gates = [node for node, gate in enumerate(circuit.nodes) if gate]
    order = [0, *circuit.inputs, *circuit.latch_leaves(), *gates]
    places = {node: place for place, node in enumerate(order)}
    return renumbered(circuit, order, places.__getitem__)


def firsts(circuit: Circuit) -> list[int]:
    """Returns for each node the first gate whose tree is equal to its own up to exchange, or itself
    where it is no gate."""
    found: list[int] = []
    trees: dict[Gate, int] = {}
    for node, gate in enumerate(circuit.nodes):
        tree = mapped_gate(found.__getitem__, gate)
        found.append(trees.setdefault(tree, node) if tree else node)
    return found


def hashed(circuit: Circuit) -> Circuit:
    """Returns the circuit in which gates with equal trees are one."""
    first = firsts(circuit)
    order = [node for node in range(len(first)) if first[node] == node]
    places = {node: place for place, node in enumerate(order)}
    return renumbered(circuit, order, lambda node: places[first[node]])


def unroll(circuit: Circuit, source: Circuit) -> None:
    """Adds to a circuit, which begins with the source, one further step of it."""
    now = {0: 0} | {latch.leaf: latch.next for latch in circuit.latches}

    def edge_of(edge: int) -> int:
        return now[edge // 2] ^ edge % 2

    for node, gate in enumerate(source.nodes):
        if gate:
            now[node] = circuit.and_of(edge_of(gate.low), edge_of(gate.high))
        elif node not in now:
            now[node] = 2 * circuit.new_input()
    for place, latch in enumerate(source.latches):
        circuit.set_next(place, edge_of(latch.next))
    append_properties(circuit, source, edge_of)


def unrolled(circuit: Circuit, steps: int) -> Circuit:
    """Returns the circuit with so many further steps."""
    made = circuit.copy()
    for _ in range(steps):
        unroll(made, circuit)
    return made


def merge(circuit: Circuit, other: Circuit) -> None:
    """Appends another circuit but for its names."""
    before = len(circuit.nodes) - 1

    def number(node: int) -> int:
        return node + before if node else 0

    circuit.nodes += [mapped_gate(number, gate) for gate in other.nodes[1:]]
    circuit.inputs += map(number, other.inputs)
    append_lists(circuit, other, number)


def moved(circuit: Circuit) -> Circuit:
    """Returns the circuit whose constraints, up to each step, are part of its first bad literal and
    its first output, by a latch that is true as long as they all held."""
    made = circuit.copy()
    leaf = made.new_leaf()
    holds = made.and_of(2 * leaf, made.ands(made.constraints))
    made.latches.append(Latch(leaf, holds, TRUE))
    for edges in (made.bads, made.outputs):
        if edges:
            edges[0] = made.and_of(holds, edges[0])
    made.constraints.clear()
    return made


def compress(circuit: Circuit) -> list[int]:
    """Joins the bad literals to one, and returns them."""
    old = circuit.bads
    circuit.bads = [circuit.ors(old)]
    return old


def constrain_inits(circuit: Circuit) -> None:
    """Makes a constraint of the first step of each initial edge that isn't constant."""
    inits = [latch.init or 0 for latch in circuit.latches]
    asked = {place: init for place, init in enumerate(inits) if init > TRUE}
    if not asked:
        return
    first = 2 * circuit.new_latch(0, TRUE)
    for place, init in asked.items():
        circuit.set_init(place, None)
        equal = circuit.equal(2 * circuit.latches[place].leaf, init)
        circuit.constraints.append(circuit.imply(first, equal))
