"""Circuits in memory: nodes, lists and names, what connectives add, and what is reached from where.

An edge is a literal: twice its node's number, and 1 more where it is inverted. Edges are ordered as
literals are.
"""
from __future__ import annotations

import copy
import dataclasses
import functools
from collections.abc import Callable, Iterable, Sequence
from typing import NamedTuple

FALSE, TRUE = 0, 1
# The lists of edges, by their names.
PROPERTIES = ("outputs", "bads", "constraints", "fairness")
# What tells of a node its number in another circuit.
Numbering = Callable[[int], int]


class Gate(NamedTuple):
    """The operands of a gate, the lower first."""

    low: int
    high: int


class Latch(NamedTuple):
    """A latch: its leaf's number, its next edge, and its initial edge, if any."""

    leaf: int
    next: int
    init: int | None


def gate_of(left: int, right: int) -> Gate:
    """Returns the gate of two operands in any order."""
    return Gate(min(left, right), max(left, right))


def folded(left: int, right: int) -> int | None:
    """Returns the edge that the and of two edges is without a gate, if there is one."""
    low, high = gate_of(left, right)
    if low == FALSE or high == low ^ 1:
        return FALSE
    if low in (TRUE, high):
        return high
    return None


def mapped(number: Numbering, edge: int) -> int:
    """Returns an edge to the node of another number, inverted where it was."""
    return 2 * number(edge // 2) + edge % 2


@dataclasses.dataclass
class Circuit:
    """A circuit. Node 0 is false; of the others those without operands are leaves."""

    nodes: list[Gate | None] = dataclasses.field(default_factory=lambda: [None])
    inputs: list[int] = dataclasses.field(default_factory=list)
    latches: list[Latch] = dataclasses.field(default_factory=list)
    outputs: list[int] = dataclasses.field(default_factory=list)
    bads: list[int] = dataclasses.field(default_factory=list)
    constraints: list[int] = dataclasses.field(default_factory=list)
    justice: list[list[int]] = dataclasses.field(default_factory=list)
    fairness: list[int] = dataclasses.field(default_factory=list)
    names: dict[int, str] = dataclasses.field(default_factory=dict)

    def copy(self) -> Circuit:
        """Returns a circuit that shares nothing with this one."""
        return copy.deepcopy(self)

    # ---- tests

    def has_edge(self, edge: int) -> bool:
        return edge // 2 < len(self.nodes)

    def has_node(self, node: int) -> bool:
        return node < len(self.nodes)

    def is_leaf(self, node: int) -> bool:
        return 0 < node < len(self.nodes) and self.nodes[node] is None

    def latch_leaves(self) -> list[int]:
        return [latch.leaf for latch in self.latches]

    def taken(self) -> set[int]:
        """Returns the leaves that are inputs or latches."""
        return {*self.inputs, *self.latch_leaves()}

    def is_free_leaf(self, node: int) -> bool:
        return self.is_leaf(node) and node not in self.taken()

    def is_closed(self) -> bool:
        """Returns whether each leaf is an input or a latch."""
        taken = self.taken()
        return all(node in taken for node in range(1, len(self.nodes)) if self.is_leaf(node))

    def begins_with(self, other: Circuit) -> bool:
        """Returns whether the first nodes and the leaves of the latches are those of another."""
        begins = self.nodes[: len(other.nodes)] == other.nodes
        return begins and self.latch_leaves() == other.latch_leaves()

    def admits(self, node: int, left: int, right: int) -> bool:
        """Returns whether these may be a gate's operands in the place of its own."""
        is_gate = node < len(self.nodes) and self.nodes[node] is not None
        return is_gate and max(left, right) // 2 < node

    def set_gate(self, node: int, left: int, right: int) -> None:
        """Gives a gate other operands."""
        self.nodes[node] = gate_of(left, right)

    # ---- leaves

    def new_leaf(self) -> int:
        self.nodes.append(None)
        return len(self.nodes) - 1

    def new_input(self) -> int:
        self.inputs.append(self.new_leaf())
        return self.inputs[-1]

    def new_latch(self, next_edge: int, init: int | None) -> int:
        self.latches.append(Latch(self.new_leaf(), next_edge, init))
        return self.latches[-1].leaf

    # ---- connectives

    def trivial_and(self, left: int, right: int) -> int:
        """Adds a gate, whatever its operands are."""
        self.nodes.append(gate_of(left, right))
        return 2 * len(self.nodes) - 2

    def and_of(self, left: int, right: int) -> int:
        found = folded(left, right)
        return self.trivial_and(left, right) if found is None else found

    def trivial_or(self, left: int, right: int) -> int:
        return self.trivial_and(left ^ 1, right ^ 1) ^ 1

    def or_of(self, left: int, right: int) -> int:
        return self.and_of(left ^ 1, right ^ 1) ^ 1

    def imply(self, left: int, right: int) -> int:
        return self.or_of(left ^ 1, right)

    def equal(self, left: int, right: int) -> int:
        both = self.and_of(left, right)
        return self.or_of(both, self.and_of(left ^ 1, right ^ 1))

    def trivial_ands(self, edges: Sequence[int]) -> int:
        return functools.reduce(self.trivial_and, edges) if edges else TRUE

    def ands(self, edges: Sequence[int]) -> int:
        return functools.reduce(self.and_of, edges) if edges else TRUE

    def trivial_ors(self, edges: Sequence[int]) -> int:
        return self.trivial_ands([edge ^ 1 for edge in edges]) ^ 1

    def ors(self, edges: Sequence[int]) -> int:
        return self.ands([edge ^ 1 for edge in edges]) ^ 1

    # ---- lists

    def properties(self, name: str) -> list[int]:
        """Returns the list of edges of this name."""
        found: list[int] = getattr(self, name)
        return found

    def property_edges(self) -> list[int]:
        """Returns the edges of all properties."""
        sets = [edge for one in self.justice for edge in one]
        return [edge for name in PROPERTIES for edge in self.properties(name)] + sets

    def initial_edges(self) -> list[int]:
        return [latch.init for latch in self.latches if latch.init is not None]

    def set_next(self, place: int, edge: int) -> None:
        self.latches[place] = self.latches[place]._replace(next=edge)

    def set_init(self, place: int, edge: int | None) -> None:
        self.latches[place] = self.latches[place]._replace(init=edge)

    # ---- what is reached

    def reached(self, roots: Iterable[int], beyond: dict[int, int]) -> set[int]:
        """Returns the nodes to which a path leads from these, by operands, and from the keys of a
        map to their values."""
        found, waiting = set[int](), list(roots)
        while waiting:
            node = waiting.pop()
            if node in found:
                continue
            found.add(node)
            gate = self.nodes[node]
            waiting += [edge // 2 for edge in gate] if gate else []
            waiting += [beyond[node]] if node in beyond else []
        return found

    def logic_cone(self, edges: Iterable[int]) -> set[int]:
        """Returns the nodes that edges reach without a step across a latch."""
        return self.reached((edge // 2 for edge in edges), {})

    def influence(self, roots: Iterable[int]) -> set[int]:
        """Returns 0 and the nodes that these reach, also from a latch to its next edge."""
        nexts = {latch.leaf: latch.next // 2 for latch in self.latches}
        return self.reached([0, *roots], nexts)
