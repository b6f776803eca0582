"""Merges the nodes of each class, and finds pairs that follow from other pairs. Nothing here is
trusted."""
from collections.abc import Sequence

from aigprove.circuits.gates import Gates
from aigprove.equality.nodes import Classes, Nodes

# Two nodes that structural hashing doesn't merge, and their literals after merging all others.
Unmerged = tuple[tuple[int, int], tuple[int, int]]


def read_by(classes: Classes) -> dict[int, tuple[int, ...]]:
    """Returns what has to precede each node in the order: the operands of a gate, and before a
    latch the first gate of its class."""
    nodes = classes.nodes
    read: dict[int, tuple[int, ...]] = {
        gate: (left & ~1, right & ~1) for gate, left, right in nodes.gates.rows}
    for own in classes.rows:
        gate = next((it & ~1 for it in own if it >= nodes.latches.stop), None)
        if gate is not None:
            read.update((it & ~1, (gate,))
                        for it in own if nodes.latches.start <= it < nodes.latches.stop)
    return read


def ordered(classes: Classes) -> list[int]:
    """Returns all nodes in an order in which each comes after the nodes that it reads, except for
    cycles through a latch and a gate of its class."""
    read, order, done, first = read_by(classes), [], {0}, classes.nodes.latches.stop
    for root in classes.nodes.all():
        path, opened = [root], set()
        while path:
            it = path[-1]
            before = None if it in done else next(
                (below for below in read.get(it, ()) if below not in done), None)
            if before in opened:
                # There is a cycle: the last latch comes before the gate of its class, and the nodes
                # behind that latch are visited again.
                before = None
                while (it := path[-1]) >= first:
                    opened.discard(path.pop())
            if before is None:
                order += [it] if it not in done else []
                done.add(it)
                opened.discard(path.pop())
            else:
                opened.add(it)
                path.append(before)
    return order


class MergedNodes:
    """All nodes in an order, each with the literal of the first node of its class, if it isn't that
    node itself."""

    def __init__(self, classes: Classes, order: Sequence[int]) -> None:
        self.nodes, self.rows, first = classes.nodes, [], classes.nodes.latches.stop
        own = {it >> 1: (number, it & 1) for number, row in enumerate(classes.rows) for it in row}
        standing = {own[0][0]: own[0][1]} if 0 in own else {}
        for it in order:
            below = self.nodes.gates.rows[(it - first) >> 1][1:] if it >= first else None
            number, side = own.get(it >> 1, (None, 0))
            same = it if number is None else standing.setdefault(number, it ^ side) ^ side
            self.rows.append((it, below, None if same == it else same))

    def literals(self, leaves: Sequence[int],
                 gates: Gates, merged: dict[int, int]) -> tuple[list[int], list[Unmerged]]:
        """Returns the literals of all nodes after merging, and the pairs that structural hashing
        doesn't merge.

        `leaves` are the literals of inputs and latches, `gates` the gates to which new ones are
        added, and `merged` the literals that others stand for, which is extended."""
        known, apart = [0, 1] + [0] * (self.nodes.all().stop - 2), []
        for it, below, same in self.rows:
            value = gates.both(known[below[0]], known[below[1]]) if below else leaves[(it >> 1) - 1]
            value = merged.get(value & ~1, value & ~1) ^ value & 1
            if same is not None and known[same] != value:
                apart.append(((same, it), (known[same], value)))
                if known[same] ^ value > 1 and value > 1:
                    merged[value & ~1] = known[same] ^ value & 1
                value = known[same]
            known[it], known[it + 1] = value, value ^ 1
        return known, apart

    def leaves(self, values: Sequence[int], every: int) -> list[int]:
        """Returns values of inputs and latches for which members of a class are equal, as far as
        latches can have the values of others."""
        known = [0, every] + [0] * (self.nodes.all().stop - 2)
        for it, below, same in self.rows:
            value = (known[same] if same is not None else known[below[0]] & known[below[1]]
                     if below else values[(it >> 1) - 1])
            known[it], known[it + 1] = value, value ^ every
        return [known[it] for it in self.nodes.leaves()]


class Pairs:
    """Pairs of nodes in a circuit where the two nodes of each pair are equal. The first of each
    pair stands for the other."""

    def __init__(self, nodes: Nodes, pairs: Sequence[tuple[int, int]]) -> None:
        self.nodes, self.pairs = nodes, pairs
        self.standing = {right & ~1: left ^ right & 1 for left, right in pairs if left < right}
        self.inputs = range(nodes.latches.stop, nodes.latches.stop + 2 * len(nodes.inputs), 2)
        self.gates = Gates(self.inputs.stop)
        self.implied: dict[int, int] = {}

    def unite(self) -> list[int]:
        """Returns the literals of all nodes after merging. Records the gates that are equal to the
        first of their pair by structural hashing."""
        known, gates = [0, 1], self.gates
        for leaf in self.nodes.leaves():
            value = known[self.standing[leaf]] if leaf in self.standing else leaf
            known += value, value ^ 1
        for gate, left, right in self.nodes.gates.rows:
            value, same = gates.both(known[left], known[right]), self.standing.get(gate)
            if same is not None:
                if value == known[same]:
                    self.implied[gate] = same
                gates.take(known[left], known[right], known[same])
                value = known[same]
            known += value, value ^ 1
        return known

    def unequal_next(self) -> set[int]:
        """Returns those of these gates that aren't equal in the next step by structural hashing,
        unless pairs are assumed equal there as well."""
        now = self.unite()
        later = self.nodes.literals([*self.inputs, *self.nodes.following(now)], self.gates)
        return {gate for gate, same in self.implied.items() if later[gate] != later[same]}

    def read(self, gate: int) -> set[int]:
        """Returns the nodes that a gate reads."""
        rows, first = self.nodes.gates.rows, self.nodes.latches.stop
        return {literal & ~1
                for literal in rows[(gate - first) >> 1][1:]} if gate >= first else set()

    def needed(self) -> list[tuple[int, int]]:
        """Returns the pairs that a certificate needs.

        A pair of gates may be left out if unit propagation finds it equal in the next step: if its
        operands are equal, and aren't themselves left out for that reason."""
        apart, left_out = self.unequal_next(), set[int]()
        for gate in filter(apart.__contains__, self.implied):
            if left_out.isdisjoint(self.read(gate) | self.read(self.implied[gate] & ~1)):
                left_out.add(gate)
        stay = apart - left_out
        return [(left, right) for left, right in self.pairs
                if right & ~1 in stay or self.implied.get(right & ~1) != left ^ right & 1]
