"""The nodes of a circuit, their values in many simulations at once, and classes of nodes that may
always be equal.

Each bit of a value, which is an integer, belongs to one simulation ("run"). Nothing here is
trusted."""
from __future__ import annotations

import collections
import copy
import functools
import itertools
import operator
import random
from collections.abc import Iterable, Mapping, Sequence

from aigprove.circuits.aiger import Circuit
from aigprove.circuits.gates import Gates, literals_of

# The values of all literals, indexed by literal.
Known = Sequence[int]
# The least and the greatest number of runs at once, and the greatest number of bits of all values.
FEWEST, MOST, BITS = 64, 4096, 1 << 28
# If there are more inputs and latches than this, single bits are inverted.
MANY = 400
# The numbers of steps from initial states, from random states, and from states that a solver finds;
# and how many steps in a row that split no class are the last.
BEGUN, DRAWN, FOUND, IDLE = 16, 4, 8, 3


class Nodes:
    """A circuit in which the literals of the constant, inputs, latches and gates have this order,
    with each gate once.

    `equal_starts` has the latches whose initial values are those of other latches, by positions."""

    def __init__(self, circuit: Circuit, equal_starts: Mapping[int, int] | None = None) -> None:
        self.equal_starts = equal_starts or {}
        self.inputs = range(2, 2 * len(circuit.inputs) + 2, 2)
        self.latches = range(self.inputs.stop, self.inputs.stop + 2 * len(circuit.latches), 2)
        self.gates, self.resets = Gates(self.latches.stop), circuit.resets
        leaves = dict(zip([*circuit.inputs, *circuit.latches], [*self.inputs, *self.latches]))
        literal = literals_of(circuit, self.gates, leaves)
        lists = [circuit.nexts, circuit.bads, circuit.constraints]
        self.nexts, self.bads, self.constraints = (list(map(literal, literals))
                                                   for literals in lists)

    def all(self) -> range:
        """Returns the literals of all nodes."""
        return range(0, self.gates.next, 2)

    def leaves(self) -> list[int]:
        """Returns the literals of the inputs and latches."""
        return [*self.inputs, *self.latches]

    def first(self, values: Iterable[int], every: int) -> list[int]:
        """Returns the initial values of the latches.

        `values` are those of uninitialised latches, and `every` has a bit for each run; if it is 1,
        the values may be literals."""
        state = [every * reset if reset < 2 else value for reset, value in zip(self.resets, values)]
        for place, partner in self.equal_starts.items():
            state[place] = state[partner]
        return state

    def values(self, leaves: Sequence[int], every: int) -> list[int]:
        """Returns the values of all literals, given those of inputs and latches. `every` has a bit
        for each run."""
        known = sides(leaves, every)
        for _, left, right in self.gates.rows:
            value = known[left] & known[right]
            known += value, value ^ every
        return known

    def literals(self, leaves: Sequence[int], gates: Gates) -> list[int]:
        """Returns the literals of all nodes in other `gates`, given those of inputs and latches."""
        known = sides(leaves, 1) + [0] * (self.gates.next - self.latches.stop)
        for gate, left, right in self.gates.rows:
            known[gate] = gates.both(known[left], known[right])
            known[gate + 1] = known[gate] ^ 1
        return known

    def next(self, literal: int) -> int:
        """Returns the literal of a latch's next value, or the constant itself."""
        if literal < 2:
            return literal
        return self.nexts[(literal - self.latches.start) // 2] ^ literal & 1

    def following(self, known: Known) -> list[int]:
        """Returns the next values of the latches."""
        return [known[literal] for literal in self.nexts]

    def allowing(self, known: Known) -> list[int]:
        """Returns the values of the constraints."""
        return [known[literal] for literal in self.constraints]

    def allowed(self, known: Known, runs: int) -> int:
        """Returns those of the given runs that meet the constraints."""
        for literal in self.constraints:
            runs &= known[literal]
        return runs

    def merged(self, leaves: Sequence[int]) -> tuple[Nodes, list[int]]:
        """Returns the nodes after replacing inputs and latches by the literals `leaves`, and the
        new literals of all old ones."""
        gates = Gates(self.latches.stop)
        known = self.literals(leaves, gates)
        return self.with_gates(gates, known), known

    def with_gates(self, gates: Gates, known: Known) -> Nodes:
        """Returns the nodes over other gates. `known` has the new literal of each old one."""
        made, lists = copy.copy(self), [self.nexts, self.bads, self.constraints]
        made.gates = gates
        made.nexts, made.bads, made.constraints = ([known[literal] for literal in literals]
                                                   for literals in lists)
        return made

    def cone(self, literals: Iterable[int]) -> set[int]:
        """Returns the nodes that literals depend on in the same step, by their literals."""
        seen = {literal & ~1 for literal in literals}
        for gate, left, right in reversed(self.gates.rows):
            if gate in seen:
                seen |= {left & ~1, right & ~1}
        return seen

    def without(self, kept: set[int]) -> tuple[Nodes, list[int]]:
        """Returns the nodes with only the gates in `kept`, and the new literals of all old ones.
        Operands of these gates have to be among them."""
        first, gates = self.latches.stop, Gates(self.latches.stop)
        known = [*range(first), *[0] * (self.gates.next - first)]
        for gate, left, right in self.gates.rows:
            if gate in kept:
                known[gate] = gates.add(known[left], known[right])
                known[gate + 1] = known[gate] ^ 1
        return self.with_gates(gates, known), known

    def look_ahead(self, steps: int) -> None:
        """Adds the values of nodes in a number of further steps, as far as they don't depend on
        inputs of these steps."""
        nexts, seen = zip([0, *self.latches], [0, *self.nexts]), 0
        later = {literal ^ side: next ^ side for literal, next in nexts for side in (0, 1)}
        for _ in range(steps):
            rows, seen = self.gates.rows[seen:], len(self.gates.rows)
            for gate, left, right in rows:
                if left in later and right in later:
                    later[gate] = self.gates.both(later[left], later[right])
                    later[gate + 1] = later[gate] ^ 1


def sides(values: Iterable[int], every: int) -> list[int]:
    """Returns the values of both constants, followed by each value and its inverse."""
    known = [0, every]
    for value in values:
        known += value, value ^ every
    return known


def parts_of(own: Sequence[int], values: Sequence[int]) -> list[list[int]]:
    """Returns the groups of members with equal values that have more than one."""
    parts = collections.defaultdict(list)
    for literal, value in zip(own, values):
        parts[value].append(literal)
    return [part for part in parts.values() if len(part) > 1]


class Different(Exception):
    """A bad state was found in which the members of each class are equal, or one that follows such
    a state."""


class Classes:
    """Classes of literals that may be equal. The first of a class represents it. A literal and its
    inverse are never both in classes.

    `every` has a bit for each run."""

    def __init__(self, nodes: Nodes, rng: random.Random, every: int | None = None) -> None:
        self.nodes, self.rng = nodes, rng
        self.rows: list[list[int]] = []
        self.listed: list[list[int]] | None = None
        runs = max(FEWEST, min(MOST, BITS // nodes.all().stop))
        self.every = every or (1 << (1 << runs.bit_length() - 1)) - 1

    def drawn(self, literals: Sequence[int]) -> list[int]:
        """Returns a random value for each literal."""
        return [self.rng.getrandbits(self.every.bit_length()) for _ in literals]

    def size(self) -> int:
        """Returns the number of members that aren't the first of their class."""
        return sum(map(len, self.rows)) - len(self.rows)

    def pairs(self) -> list[tuple[int, int]]:
        """Returns pairs of the first of a class and another member, sorted by the latter."""
        return sorted(((own[0], other) for own in self.rows for other in own[1:]),
                      key=lambda pair: pair[1] >> 1)

    def members(self, known: Known) -> tuple[Iterable[int], Iterable[int], Sequence[int]]:
        """Returns the values of the first of its class for each other member, the values of these,
        and the indices of their classes."""
        if self.listed is not self.rows:
            self.listed = self.rows
            pairs = [(own[0], it, number) for number, own in enumerate(self.rows) for it in own[1:]]
            self.firsts, self.others, self.numbers = zip(*pairs) if pairs else ((), (), ())
        return map(known.__getitem__,
                   self.firsts), map(known.__getitem__, self.others), self.numbers

    def equal(self, known: Known) -> int:
        """Returns the runs in which the members of each class are equal."""
        firsts, others, _ = self.members(known)
        return self.every ^ functools.reduce(operator.or_, map(operator.xor, firsts, others), 0)

    def split(self, known: Known, runs: int) -> None:
        """Splits the classes whose members differ in one of these runs."""
        firsts, others, numbers = self.members(known)
        differing = map(operator.and_, map(operator.xor, firsts, others), itertools.repeat(runs))
        if hit := set(itertools.compress(numbers, differing)):
            rows = [[own] if number not in hit else parts_of(own, [known[it] & runs for it in own])
                    for number, own in enumerate(self.rows)]
            self.rows = list(itertools.chain.from_iterable(rows))

    def gather(self, literals: Iterable[int], leaves: Sequence[int]) -> None:
        """Puts literals into classes by the values of inputs and latches.

        The first literal is 0. Literals that are 1 in the first run are inverted."""
        known = self.nodes.values(leaves, self.every)
        self.rows = [[literal ^ known[literal] & 1 for literal in literals]]
        self.split(known, self.nodes.allowed(known, self.every))

    def begin(self, literals: Iterable[int]) -> Classes:
        """Puts literals into classes by random runs from initial states, and returns the
        classes."""
        state = self.nodes.first(self.drawn(self.nodes.latches), self.every)
        leaves = [*self.drawn(self.nodes.inputs), *state]
        self.gather(literals, leaves)
        self.follow(leaves, self.every, BEGUN)
        return self

    def of_first(self, stop: int) -> Classes:
        """Returns the classes that have a literal before `stop`, over the nodes that these depend
        on."""
        rows, nodes = [own for own in self.rows if own[0] < stop], self.nodes
        read = itertools.chain(nodes.nexts, nodes.bads, nodes.constraints, *rows)
        nodes, known = nodes.without(nodes.cone(read))
        made = Classes(nodes, self.rng, self.every)
        made.rows = [[known[it] for it in own] for own in rows]
        return made

    def check(self, known: Known, runs: int) -> int:
        """Returns those of the given runs that meet the constraints. Raises Different if one of
        them is bad."""
        runs = self.nodes.allowed(known, runs)
        if any(known[bad] & runs for bad in self.nodes.bads):
            raise Different
        return runs

    def follow(self, leaves: Sequence[int], runs: int, steps: int = FOUND) -> None:
        """Splits classes by simulating a number of steps from these inputs and latches.

        In the given runs, members of classes are equal before these steps. Stops early after
        several steps that split no class. Raises Different if a bad state is reached."""
        idle = 0
        for _ in range(steps):
            known, size = self.nodes.values(leaves, self.every), self.size()
            runs = self.check(known, runs)
            self.split(known, runs)
            idle = idle + 1 if self.size() == size else 0
            if idle == IDLE:
                break
            leaves = [*self.drawn(self.nodes.inputs), *self.nodes.following(known)]

    def settle(self) -> None:
        """Splits classes of latches by steps from random states, until no class is split."""
        size = None
        while size != self.size():
            size = self.size()
            self.follow(self.merged(self.drawn(self.nodes.leaves()), self.every), self.every, DRAWN)

    def merged(self, leaves: Sequence[int], every: int) -> list[int]:
        """Returns the values of inputs and latches in which members of a class have the value of
        its first, unless that is a gate."""
        made = [0, *leaves]
        for first, *others in self.rows:
            if first < self.nodes.latches.stop:
                value = made[first >> 1] ^ every * (first & 1)
                for literal in others:
                    if literal < self.nodes.latches.stop:
                        made[literal >> 1] = value ^ every * (literal & 1)
        return made[1:]

    def spread(self, values: Iterable[int], runs: int) -> list[int]:
        """Returns values in which some of these runs are repeated in all bits."""
        places = [place for place in range(self.every.bit_length()) if runs >> place & 1]
        count = 1 << min(len(places), FEWEST).bit_length() - 1
        times = self.every // ((1 << count) - 1)
        return [times * sum((value >> place & 1) << i for i, place in enumerate(places[:count]))
                for value in values]

    def step(self, state: Sequence[int], runs: int) -> None:
        """Splits classes of latches by these values."""
        self.split(sides([*[0] * len(self.nodes.inputs), *state], self.every), runs)

    def beside(self, row: Sequence[int]) -> list[int]:
        """Returns bits as the first run, and in each other run the same bits with a few of them
        inverted."""
        made, count = [self.every * bit for bit in row], self.every.bit_length()
        if len(row) > MANY:
            for run in range(1, count):
                for _ in range(1 + run % 3):
                    made[self.rng.randrange(len(row))] ^= 1 << run
            return made
        for place in range(len(row)):
            inverted = self.every - 1
            for _ in range(len(row).bit_length() - 2):
                inverted &= self.rng.getrandbits(count)
            made[place] ^= inverted
        return made
