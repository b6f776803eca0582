"""Gates with structural hashing, and the nodes on which literals depend."""
from __future__ import annotations

from collections.abc import Callable, Iterable, Mapping, Sequence
from typing import TYPE_CHECKING

if TYPE_CHECKING:
    from aigprove.circuits.aiger import Circuit

# A gate: its literal and those of its operands.
Gate = tuple[int, int, int]


class Gates:
    """Gates with structural hashing: each pair of operands has at most one gate. `first` is the
    literal of the first gate."""

    def __init__(self, first: int) -> None:
        self.next = first
        self.rows: list[Gate] = []
        self.made: dict[tuple[int, int], int] = {}

    def both(self, left: int, right: int) -> int:
        """Returns the literal of the and of two literals."""
        if left < right:
            left, right = right, left
        if right == 0 or left == right ^ 1:
            return 0
        if right == 1 or left == right:
            return left
        made = self.made.get((left, right))
        return self.add(left, right) if made is None else made

    def add(self, left: int, right: int) -> int:
        """Adds a gate, whose larger operand is the first, and returns its literal."""
        made = self.made[left, right] = self.next
        self.rows.append((made, left, right))
        self.next += 2
        return made

    def take(self, left: int, right: int, literal: int) -> None:
        """Has another literal returned for the and of two literals from now on."""
        self.made[max(left, right), min(left, right)] = literal

    def any(self, literals: Iterable[int]) -> int:
        """Returns the literal of the or of several literals, as a balanced tree."""
        return self.all([literal ^ 1 for literal in literals]) ^ 1

    def all(self, literals: Iterable[int]) -> int:
        """Returns the literal of the and of several literals, as a balanced tree."""
        literals = list(literals) or [1]
        while len(literals) > 1:
            pairs = [self.both(left, right) for left, right in zip(literals[::2], literals[1::2])]
            literals = pairs + literals[2 * len(pairs):]
        return literals[0]

    def choice(self, condition: int, left: int, right: int) -> int:
        """Returns the literal of an if-then-else."""
        return self.both(self.both(condition, left) ^ 1, self.both(condition ^ 1, right) ^ 1) ^ 1


def cone(literals: Iterable[int], below: Mapping[int, Sequence[int]]) -> set[int]:
    """Returns the nodes on which literals depend, by their literals. `below` has the literals that
    each node reads."""
    left, seen = [literal & ~1 for literal in literals], set[int]()
    while left:
        if (it := left.pop()) not in seen:
            seen.add(it)
            left += [literal & ~1 for literal in below.get(it, ())]
    return seen


def literals_of(circuit: Circuit, gates: Gates, leaves: Mapping[int, int]) -> Callable[[int], int]:
    """Returns a function from the literals of a circuit to literals over other `gates`.

    `leaves` has the literals of the circuit's inputs and latches there."""
    known = {0: 0, **leaves}

    def literal(of: int) -> int:
        return known[of & ~1] ^ (of & 1)

    for gate, left, right in circuit.gates:
        known[gate] = gates.both(literal(left), literal(right))
    return literal
