"""Machines as files in AIGER form have them, read by aigprove's reader, written and run: what tests
know of the form without the library.

Literals are those of the text form. A latch is its own literal, the next one and perhaps its reset,
which is its own literal where the latch begins with either value.
"""
from __future__ import annotations

import dataclasses
import functools
import itertools
from collections.abc import Iterator, Sequence
from typing import Any

# Which finds the package of aigprove.
import harness  # noqa: F401

from aigprove.circuits.aiger import Circuit, Lines, differences

# The and of two inputs, in both forms.
AND = b"aag 3 2 0 1 1\n2\n4\n6\n6 4 2\n"
BINARY_AND = b"aig 3 2 0 1 1\n6\n\x02\x02"


def empty() -> Any:
    """A section that is empty where nothing is said."""
    return dataclasses.field(default_factory=list)


@dataclasses.dataclass
class Machine:
    """The sections of a file, gates above their operands, sets of justice as lists, and names by
    their places, as i0 and l0."""

    inputs: list[int]
    latches: list[Any] = empty()
    outputs: list[int] = empty()
    bads: list[int] = empty()
    constraints: list[int] = empty()
    justice: list[list[int]] = empty()
    fairness: list[int] = empty()
    gates: list[Any] = empty()
    names: dict[str, str] = dataclasses.field(default_factory=dict)

    def header(self, form: str, most: int | None = None, all_counts: bool = False) -> str:
        """The header line: with this greatest variable, and with all counts or up to the last that
        has to be there."""
        least = len(self.inputs) + len(self.latches) + len(self.gates)
        counts = [
            least if most is None else most,
            *map(len, [self.inputs, self.latches, self.outputs, self.gates]),
        ]
        further = [
            len(self.bads), len(self.constraints), len(self.justice), len(self.fairness)
        ]
        while further and further[-1] == 0 and not all_counts:
            further.pop()
        return " ".join([form, *map(str, counts + further)])

    def properties(self) -> list[int]:
        """The lines from the first output to the last fairness literal."""
        sizes = [len(one) for one in self.justice]
        return [
            *self.outputs, *self.bads, *self.constraints, *sizes, *itertools.chain(*self.justice),
            *self.fairness,
        ]

    def name_lines(self) -> list[str]:
        return [f"{place} {name}" for place, name in self.names.items()]

    def text(self, **header: Any) -> str:
        rows = [" ".join(map(str, row)) for row in self.latches], [
            " ".join(map(str, row)) for row in self.gates
        ]
        return joined(
            [
                self.header("aag", **header), *self.inputs, *rows[0], *self.properties(), *rows[1],
                *self.name_lines(),
            ]
        )

    def binary(self, **header: Any) -> bytes:
        """The binary file, of a machine whose inputs, latches and gates have the literals 2, 4, ..
        in this order."""
        states = [" ".join(map(str, row[1:])) for row in self.latches]
        head = joined([self.header("aig", **header), *states, *self.properties()]).encode()
        gates = (differences([gate - left, left - right]) for gate, left, right in self.gates)
        return head + b"".join(gates) + joined(self.name_lines()).encode()

    def values(
        self, state: Sequence[bool] | tuple[bool, ...], inputs: Sequence[bool] | tuple[bool, ...]
    ) -> dict[int, bool]:
        """The values of all literals in a step."""
        values = {0: False, 1: True}
        leaves = [*self.inputs, *(latch[0] for latch in self.latches)]
        for literal, bit in zip(leaves, [*inputs, *state], strict=True):
            values[literal], values[literal + 1] = bit, not bit
        for gate, left, right in self.gates:
            values[gate] = values[left] and values[right]
            values[gate + 1] = not values[gate]
        return values

    def is_allowed(self, values: dict[int, bool]) -> bool:
        """Whether the constraints hold in a step."""
        return all(values[literal] for literal in self.constraints)

    def following(self, values: dict[int, bool]) -> tuple[bool, ...]:
        """The state after a step."""
        return tuple(values[latch[1]] for latch in self.latches)

    def starts(self) -> set[tuple[bool, ...]]:
        """All first states."""
        resets = [latch[2] if len(latch) > 2 else 0 for latch in self.latches]
        return set(
            itertools.product(*([bool(reset)] if reset < 2 else [False, True] for reset in resets))
        )

    def is_bad(self, values: dict[int, bool]) -> bool:
        return any(values[literal] for literal in self.bads)

    def steps(self, state: tuple[bool, ...]) -> Iterator[tuple[tuple[bool, ...], dict[int, bool]]]:
        """The inputs and the values of each step from a state that meets the constraints."""
        for inputs in itertools.product([False, True], repeat=len(self.inputs)):
            values = self.values(state, inputs)
            if self.is_allowed(values):
                yield inputs, values

    def first_bad(self) -> int | None:
        """The first step at which a bad state is reached, if ever."""
        states, seen = self.starts(), set()
        for k in itertools.count():
            steps = [values for state in states for _, values in self.steps(state)]
            if any(map(self.is_bad, steps)):
                return k
            seen |= states
            states = set(map(self.following, steps)) - seen
            if not states:
                break
        return None

    def first_unmet(self) -> int | None:
        """The first step from which on no run meets the constraints, if there is one."""
        states, seen = self.starts(), set()
        for k in itertools.count():
            seen.add(frozenset(states))
            steps = [values for state in states for _, values in self.steps(state)]
            if not steps:
                return k
            states = set(map(self.following, steps))
            if states in seen:
                break
        return None

    def is_inductive(self) -> Any:
        """Whether no first state is bad, and no step leads from one that isn't bad to one that
        is."""
        states = itertools.product([False, True], repeat=len(self.latches))
        steps = {state: [values for _, values in self.steps(state)] for state in states}
        bad = {state for state, each in steps.items() if any(map(self.is_bad, each))}
        good = (values for each in steps.values() for values in each if not self.is_bad(values))
        return not bad & self.starts() and all(self.following(values) not in bad for values in good)

    def is_shown(self, witness: Any) -> Any:
        """Whether a witness shows its bad state, by simulation."""
        state = tuple(bit == "1" for bit in witness.start)
        if state not in self.starts():
            return False
        for bits in witness.steps:
            values = self.values(state, [bit == "1" for bit in bits])
            if not self.is_allowed(values):
                return False
            state = self.following(values)
        return values[self.bads[witness.bad]]


def starting(
    first: Machine, other: Machine, partners: tuple[Any, ...] = ()
) -> set[tuple[tuple[bool, ...], tuple[bool, ...]]]:
    """The pairs of first states of two machines, in which registers at these pairs of places are
    alike."""
    pairs = itertools.product(first.starts(), other.starts())
    return {
        (state, beside)
        for state, beside in pairs
        if all(state[i] == beside[j] for i, j in partners)
    }


def step(
    first: Machine,
    other: Machine,
    pairs: set[tuple[tuple[bool, ...], tuple[bool, ...]]],
    setting: str,
) -> tuple[bool, set[tuple[tuple[Any, ...], tuple[Any, ...]]]]:
    """Whether two machines differ in a step from these states, and the next states. By the setting
    both meet their constraints, or the first does, or it is compared whether both do, and all else
    where they do."""
    compared, found, after = (
        list(zip([*first.outputs, *first.bads], [*other.outputs, *other.bads], strict=True)),
        [],
        set(),
    )
    for (state, beside), inputs in itertools.product(
        pairs, itertools.product([False, True], repeat=len(first.inputs))
    ):
        ours, theirs = first.values(state, inputs), other.values(beside, inputs)
        is_met = first.is_allowed(ours), setting == "first" or other.is_allowed(theirs)
        if all(is_met):
            found += [ours[one] != theirs[two] for one, two in compared]
            after.add((first.following(ours), other.following(theirs)))
        found.append(setting == "compared" and is_met[0] != is_met[1])
    return any(found), after


class Gates(list[tuple[int, int, int]]):
    """Gates over so many leaves, whose literals are 2, 4 and so on, in the order in which they are
    made."""

    def __init__(self, leaves: int) -> None:
        super().__init__()
        self.first = 2 * (leaves + 1)

    def end(self) -> int:
        """The literal of the next gate."""
        return self.first + 2 * len(self)

    def both(self, left: int, right: int) -> int:
        self.append((self.end(), max(left, right), min(left, right)))
        return self[-1][0]

    def all(self, literals: list[int]) -> int:
        """A literal that is true where all of these are."""
        return functools.reduce(self.both, literals) if literals else 1


def joined(lines: Sequence[str | int]) -> str:
    return "".join(f"{line}\n" for line in lines)


def machine_of(text: str) -> Machine:
    """The machine of a text file, whose last line may lack its end, without its names; each latch
    has a reset."""
    it = Circuit(Lines(text.removesuffix("\n").encode() + b"\n", "FILE"))
    latches = [list(row) for row in zip(it.latches, it.nexts, it.resets)]
    return Machine(
        list(it.inputs), latches, it.outputs, it.bads, it.constraints, it.justice, it.fairness,
        it.gates,
    )
