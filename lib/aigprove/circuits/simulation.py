"""Simulates traces of a circuit in three-valued logic, and many trials of one trace at once.

aigcheck checks the results that are printed."""
from collections.abc import Iterable, Iterator, Mapping, Sequence

from aigprove.circuits.aiger import Circuit
from aigprove.circuits.witness import Witness

# The trials in which the value at a place is left out, as bits.
LeftOut = Mapping[tuple[int, int], int]
# The greatest number of gates, in all steps together, that are simulated in Python.
SIMULATED = 1 << 21


class Values:
    """The values of all literals in one step, in several trials at once.

    Each trial is a bit of `every`. For each literal, and for its inverse, there is an integer: its
    bits are the trials in which the literal is known to be true."""

    def __init__(self, circuit: Circuit, every: int = 1) -> None:
        rows = [*circuit.latches, *circuit.inputs, *(gate for gate, _, _ in circuit.gates)]
        self.places = {0: 0, **{literal: 2 * i for i, literal in enumerate(rows, 1)}}
        self.known = [0, every, *[0] * (2 * len(rows))]

    def place(self, literal: int) -> int:
        """Returns the index of a literal in `known`."""
        return self.places[literal & ~1] ^ literal & 1

    def true(self, literal: int) -> int:
        """Returns the trials in which a literal is known to be true."""
        return self.known[self.place(literal)]

    def __getitem__(self, literal: int) -> str:
        """Returns "0", "1" or "x", the value of a literal, if there is one trial."""
        place = self.place(literal)
        return "1" if self.known[place] else "0" if self.known[place ^ 1] else "x"


def sides(t: int, row: Sequence[str], left_out: LeftOut | None, every: int) -> Iterator[int]:
    """Yields for each value of a row the trials in which it is known to be 1, and those in which it
    is known to be 0.

    `t` is 0 for latches, and the step plus 1 for inputs."""
    for i, value in enumerate(row):
        own = every & ~left_out.get((t, i), 0) if left_out else every
        yield own if value == "1" else 0
        yield own if value == "0" else 0


def run(circuit: Circuit, start: Sequence[str], steps: Iterable[Sequence[str]],
        left_out: LeftOut | None = None, every: int = 1) -> Iterator[Values]:
    """Yields the values in each step. The object is reused for the next step.

    `start` has the initial values of latches, and `steps` those of inputs. In some trials a value
    is `left_out`, by its place: 0 and the position of a latch, or t + 1 and that of an input in
    step t."""
    values = Values(circuit, every)
    known, first = values.known, 2 + 2 * len(circuit.latches)
    gates = [tuple(map(values.place, row)) for row in circuit.gates]
    nexts = [values.place(literal) ^ side for literal in circuit.nexts for side in (0, 1)]
    known[2:first] = sides(0, start, left_out, every)
    for t, given in enumerate(steps, 1):
        if t > 1:
            known[2:first] = [known[place] for place in nexts]
        known[first:first + 2 * len(circuit.inputs)] = sides(t, given, left_out, every)
        for gate, left, right in gates:
            known[gate] = known[left] & known[right]
            known[gate + 1] = known[left ^ 1] | known[right ^ 1]
        yield values


def trials(circuit: Circuit, trace: Witness,
           bads: Iterable[int], left_out: LeftOut, every: int) -> int:
    """Returns the trials in which a trace meets all constraints, and all these bad states are
    reached at its end."""
    shown = every
    for values in run(circuit, trace.start, trace.steps, left_out, every):
        for literal in circuit.constraints:
            shown &= values.true(literal)
    for bad in bads:
        shown &= values.true(circuit.bads[bad])
    return shown


def reached(circuit: Circuit, start: str, steps: Sequence[str]) -> Witness | None:
    """Returns the witness of the first bad state that a trace reaches, or None."""
    for t, values in enumerate(run(circuit, start, steps)):
        for position, literal in enumerate(circuit.bads):
            if values[literal] == "1":
                return Witness(position, start, list(steps[:t + 1]))
    return None
