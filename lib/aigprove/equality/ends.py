"""The two files at the end of a trace of their miter: the values that differ there."""
from collections.abc import Iterator

from aigprove.circuits import simulation
from aigprove.circuits.aiger import KINDS, Circuit
from aigprove.circuits.witness import Witness
from aigprove.output.signals import Signals

# The greatest number of differing outputs or constraints that are named.
NAMED = 100


class End:
    """One of the two files at the end of a trace of their miter.

    `place` is the position of its first latch in the miter."""

    def __init__(self, circuit: Circuit, place: int, trace: Witness) -> None:
        self.circuit, self.signals = circuit, Signals(circuit)
        start = trace.start[place:place + len(circuit.latches)]
        *_, self.literals = simulation.run(circuit, start, trace.steps)

    def values(self, letter: str) -> list[str]:
        """Returns the values of all signals of a kind."""
        return [self.literals[literal] for literal in getattr(self.circuit, KINDS[letter])]

    def outputs(self, places: set[int]) -> str:
        """Returns the printed values of the outputs at these positions."""
        return " ".join(self.signals.values("o", self.values("o"), places))


def unmet(*ends: End) -> Iterator[str]:
    """Yields a line for each file whose constraints don't hold at the end of a trace."""
    for which, end in zip(["first", "second"], ends):
        broken = [i for i, value in enumerate(end.values("c")) if value == "0"]
        if broken:
            names = ", ".join(end.signals.place("c", i) for i in broken[:NAMED])
            yield f"the {which} file doesn't meet {names}"
