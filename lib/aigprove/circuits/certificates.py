"""Writes certificates in the format of the hardware model checking competition: witness circuits.

Their first inputs and latches are those of the file, in order, with the same initial and next
values. Their property is inductive, and implies that of the file. aigcheck checks them."""
from collections.abc import Callable, Iterable, Iterator, Mapping

from aigprove.circuits.aiger import Circuit, symbols, text_form
from aigprove.circuits.gates import Gates, literals_of

# The beginning of a name that says for which literal of a file an input or latch stands.
STANDS = b"= "


class Frame:
    """An earlier state in a witness circuit: a latch that says whether it is valid, and copies of
    the latches and inputs."""

    def __init__(self, circuit: Circuit, first: int) -> None:
        self.kept, self.state = first, range(first + 2, first + 2 + 2 * len(circuit.latches), 2)
        self.inputs = range(self.state.stop, self.state.stop + 2 * len(circuit.inputs), 2)

    def leaves(self, circuit: Circuit) -> dict[int, int]:
        """Returns the literals of the copies, by those of the circuit's inputs and latches."""
        return dict([*zip(circuit.inputs, self.inputs), *zip(circuit.latches, self.state)])

    def literals(self) -> list[int]:
        """Returns the literals of its latches."""
        return [self.kept, *self.state, *self.inputs]


class WitnessCircuit:
    """The gates of a circuit, followed by those of a number of frames."""

    def __init__(self, circuit: Circuit, frames: int = 0) -> None:
        self.circuit, inputs, latches = circuit, len(circuit.inputs), len(circuit.latches)
        self.inputs = range(2, 2 * inputs + 2, 2)
        self.state = range(self.inputs.stop, self.inputs.stop + 2 * latches, 2)
        size = 2 * (1 + latches + inputs)
        self.frames = [Frame(circuit, self.state.stop + i * size) for i in range(frames)]
        self.gates = Gates(self.state.stop + frames * size)
        self.literal = self.literals(
            dict([*zip(circuit.inputs, self.inputs), *zip(circuit.latches, self.state)]))
        self.bads = list(map(self.literal, circuit.bads))

    def literals(self, leaves: Mapping[int, int]) -> Callable[[int], int]:
        """Returns a function from literals of the file to those over these inputs and latches."""
        return literals_of(self.circuit, self.gates, leaves)

    def equal(self, left: int, right: int) -> int:
        """Returns the literal that is true if and only if two literals are equal."""
        return self.gates.choice(left, right, right ^ 1)

    def implies(self, left: int, right: int) -> int:
        """Returns the literal of an implication."""
        return self.gates.both(left, right ^ 1) ^ 1

    def starts(self, state: Iterable[int]) -> int:
        """Returns the literal that is true in the initial states. `state` has the literals of the
        latches."""
        return self.gates.all(literal ^ (reset == 0)
                              for literal, reset in zip(state, self.circuit.resets) if reset < 2)

    def exclude(self, given: Circuit) -> None:
        """Makes the bad states of another circuit bad, which has the same inputs and latches."""
        leaves = dict([*zip(given.inputs, self.inputs), *zip(given.latches, self.state)])
        literal = literals_of(given, self.gates, leaves)
        self.bads += [*map(literal, given.bads), *(literal(it) ^ 1 for it in given.constraints)]

    def remember(self) -> None:
        """Makes the states bad whose frames aren't the last states of a trace without bad
        states."""
        before, state = 1, self.state
        for frame in self.frames:
            literal = self.literals(frame.leaves(self.circuit))
            moved = [self.equal(literal(next), now) for next, now in zip(self.circuit.nexts, state)]
            good = [*moved, *map(literal, self.circuit.constraints),
                    *(literal(bad) ^ 1 for bad in self.circuit.bads)]
            begins = self.implies(self.gates.both(before, frame.kept ^ 1), self.starts(state))
            right = [begins, self.implies(frame.kept, before),
                     self.implies(frame.kept, self.gates.all(good))]
            self.bads.append(self.gates.all(right) ^ 1)
            before, state = frame.kept, frame.state

    def rows(self) -> Iterator[tuple[int, int, int]]:
        """Yields the lines of the latches: those of the file, and those of each frame, which get
        the values of the frame before."""
        for latch, next, reset in zip(self.state, self.circuit.nexts, self.circuit.resets):
            yield latch, self.literal(next), reset if reset < 2 else latch
        before = [1, *self.state, *self.inputs]
        for frame in self.frames:
            yield from ((latch, next, 0) for latch, next in zip(frame.literals(), before))
            before = frame.literals()

    def text(self) -> bytes:
        """Returns its text, with the file's names. Names that would map its inputs and latches to
        others are left out."""
        rows, bad = list(self.rows()), self.gates.any(self.bads)
        constraints, gates = list(map(self.literal, self.circuit.constraints)), self.gates.rows
        counts = [self.gates.next // 2 - 1, len(self.inputs), len(rows), 0, len(gates), 1,
                  len(constraints)]
        kept = (it for it in self.circuit.names.items()
                if it[0][0] in "il" and not it[1].startswith(STANDS))
        return text_form(counts, [*self.inputs, *rows, bad, *constraints, *gates]) + symbols(kept)


def by_invariant(circuit: Circuit, given: Circuit) -> bytes:
    """Returns the certificate for an inductive circuit `given`, whose latches are those of
    `circuit`."""
    made = WitnessCircuit(circuit)
    made.exclude(given)
    return made.text()


def by_window(circuit: Circuit, k: int) -> bytes:
    """Returns the certificate for k-induction: it stores the last k states."""
    made = WitnessCircuit(circuit, k)
    made.remember()
    return made.text()
