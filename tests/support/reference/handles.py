"""What handles hold, why a call on them is refused, and the sum of all that they hold."""
from __future__ import annotations

import array
import dataclasses
import zlib
from collections.abc import Iterable, Sequence

from reference.circuit import PROPERTIES, Circuit, Latch
from reference.simulation import Simulation
from reference.unrolling import Unrolling


class Refused(Exception):
    """The name of a call's status where that isn't DONE, and what is told all the same."""

    def __init__(self, status: str, *told: int) -> None:
        super().__init__(status)
        self.status, self.told = status, told


@dataclasses.dataclass
class Handle:
    """A handle, by its number, of a circuit or of none."""

    place: int
    held: Circuit | None = None

    def circuit(self) -> Circuit:
        if self.held is None:
            raise Refused("EMPTY")
        return self.held

    def words(self) -> list[int]:
        return circuit_words(self.held) if self.held else []


@dataclasses.dataclass
class Running:
    """A handle, by its number, of a simulation or of none."""

    place: int
    held: Simulation | None = None

    def simulation(self) -> Simulation:
        if self.held is None:
            raise Refused("EMPTY")
        return self.held

    def words(self) -> list[int]:
        held = self.held
        return [*counted(held.state), *counted(held.values)] if held else []


@dataclasses.dataclass
class Stepping:
    """A handle, by its number, of an unrolled circuit or of none."""

    place: int
    held: Unrolling | None = None

    def unrolling(self) -> Unrolling:
        if self.held is None:
            raise Refused("EMPTY")
        return self.held

    def words(self) -> list[int]:
        return unrolling_words(self.held) if self.held else []


# A handle of any kind.
AnyHandle = Handle | Running | Stepping


# ---- what is held, as numbers


def node_row(circuit: Circuit, node: int) -> tuple[int, int, int]:
    """Returns a node as the header has it: its kind and its operands."""
    gate = circuit.nodes[node]
    return (2, *gate) if gate else (int(node > 0), 0, 0)


def latch_row(latch: Latch) -> tuple[int, int, int, int]:
    """Returns a latch as the header has it."""
    return latch.leaf, latch.next, latch.init or 0, int(latch.init is not None)


def counted(items: Sequence[int]) -> list[int]:
    return [len(items), *items]


def circuit_words(circuit: Circuit) -> list[int]:
    found = [len(circuit.nodes)]
    for node in range(len(circuit.nodes)):
        found += node_row(circuit, node)
    found += [*counted(circuit.inputs), len(circuit.latches)]
    for latch in circuit.latches:
        found += latch_row(latch)
    for edges in map(circuit.properties, PROPERTIES):
        found += counted(edges)
    found.append(len(circuit.justice))
    for one in circuit.justice:
        found += counted(one)
    found.append(len(circuit.names))
    for node, name in sorted(circuit.names.items()):
        found += [node, *counted(name.encode())]
    return found


def clause_numbers(clauses: Iterable[Sequence[int]]) -> list[int]:
    """Returns clauses as the header has them: a 0 stands after each."""
    return [number for clause in clauses for number in (*clause, 0)]


def unrolling_words(unrolling: Unrolling) -> list[int]:
    found = counted(clause_numbers(unrolling.initial()))
    for step in unrolling.steps:
        found += [*counted(clause_numbers(step.clauses)), *counted(step.bads)]
        found += counted(step.inputs)
    return [number % 2**32 for number in found]


def words(handle: AnyHandle) -> bytes:
    """Returns the contents of a handle with its number, as the driver sums them up."""
    return array.array("I", [handle.place, *handle.words()]).tobytes()


class Handles:
    """The handles of a script."""

    COUNT = 3

    def __init__(self) -> None:
        self.all = list(map(Handle, range(self.COUNT)))
        self.simulations = list(map(Running, range(self.COUNT)))
        self.unrollings = list(map(Stepping, range(self.COUNT)))
        kinds: list[Sequence[AnyHandle]] = [self.all, self.simulations, self.unrollings]
        self.words = [words(handle) for kind in kinds for handle in kind]

    def held(self) -> list[Handle]:
        """Returns the handles that hold a circuit."""
        return [handle for handle in self.all if handle.held]

    def note(self, handle: AnyHandle) -> None:
        """Notes that a handle may hold something else."""
        kind = [Handle, Running, Stepping].index(type(handle))
        self.words[kind * self.COUNT + handle.place] = words(handle)

    def sum(self) -> int:
        return zlib.crc32(b"".join(self.words))
