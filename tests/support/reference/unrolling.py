"""Circuits that are unrolled step by step, and which proofs about them are taken."""
from __future__ import annotations

import copy
import dataclasses
from collections.abc import Callable, Iterable, Sequence
from typing import Any, NamedTuple

from proof_checker import Formula, is_taken
from reference import transforms
from reference.circuit import Circuit
from reference.clauses import both, dimacs

Clauses = list[tuple[int, ...]]
# What reads clauses, and what says whether they are refuted.
FORMULA: Callable[[str], Any] = Formula
IS_TAKEN: Callable[[Any, bytes], bool] = is_taken


class Step(NamedTuple):
    """What a step has: its clauses, its bad edges and the inputs that it adds."""

    clauses: Clauses
    bads: list[int]
    inputs: list[int]


def numbered(found: Iterable[Sequence[int]]) -> Clauses:
    """Returns clauses of literals as DIMACS numbers."""
    return [tuple(map(dimacs, clause)) for clause in found]


def node_clauses(circuit: Circuit, node: int) -> Sequence[Sequence[int]]:
    """Returns the clauses of a node, by literals."""
    gate = circuit.nodes[node]
    if node == 0:
        return [[1]]
    return both(node, gate).clauses if gate else []


@dataclasses.dataclass
class Unrolling:
    """A circuit of its own, the circuit with further steps, and what each step has."""

    circuit: Circuit
    unrolled: Circuit = dataclasses.field(default_factory=Circuit)
    steps: list[Step] = dataclasses.field(default_factory=list)

    def __post_init__(self) -> None:
        self.unrolled = self.circuit.copy()
        self.steps.append(self._step(Circuit([])))

    def copy(self) -> Unrolling:
        """Returns an unrolling that shares nothing with this one."""
        return copy.deepcopy(self)

    def _step(self, old: Circuit) -> Step:
        """Returns what the circuit has with its last step, and not without it."""
        new = self.unrolled
        nodes = range(len(old.nodes), len(new.nodes))
        found = [clause for node in nodes for clause in node_clauses(new, node)]
        found += [[edge] for edge in new.constraints[len(old.constraints):]]
        # At step 0 the inputs are the circuit's.
        inputs = new.inputs[len(old.inputs):] if old.nodes else []
        return Step(numbered(found), new.bads[len(old.bads):], inputs)

    def add_step(self) -> None:
        old = self.unrolled.copy()
        transforms.unroll(self.unrolled, self.circuit)
        self.steps.append(self._step(old))

    def initial(self) -> Clauses:
        """Returns the clauses of initial values."""
        found: list[list[int]] = []
        for leaf, _, init in self.circuit.latches:
            if init in (0, 1):
                found.append([2 * leaf + 1 - init])
            elif init is not None:
                found += [[2 * leaf + 1, init], [2 * leaf, init ^ 1]]
        return numbered(found)

    def _first(self, count: int) -> Clauses:
        return [clause for step in self.steps[:count] for clause in step.clauses]

    def query(self, step: int) -> Any:
        """Returns what asks for a run from an initial state that is bad at a step."""
        asked = [*self._first(step + 1), *self.initial(), *numbered([self.steps[step].bads])]
        return self._formula(step, asked)

    def window(self, k: int) -> Any:
        """Returns what asks for a run of `k` + 2 steps that is bad first at its end."""
        early = [[edge ^ 1] for step in self.steps[:k + 1] for edge in step.bads]
        last = self.steps[k + 1].bads
        return self._formula(k + 1, [*self._first(k + 2), *numbered([*early, last])])

    def _formula(self, step: int, clauses: Clauses) -> Any:
        nodes = len(transforms.unrolled(self.circuit, step).nodes)
        lines = [" ".join(map(str, [*clause, 0])) for clause in clauses]
        return FORMULA("\n".join([f"p cnf {nodes} {len(clauses)}", *lines]))


# ---- proofs

# A proof that is refused where the clauses don't have what it says, and why.
REFUSALS = {b"": "PROOF_UNFINISHED", b"0\n": "PROOF_STEP", b"1 x\n": "PROOF_LINE"}


def verdict(formula: Any, proof: bytes) -> str:
    """Returns how the check of a proof ends, of which one step that doesn't follow is wrong if it
    isn't among those of REFUSALS."""
    return "DONE" if IS_TAKEN(formula, proof) else REFUSALS.get(proof, "PROOF_STEP")
