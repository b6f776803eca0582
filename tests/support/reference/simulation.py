"""Circuits that are simulated in three values, step by step."""
from __future__ import annotations

import copy
import dataclasses
from collections.abc import Sequence

from reference import clauses
from reference.circuit import Circuit


@dataclasses.dataclass
class Simulation:
    """A circuit of its own, the state in which the next step begins, and the values of the last."""

    circuit: Circuit
    state: list[int]
    values: list[int] = dataclasses.field(default_factory=list)

    def copy(self) -> Simulation:
        """Returns a simulation that shares nothing with this one."""
        return copy.deepcopy(self)

    def step(self, inputs: Sequence[int]) -> None:
        self.values = clauses.ternary(self.circuit, inputs, self.state)
        self.state = clauses.following(self.circuit, self.values)

    def has_value(self, edge: int) -> bool:
        return edge // 2 < len(self.values)

    def value(self, edge: int) -> int:
        return clauses.value_of(self.values, edge)
