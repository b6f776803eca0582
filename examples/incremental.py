#!/usr/bin/env python3
"""A bounded model checker with one incremental solver, whose answers the library checks:
incremental.py SOLVER FILE [BOUND]. SOLVER is a shared library that is built from Debian's
libcadical.a:

    g++ -shared -o libcadical.so -Wl,--whole-archive -l:libcadical.a -Wl,--no-whole-archive
"""
import ctypes
import itertools
import sys
from collections.abc import Iterable
from pathlib import Path

import aig

# What could make clauses that aren't learned.
OFF = "compact decompose elim inprocessing lucky probe subsume ternary transred vivify walk"


class Solver:
    """An instance of cadical, and the clauses that it has learned, which are a proof."""

    def __init__(self, path: str) -> None:
        self.calls, self.proof = ctypes.CDLL(path), list[int]()
        self.calls.ccadical_init.restype = ctypes.c_void_p
        self.held = ctypes.c_void_p(self.calls.ccadical_init())
        kind = ctypes.CFUNCTYPE(None, ctypes.c_void_p, ctypes.POINTER(ctypes.c_int))
        self.learn = kind(lambda _, lits: self.proof.extend([*itertools.takewhile(bool, lits), 0]))
        for option in OFF.split():
            self.calls.ccadical_set_option(self.held, option.encode(), 0)
        self.calls.ccadical_set_learn(self.held, None, 2**31 - 1, self.learn)

    def add(self, numbers: Iterable[int]) -> None:
        for number in numbers:
            self.calls.ccadical_add(self.held, number)

    def is_reached(self, edge: int) -> bool:
        """Returns whether a bad edge can be true. If not, it is false from now on."""
        bad = (-1 if edge % 2 else 1) * (edge // 2 + 1)
        self.calls.ccadical_assume(self.held, bad)
        if self.calls.ccadical_solve(self.held) == 10:
            return True
        self.add([-bad, 0])
        self.proof += [-bad, 0]
        return False

    def row(self, edges: Iterable[int]) -> str:
        """Returns the values of edges, as digits."""
        values = ((self.calls.ccadical_val(self.held, it // 2 + 1) > 0) != it % 2 for it in edges)
        return "".join(str(int(value)) for value in values)


def main() -> int:
    solver, circuit = Solver(sys.argv[1]), aig.Circuit.from_aiger(Path(sys.argv[2]).read_bytes())
    leaves = [2 * latch.input for latch in circuit.latchs()]
    # The last bad edge is true once any was, so that a proof about a step is about all before.
    last = circuit.new_ors_node([2 * circuit.new_latch(0, init=0), *circuit.bads])
    circuit.set_next(len(leaves), last)
    circuit.push_edge(aig.BADS, last)
    steps, bound = aig.Unrolling(circuit), int(sys.argv[3]) if sys.argv[3:] else 10
    inputs = [[2 * node for node in circuit.inputs]]
    solver.add(steps.initial_clauses())
    for k in range(bound + 1):
        solver.add(steps.step_clauses(k))
        if solver.is_reached(steps.bads(k)[-1]):
            bad = solver.row(steps.bads(k)).index("1")
            print(f"1\nb{bad}", *map(solver.row, [leaves, *inputs]), ".", sep="\n")
            return 1
        # All checks together take about as long as the last two.
        if k & (k + 1) == 0 or k == bound:
            proof = " ".join(map(str, [*solver.proof, 0])).replace(" 0 ", " 0\n") + "\n"
            steps.check_refuted(k, proof.encode())
            print(f"no bad state up to step {k}")
        steps.add_step()
        inputs.append([2 * node for node in steps.added_inputs(k + 1)])
    return 0


if __name__ == "__main__":
    sys.exit(main())
