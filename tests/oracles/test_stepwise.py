"""Compares unrolling step by step with a plain model.

Of random files the clauses of each step, its bad edges and the inputs that it adds are those of the
model in tests/support/reference, both as soon as the step is added and once all are; so are the
clauses of initial values. The clauses of the model for the circuit with so many steps, each gate an
and, are among them. Of tiny files each choice of leaf values satisfies the clauses of all steps, by
unit propagation, exactly where a simulation says that every constraint holds in each step, and
those of initial values, too, where the first state is initial. Steps that aren't there, inputs
that step 0 adds and handles of another kind are refused.

Of the designs of tests/designs a solver is asked about a bad state at a step, and about a window
that is bad first at its end. Its proofs are taken, and a proof of other clauses is refused where
these can be satisfied.
"""
from __future__ import annotations

import ctypes
import itertools
import pathlib
import random
from collections.abc import Callable, Sequence
from typing import Any

import harness
import pytest
from harness import Checks
from hypothesis import given
from machines import small_machine
from reference import files, transforms
from reference.circuit import Circuit
from reference.clauses import ONE, ZERO, clauses, ternary, value_of
from reference.unrolling import Clauses, Step, numbered
from reference.unrolling import Unrolling as Model
from strategies import cases, choices

DONE, SMALL, PROOF, EMPTY, RANGE = 0, 1, 40, 110, 111
STEPS, TINY_STEPS, MOST_LEAVES, PROVED_STEPS = 5, 2, 10, 3
DESIGNS: list[pathlib.Path] = sorted((harness.TESTS / "designs").glob("*.aig"))
# Calls with steps of which there is nothing.
MISSING = [
    ("unrolling_step_clauses", STEPS), ("unrolling_bads", STEPS),
    ("unrolling_added_inputs", STEPS), ("unrolling_added_inputs", 0),
]
# A type of C whose values are numbers.
Number = type["ctypes._SimpleCData[int]"]
# What makes a small machine at random.
MACHINE: Callable[..., Any] = small_machine


# ---- the library


class Handle(ctypes.Structure):
    """What holds a circuit, or one that is unrolled."""

    _fields_ = [("held", ctypes.c_void_p)]


class Refused(Exception):
    """The status of a call."""


class Library:
    """The calls of the library."""

    def __init__(self, path: pathlib.Path) -> None:
        self.calls = ctypes.CDLL(str(path))

    def call(self, name: str, *words: object) -> None:
        status = getattr(self.calls, f"aig_{name}")(*words)
        if status != DONE:
            raise Refused(status)

    def listed(self, kind: Number, name: str, *words: object) -> list[int]:
        """Returns the items that a call gives, for which it is first given no room."""
        needed = ctypes.c_size_t()
        asked = [*words, (kind * 1)(), ctypes.c_size_t(0), ctypes.byref(needed)]
        status = getattr(self.calls, f"aig_{name}")(*asked)
        if status not in (DONE, SMALL):
            raise Refused(status)
        count = needed.value
        out = (kind * (count + 1))()
        self.call(name, *words, out, ctypes.c_size_t(count), ctypes.byref(needed))
        return list(out)[:count]


class Unrolling:
    """A circuit that is read and unrolled step by step."""

    def __init__(self, library: Library, data: bytes) -> None:
        self.library, self.circuit, self.held = library, Handle(), Handle()
        given = (ctypes.c_uint8 * len(data)).from_buffer_copy(data)
        sizes = ctypes.c_size_t(len(data)), ctypes.c_size_t(1 << 20)
        library.call("circuit_from_aiger", ctypes.byref(self.circuit), given, *sizes)
        library.call("unrolling_new", ctypes.byref(self.circuit), ctypes.byref(self.held))

    def free(self) -> None:
        self.library.calls.aig_circuit_free(ctypes.byref(self.circuit))
        self.library.calls.aig_unrolling_free(ctypes.byref(self.held))

    def add_step(self) -> None:
        self.library.call("unrolling_add_step", ctypes.byref(self.held))

    def clauses(self, name: str, *words: object) -> Clauses:
        numbers = self.library.listed(ctypes.c_int32, name, ctypes.byref(self.held), *words)
        found: Clauses = []
        while numbers:
            end = numbers.index(0)
            found.append(tuple(numbers[:end]))
            numbers = numbers[end + 1:]
        return found

    def step(self, number: int) -> Step:
        held, at = ctypes.byref(self.held), ctypes.c_size_t(number)
        inputs = []
        if number:
            inputs = self.library.listed(ctypes.c_size_t, "unrolling_added_inputs", held, at)
        bads = self.library.listed(ctypes.c_uint32, "unrolling_bads", held, at)
        return Step(self.clauses("unrolling_step_clauses", at), bads, inputs)

    def query(self, step: int) -> Clauses:
        """Returns what asks for a run from an initial state that is bad at a step."""
        found = [clause for at in range(step + 1) for clause in self.step(at).clauses]
        initial = self.clauses("unrolling_initial_clauses")
        return [*found, *initial, *numbered([self.step(step).bads])]

    def window(self, k: int) -> Clauses:
        """Returns what asks for a run of `k` + 2 steps that is bad first at its end."""
        steps = [self.step(at) for at in range(k + 2)]
        good = numbered([[edge ^ 1] for step in steps[:-1] for edge in step.bads])
        found = [clause for step in steps for clause in step.clauses]
        return [*found, *good, *numbered([steps[-1].bads])]

    def check(self, name: str, step: int, proof: bytes) -> int:
        """Returns the status of a check of a proof."""
        call = getattr(self.library.calls, f"aig_unrolling_check_{name}")
        size = ctypes.c_size_t(len(proof))
        return int(call(ctypes.byref(self.held), ctypes.c_size_t(step), proof, size))

    def refusal(self, name: str, *words: object) -> int:
        """Returns the status of a call that isn't done."""
        try:
            self.library.listed(ctypes.c_size_t, name, *words)
        except Refused as refused:
            return int(refused.args[0])
        return DONE


# ---- runs


def propagated(found: Clauses, values: dict[int, bool]) -> bool:
    """Adds the values that unit clauses give, and returns whether every clause holds then."""
    changed = True
    while changed:
        changed = False
        for clause in found:
            open_ones = [number for number in clause if abs(number) not in values]
            holds = any(values.get(abs(number)) == (number > 0) for number in clause)
            if not holds and len(open_ones) == 1:
                values[abs(open_ones[0])] = open_ones[0] > 0
                changed = True
            elif not holds and not open_ones:
                return False
    return True


def is_allowed(circuit: Circuit, state: Sequence[int], rows: Sequence[Sequence[int]]) -> bool:
    """Returns whether every constraint holds in each step of a run."""
    for row in rows:
        values = ternary(circuit, row, state)
        if any(value_of(values, edge) != ONE for edge in circuit.constraints):
            return False
        state = [value_of(values, latch.next) for latch in circuit.latches]
    return True


def check_runs(checks: Checks, name: str, circuit: Circuit, made: Unrolling) -> None:
    """Holds satisfying assignments of the clauses of some steps against runs."""
    steps = [made.step(number) for number in range(TINY_STEPS)]
    found = [clause for step in steps for clause in step.clauses]
    initial = made.clauses("unrolling_initial_clauses")
    leaves = [[*circuit.inputs], *(step.inputs for step in steps[1:]), circuit.latch_leaves()]
    for bits in itertools.product([ZERO, ONE], repeat=sum(map(len, leaves))):
        given = iter(bits)
        *rows, state = [[next(given) for _ in part] for part in leaves]
        values = {leaf + 1: bool(bit) for leaf, bit in zip(itertools.chain(*leaves), bits)}
        holds = propagated(found, values)
        checks.wants(f"a run of {name}", is_allowed(circuit, state, rows), holds)
        starts = ternary(circuit, rows[0], state)
        wanted = all(it.init is None or value_of(starts, it.init) == bit
                     for it, bit in zip(circuit.latches, state))
        if holds:
            checks.wants(f"a start of {name}", wanted, propagated(initial, values))


# ---- the parts of this test


def check_file(checks: Checks, library: Library, name: str, data: bytes) -> None:
    """Compares the steps of a file with those of the model."""
    circuit, made = files.read(data, 1 << 20), Unrolling(library, data)
    model = Model(circuit)
    for _ in range(STEPS - 1):
        model.add_step()
    wanted = model.steps
    for number, step in enumerate(wanted):
        if number:
            made.add_step()
        checks.wants(f"step {number} of {name}", step, made.step(number))
    again = [made.step(number) for number in range(STEPS)]
    checks.wants(f"the steps of {name} once all are there", wanted, again)
    initial = made.clauses("unrolling_initial_clauses")
    checks.wants(f"initial values of {name}", model.initial(), initial)
    given = {clause for step in again for clause in step.clauses}
    whole = clauses(transforms.unrolled(circuit, STEPS - 1), False)
    encoded = numbered([clause for listed in whole for clause in listed])
    checks.check(given.issuperset(encoded), f"clauses of the encoding of {name}")
    held = ctypes.byref(made.held)
    for call, number in MISSING:
        refused = made.refusal(call, held, ctypes.c_size_t(number))
        checks.wants(f"{call} at step {number} of {name}", RANGE, refused)
    other = ctypes.byref(made.circuit)
    checks.wants("a circuit", EMPTY, made.refusal("unrolling_initial_clauses", other))
    made.free()


def check_tiny(checks: Checks, library: Library, name: str, data: bytes) -> None:
    """Compares the runs of a file with assignments, if it has few leaves."""
    circuit = files.read(data, 1 << 20)
    if TINY_STEPS * len(circuit.inputs) + len(circuit.latches) > MOST_LEAVES:
        return
    made = Unrolling(library, data)
    for _ in range(TINY_STEPS - 1):
        made.add_step()
    check_runs(checks, name, circuit, made)
    made.free()


def solve(folder: pathlib.Path, found: Clauses) -> bytes | None:
    """Returns a proof that clauses can't be satisfied, or none where they can."""
    most = max((abs(number) for clause in found for number in clause), default=0)
    lines = [" ".join(map(str, (*clause, 0))) for clause in found]
    clauses_file, proof = folder / "clauses", folder / "proof"
    clauses_file.write_text("\n".join([f"p cnf {most} {len(found)}", *lines, ""]))
    status, _, _ = harness.run(["cadical", "-q", "--no-binary", str(clauses_file), str(proof)])
    assert status in (10, 20)
    return proof.read_bytes() if status == 20 else None


def check_design(checks: Checks, folder: pathlib.Path, made: Unrolling, name: str) -> None:
    """Holds answers of a solver about a design against the checks of its proofs."""
    asked = {("refuted", step): made.query(step) for step in range(PROVED_STEPS)}
    asked |= {("inductive", k): made.window(k) for k in range(PROVED_STEPS - 1)}
    proofs = {question: solve(folder, found) for question, found in asked.items()}
    given = [proof for proof in proofs.values() if proof]
    for (kind, step), proof in proofs.items():
        about = f"{kind} {step} of {name}"
        if proof:
            checks.wants(about, DONE, made.check(kind, step, proof))
        else:
            statuses = [made.check(kind, step, other) for other in given]
            checks.check(all(status >= PROOF for status in statuses), about)


@pytest.fixture(scope="module")
def opened(library: pathlib.Path) -> Library:
    """The library for C."""
    return Library(library / "libaig.so")


@cases(500)
@given(rng=choices())
def test_steps(opened: Library, checks: Checks, rng: random.Random) -> None:
    """The steps of a random file are those of the model."""
    check_file(checks, opened, "a file", MACHINE(rng, (4, 4, 20), (0, 2)).text().encode())


@cases(50)
@given(rng=choices())
def test_runs(opened: Library, checks: Checks, rng: random.Random) -> None:
    """The assignments of a tiny file are its runs."""
    check_tiny(checks, opened, "a tiny file", MACHINE(rng, (2, 2, 8), (0, 2)).text().encode())


@pytest.mark.cadical
@pytest.mark.parametrize("path", DESIGNS, ids=[path.stem for path in DESIGNS])
def test_design(opened: Library, checks: Checks, folder: pathlib.Path, path: pathlib.Path) -> None:
    """A solver's proofs about a design are taken, and others refused."""
    made = Unrolling(opened, path.read_bytes())
    for _ in range(PROVED_STEPS - 1):
        made.add_step()
    check_design(checks, folder, made, path.stem)
    made.free()
