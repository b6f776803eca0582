"""Compares the machines of files that aigedit prints with those of the files that it reads.

For the examples and for random files a search over all states says at which of the first steps a
bad state or a true output is reached by a run that meets the constraints, and at which two files
differ, as constraints are taken. What is printed is read by tests/support/aiger.py, and has to
reach bad states at the steps that the command says. The files are small, so that the search is over
all runs. What aigcheck prints with --property, --possible and --outputs has to be what it prints of
the printed file.
"""
from __future__ import annotations

import dataclasses
import pathlib
import random
from collections.abc import Callable, Iterator
from typing import Any

import harness
import pytest
from aiger import Machine, machine_of, starting, step
from harness import Checks
from hypothesis import given
from lasso_search import check_clauses
from machines import small_machine
from strategies import cases, choices

# The most inputs and latches of an example, so that the search is short.
MOST = 6
LAST = 6
# The last step that files are unrolled to.
UNROLLED = 3


def reached(machine: Machine, asked: list[int]) -> set[int]:
    """The steps up to LAST at which a run from a start that meets the constraints has one of these
    literals."""
    states, found = machine.starts(), set()
    for k in range(LAST + 1):
        values = [values for state in states for _, values in machine.steps(state)]
        if any(value[literal] for value in values for literal in asked):
            found.add(k)
        states = {machine.following(value) for value in values}
    return found


def reached_by(machine: Machine, last: int) -> bool:
    """Whether such a run of last + 1 steps has a bad literal at one of them."""
    states = {(state, False) for state in machine.starts()}
    for _ in range(last + 1):
        states = {
            (machine.following(values), bad or any(values[literal] for literal in machine.bads))
            for state, bad in states
            for _, values in machine.steps(state)
        }
    return any(bad for _, bad in states)


def counts(machine: Machine) -> str:
    """A line for each count of a machine, whose gates come after what they read."""
    levels = {}
    for gate, *operands in machine.gates:
        levels[gate // 2] = 1 + max(levels.get(literal // 2, 0) for literal in operands)
    words = "inputs latches outputs gates bads constraints justice fairness".split()
    return (
        "".join(f"{word} {len(getattr(machine, word))}\n" for word in words)
        + f"levels {max(levels.values(), default=0)}\n"
    )


class Edits:
    """A program, a folder of files, and what is counted."""

    def __init__(self, program: pathlib.Path, folder: pathlib.Path, checks: Checks) -> None:
        self.program, self.folder, self.checks = program, folder, checks

    def write(self, name: str, machine: Machine) -> Machine:
        """Writes a machine into a file of the folder, and returns it."""
        (self.folder / name).write_text(machine.text())
        return machine

    def printed(self, *words: str) -> str:
        status, out, said = harness.run([self.program, *words], cwd=self.folder)
        self.checks.check(status == 0, f"{words}: status {status}, {said}")
        return out.decode()

    def edited(self, *words: str) -> Machine:
        return machine_of(self.printed(*words))

    def compare(
        self, what: str, wanted: bool | str | set[int], given: bool | str | set[int]
    ) -> None:
        """Checks that a bad state is reached at the same steps."""
        self.checks.wants(f"{what}\n{(self.folder / 'file').read_text()}", wanted, given)

    def refuses(self, why: bytes, *words: str) -> None:
        """Checks that a command is refused, which says why."""
        status, out, said = harness.run([self.program, *words], cwd=self.folder)
        self.checks.wants(f"{words}, which is refused", (1, b"", True), (status, out, why in said))

    def check_bads(self, machine: Machine) -> None:
        """Checks the commands that give a file another bad literal alone, and what of it stays."""
        alone = {("possible",): 1} | {
            ("property", str(n)): bad for n, bad in enumerate(machine.bads)
        }
        for (command, *number), bad in alone.items():
            printed = self.printed(command, "file", *number)
            made = machine_of(printed)
            self.compare(f"{command} {number}", reached(machine, [bad]), reached(made, made.bads))
            self.compare(
                f"the rest of {command} {number}", dataclasses.replace(machine, bads=[bad]).text(),
                made.text(),
            )
            check_clauses(
                self.checks, self.folder, [f"--{command}", *number], printed.encode(),
                machine.text(),
            )
        self.refuses(b"no such bad state property", "property", "file", str(len(machine.bads)))

    def check_alike(self, machine: Machine) -> None:
        """Checks the commands whose files are as safe as the one that they read."""
        bads, is_movable = (
            reached(machine, machine.bads), not machine.constraints or len(machine.bads) <= 1,
        )
        for command in ["refine", "reencode", "compress", "reduce", *["move"] * is_movable]:
            made = self.edited(command, "file")
            self.compare(command, bads, reached(made, made.bads))
        if not is_movable:
            self.refuses(b"several bad state properties", "move", "file")

    def check_steps(self, machine: Machine) -> None:
        """Checks the commands that take a number of steps."""
        first = min(reached(machine, machine.bads), default=LAST)
        for k in range(UNROLLED + 1):
            made = self.edited("unroll", "file", str(k))
            self.compare(f"unroll {k}", reached_by(machine, k), 0 in reached(made, made.bads))
            if machine.bads:
                made = self.edited("question", "file", str(k))
                self.compare(f"question {k}", first <= k, 0 in reached(made, made.outputs))

    def check_outputs(self, machine: Machine) -> None:
        """Checks the commands that ask about outputs."""
        if not machine.bads:
            printed = self.printed("bads", "file")
            made = machine_of(printed)
            self.compare("bads", reached(machine, machine.outputs), reached(made, made.bads))
            check_clauses(self.checks, self.folder, ["--outputs"], printed.encode(), machine.text())
        for n, output in enumerate(machine.outputs):
            made = self.edited("cone", "file", str(n))
            self.compare(
                f"cone {n}", (reached(machine, [output]), 1),
                (reached(made, made.outputs), len(made.outputs)),
            )

    def check_counts(self, machine: Machine) -> None:
        self.compare("info", counts(machine), self.printed("info", "file"))

    def check_merge(self, machine: Machine, other: Machine) -> None:
        """Checks the file of two machines side by side."""
        runs = [reached(one, [1]) for one in (machine, other)]
        made = self.edited("merge", "file", "other")
        wanted = reached(machine, machine.bads) & runs[1] | runs[0] & reached(other, other.bads)
        self.compare("merge", wanted, reached(made, made.bads))

    def check_miters(self, machine: Machine, other: Machine) -> None:
        """Checks the miters of two machines of the same counts."""
        for setting in ["both", "first", "compared"]:
            made = self.edited(
                *["--constraints", setting] * (setting != "both"), "miter", "file", "beside"
            )
            wanted, pairs = set(), starting(machine, other)
            for k in range(LAST + 1):
                is_different, pairs = step(machine, other, pairs, setting)
                wanted |= {k} if is_different else set()
            self.compare(f"{other.text()}constraints {setting}", wanted, reached(made, made.bads))


def like(rng: random.Random, machine: Machine) -> Machine:
    """A small machine of as many inputs, outputs and bad literals, or the same one, perhaps with
    other constraints."""
    if rng.random() < 0.5:
        own = machine.constraints
        return dataclasses.replace(
            machine,
            constraints=rng.choice([own, own[1:], [*own, *machine.outputs[:1]], machine.bads]),
        )
    made = small_machine(rng, (len(machine.inputs), 3, 6))
    while len(made.inputs) != len(machine.inputs):
        made = small_machine(rng, (len(machine.inputs), 3, 6))

    def some(literals: list[int]) -> list[int]:
        return [rng.randrange(made.gates.end()) for _ in literals]

    return dataclasses.replace(made, outputs=some(machine.outputs), bads=some(machine.bads))


def examples() -> Iterator[Any]:
    """The examples that are small enough, by name."""
    for path in sorted((harness.TOP / "examples").glob("*.aag")):
        machine = machine_of(path.read_text().split("\nc\n")[0])
        if len(machine.inputs) + len(machine.latches) <= MOST:
            yield pytest.param(machine, id=path.stem)


ALONE = [
    Edits.check_alike, Edits.check_steps, Edits.check_outputs, Edits.check_bads, Edits.check_counts,
]


@pytest.fixture
def edits(aigedit: pathlib.Path, folder: pathlib.Path, checks: Checks) -> Edits:
    """The program aigedit, with a folder for files."""
    return Edits(aigedit, folder, checks)


@pytest.mark.parametrize("check", ALONE)
@pytest.mark.parametrize("machine", examples())
def test_example(edits: Edits, machine: Machine, check: Callable[..., Any]) -> None:
    """A command on an example gives a machine that is bad when it has to be."""
    check(edits, edits.write("file", machine))


@pytest.mark.parametrize("check", ALONE)
@cases(300)
@given(rng=choices())
def test_one_file(edits: Edits, check: Callable[..., Any], rng: random.Random) -> None:
    """A command on a random file gives a machine that is bad when it has to be."""
    check(edits, edits.write("file", small_machine(rng)))


@cases(300)
@given(rng=choices())
def test_merge(edits: Edits, rng: random.Random) -> None:
    """`merge` gives the two machines side by side."""
    edits.check_merge(
        edits.write("file", small_machine(rng)), edits.write("other", small_machine(rng))
    )


@cases(300)
@given(rng=choices())
def test_miter(edits: Edits, rng: random.Random) -> None:
    """`miter` gives a machine that is bad where two differ, as their constraints are taken."""
    machine = edits.write("file", small_machine(rng))
    edits.check_miters(machine, edits.write("beside", like(rng, machine)))


@pytest.mark.parametrize("machine", examples())
@cases(1, 20)
@given(rng=choices())
def test_example_and_another(edits: Edits, machine: Machine, rng: random.Random) -> None:
    """`merge` and `miter` of an example and a random machine."""
    edits.check_merge(edits.write("file", machine), edits.write("other", small_machine(rng)))
    edits.check_miters(machine, edits.write("beside", like(rng, machine)))
