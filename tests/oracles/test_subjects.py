"""Compares what aigcheck says of one bad literal, of constraints and of outputs with a search.

For random files a search over all states says at which of the first steps each bad literal, and a
true output, is reached by a run that meets the constraints, and how long such runs are. With
--property N, --possible and --outputs cadical is asked about each of these steps, about all of them
at once, and about a window, by the clauses that aigcheck prints: where it has a proof, aigcheck has
to print the line that is written here, and the search has to find none; and where it has a
solution, the search has to find one. What is asked of a file with other lists is refused. The lines
are those of docs/reference/aigcheck.md. It needs cadical.
"""
from __future__ import annotations

import pathlib
import random
from typing import NamedTuple

import harness
import pytest
from aiger import Machine
from harness import Checks
from hypothesis import given
from machines import small_machine
from strategies import cases, choices
from test_edited import LAST, reached

# What aigcheck says by the command: at step K, up to it, at any step if up to it, and at any step.
BAD = (
    "no bad state at step {k}",
    "no bad state up to step {k}",
    "no bad state at any step, if none up to step {k}",
    "no bad state at any step",
)
OUTPUT = tuple(line.replace("no bad state", "no output is true") for line in BAD)
RUN = (
    "no run of more than {k} steps meets the constraints",
    "no run meets the constraints",
    "no run meets the constraints, if none of at most {more} steps does",
    "no run meets the constraints",
)
# The step up to which windows are asked for.
WINDOW = 1


class Subject(NamedTuple):
    """What of a file is asked about: the words, the lines, and the steps at which it is reached."""
    words: list[str]
    lines: tuple[str, ...]
    steps: set[int]


class Subjects:
    """A folder of files, and what was seen."""

    def __init__(self, folder: pathlib.Path, checks: Checks) -> None:
        self.folder, self.checks, self.text = folder, checks, ""

    def check_run(self, *words: str) -> tuple[int | None, str, str]:
        """The status of aigcheck, what it prints, and what it says but beside an answer."""
        status, out, said = harness.run([harness.CHECK, *words], cwd=self.folder)
        return status, out.decode(), harness.alone(said).decode()

    def proof(self, subject: Subject, *words: str) -> str | None:
        """The name of cadical's proof of a question's clauses; None where it has a solution."""
        status, clauses, said = self.check_run(*subject.words, *words)
        self.wants(subject, words, (0, ""), (status, said))
        (self.folder / "clauses").write_text(clauses)
        name = "_".join(words)
        solver = ["cadical", "-q", "--no-binary", "clauses", name]
        status, _, _ = harness.run(solver, cwd=self.folder)
        return name if status == 20 else None

    def wants(self, subject: Subject, words: object, wanted: object, given: object) -> None:
        """Counts whether what is given of a subject is what is wanted."""
        self.checks.wants(f"{subject.words} {words}\n{self.text}", wanted, given)

    def wants_line(self, subject: Subject, line: str, k: int, *words: str) -> None:
        """Checks that a command prints this line of step `k`."""
        wanted = line.format(k=k, more=k + 1) + "\n"
        self.wants(subject, words, (0, wanted, ""), self.check_run(*subject.words, *words))

    def check_step(self, subject: Subject, k: int) -> None:
        """Checks what is said of step `k`, and of those up to it."""
        proof = self.proof(subject, "clauses", "file", str(k))
        self.wants(subject, k, k in subject.steps, proof is None)
        if proof:
            self.wants_line(subject, subject.lines[0], k, "refuted", "file", str(k), proof)
        proof = self.proof(subject, "bounded", "file", str(k))
        self.wants(subject, f"to {k}", any(step <= k for step in subject.steps), proof is None)
        if proof:
            words = ["refuted", "file", "to", str(k), proof]
            self.wants_line(subject, subject.lines[1], k, *words)

    def check_always(self, subject: Subject) -> None:
        """Checks what is said of every step by a window."""
        k = str(WINDOW)
        step = self.proof(subject, "window", "file", k, "distinct")
        base = self.proof(subject, "bounded", "file", k)
        if step:
            words = ["inductive", "file", k, step, "distinct"]
            self.wants_line(subject, subject.lines[2], WINDOW, *words)
        if base and step:
            self.wants(subject, "always", set(), subject.steps)
            words = ["safe", "file", "to", k, base, step, "distinct"]
            self.wants_line(subject, subject.lines[3], WINDOW, *words)

    def check(self, subject: Subject) -> None:
        for k in range(LAST + 1):
            self.check_step(subject, k)
        self.check_always(subject)

    def refuses(self, why: str, *words: str) -> None:
        """Checks that a command is refused, which says why."""
        status, out, said = self.check_run(*words)
        given = (status, out, why in said)
        self.checks.wants(f"{words}, which is refused\n{self.text}", (1, "", True), given)

    def check_bads(self, machine: Machine) -> None:
        """Checks each bad literal of a file, and the number past the last."""
        for n, bad in enumerate(machine.bads):
            lines = tuple(f"b{n}: {line}" for line in BAD)
            self.check(Subject(["--property", str(n)], lines, reached(machine, [bad])))
        number = str(len(machine.bads))
        self.refuses(
            "no such bad state property", "--property", number, "clauses", "file", "0"
        )

    def check_outputs(self, machine: Machine) -> None:
        """Checks the outputs of a file, which are refused where it has bad literals."""
        if machine.bads:
            self.refuses("has a bad state property already", "--outputs", "clauses", "file", "0")
        elif machine.outputs:
            self.check(Subject(["--outputs"], OUTPUT, reached(machine, machine.outputs)))

    def write(self, machine: Machine) -> Machine:
        """Writes a machine as the file that is asked about, and returns it."""
        self.text = machine.text()
        (self.folder / "file").write_text(self.text)
        return machine


@pytest.fixture
def subjects(folder: pathlib.Path, checks: Checks) -> Subjects:
    """A folder of files."""
    return Subjects(folder, checks)


@pytest.mark.cadical
@cases(60)
@given(rng=choices())
def test_bad_literals(subjects: Subjects, rng: random.Random) -> None:
    """Each bad literal alone is reached at the steps that the search says."""
    subjects.check_bads(subjects.write(small_machine(rng)))


@pytest.mark.cadical
@cases(60)
@given(rng=choices())
def test_constraints(subjects: Subjects, rng: random.Random) -> None:
    """Runs that meet the constraints are as long as the search says."""
    machine = subjects.write(small_machine(rng))
    subjects.check(Subject(["--possible"], RUN, reached(machine, [1])))


@pytest.mark.cadical
@cases(60)
@given(rng=choices())
def test_outputs(subjects: Subjects, rng: random.Random) -> None:
    """Outputs are true at the steps that the search says."""
    subjects.check_outputs(subjects.write(small_machine(rng)))
