"""Compares the files that `aigedit rounds` prints with rounds of random machines.

For each justice property of random files with justice, fairness and constraints, and for 0 to 3
rounds, a search over all states says at which of the first steps so many rounds can have ended: in
a run that meets the constraints, a round ends with the step by which each literal of the property
and of fairness was true in it. The printed file has to reach its bad state at just these steps, and
to have the counts and the names that the command says. No step of the search knows how the file is
made. What `aigcheck --justice` prints of clauses of so many rounds has to be what it prints of the
printed file, and what `--endless` prints that of a property of no literals.

Where a search for lassos finds a fair one, many rounds have to end at some step, too.
"""
from __future__ import annotations

import itertools
import pathlib
from collections.abc import Iterator

import harness
import pytest
from aiger import Machine, machine_of
from harness import Checks
from hypothesis import given
from lasso_search import LAST, NAME, NAMES, Steps, bad_steps, check_clauses, has_lasso, with_endless
from machines import live_machine, named
from strategies import cases, made

# How many rounds are counted; and how many that a fair lasso has to end.
COUNTS, MANY = range(4), 5


def rounds_names(machine: Machine, edges: int, count: int) -> dict[str, str]:
    """The names that the file made for so many literals and rounds has to have."""
    latches = len(machine.latches)
    met = {f"l{latches + i}": f"met {i}" for i in range(edges)}
    return {
        **machine.names, **met,
        **{f"l{latches + edges + i}": f"round {i + 1}" for i in range(count)},
    }


def after_round(
    asked: frozenset[int], seen: frozenset[int], ended: int, most: int
) -> tuple[frozenset[int], int]:
    """What was seen in the round after a step, and how many ended, of which so many are told
    apart."""
    return (frozenset(), min(ended + 1, most)) if seen >= asked else (seen, ended)


def layers(
    machine: Machine, asked: frozenset[int] | list[int], count: int
) -> Iterator[set[tuple[tuple[bool, ...], frozenset[int], int]] | None]:
    """At each step, without end: in which state a run can be after it, with what was seen in the
    round, and how many ended."""
    steps, asked = Steps(machine, asked), frozenset(asked)
    here = {(state, frozenset(), 0) for state in machine.starts()}
    while True:
        here = {
            (after, *after_round(asked, seen | now, ended, count))
            for state, seen, ended in here for after, now in steps.of(state)
        }
        yield here


def has_ended(layer: set[tuple[tuple[bool, ...], frozenset[int], int]], count: int) -> bool:
    """Whether so many rounds can have ended with a step."""
    return any(ended == count for _, _, ended in layer)


def can_end(machine: Machine, asked: list[int], count: int) -> bool:
    """Whether so many rounds end at any step."""
    known = []
    for layer in layers(machine, asked, count):
        if has_ended(layer, count) or layer in known:
            return has_ended(layer, count)
        known.append(layer)


class Rounds:
    """A program, a folder, and what is counted."""

    def __init__(self, program: pathlib.Path, folder: pathlib.Path, checks: Checks) -> None:
        self.program, self.folder, self.checks = program, folder, checks

    def run(self, j: int, count: int) -> tuple[int, bytes, bytes]:
        return harness.run([self.program, "rounds", "file", str(j), str(count)], cwd=self.folder)

    def check_property(self, machine: Machine, j: int, count: int, options: list[str]) -> None:
        """Checks the file that is printed for so many rounds of a justice property."""
        asked = machine.justice[j] + machine.fairness
        status, out, said = self.run(j, count)
        what = f"rounds {j} {count}: {said}\n{machine.text()}"
        self.checks.wants(what, 0, status)
        made = machine_of(out.decode())
        counts = [
            len(machine.inputs), len(machine.latches) + len(asked) + count, 0, 1,
            len(machine.constraints), 0, 0,
        ]
        lists = [
            made.inputs, made.latches, made.outputs, made.bads, made.constraints, made.justice,
            made.fairness,
        ]
        self.checks.wants(what, counts, list(map(len, lists)))
        self.checks.check(
            len(made.gates) - len(machine.gates) <= 4 * len(asked) + 2 * count,
            f"too many gates: {what}",
        )
        self.checks.wants(
            what, rounds_names(machine, len(asked), count), dict(NAME.findall(out.decode()))
        )
        found = itertools.islice(layers(machine, asked, count), LAST + 1)
        self.checks.wants(
            what, {step for step, layer in enumerate(found) if has_ended(layer, count)},
            bad_steps(made, LAST),
        )
        check_clauses(self.checks, self.folder, [*options, "--rounds", str(count)], out, what)


MACHINES = made(lambda rng: named(rng, live_machine(rng), NAMES))


@pytest.fixture
def rounds(aigedit: pathlib.Path, folder: pathlib.Path, checks: Checks) -> Rounds:
    """The program aigedit, with a folder for files."""
    return Rounds(aigedit, folder, checks)


@pytest.mark.parametrize("count", COUNTS)
@cases(200)
@given(machine=MACHINES)
def test_rounds(rounds: Rounds, count: int, machine: Machine) -> None:
    """The file of each justice property is bad at the steps at which so many rounds can have
    ended."""
    (rounds.folder / "file").write_text(machine.text())
    for j in range(len(machine.justice)):
        rounds.check_property(machine, j, count, ["--justice", str(j)])
    status, out, said = rounds.run(len(machine.justice), count)
    rounds.checks.wants(
        "no property", (1, b"", True), (status, out, b"no such justice property" in said)
    )


@cases(200)
@given(machine=MACHINES)
def test_endless(rounds: Rounds, machine: Machine) -> None:
    """Rounds of fairness alone are those of a property of no literals."""
    further = with_endless(machine)
    (rounds.folder / "file").write_text(further.text())
    rounds.check_property(further, len(machine.justice), COUNTS[-1], ["--endless"])


@cases(200)
@given(machine=MACHINES)
def test_a_fair_lasso_has_many_rounds(checks: Checks, machine: Machine) -> None:
    """Where a search finds a fair lasso, many rounds end."""
    for own in machine.justice:
        if has_lasso(machine, own + machine.fairness):
            holds = can_end(machine, own + machine.fairness, MANY)
            checks.check(holds, f"a fair lasso without {MANY} rounds: {machine.text()}")
