"""Compares the files that `aigedit live` prints with fair lassos of random machines.

For each justice property of random files with justice, fairness and constraints, a search for
lassos over all states says for which of the first k there is a fair lasso of k + 1 steps: a run
that meets the constraints, comes back to a state, and has each literal of the property and of
fairness true in between. The printed file has to reach its bad state at just these steps, and to
have the counts and the names that the command says. No step of the search knows how the file is
made. The files are small, so that it is over all runs. What `aigcheck --justice` prints of clauses
has to be what it prints of the printed file.

Of some files `aigprove --justice` has to say whether there is any fair lasso, and the lasso that it
writes has to be one, with the loop that `aigcheck run` finds in it, from which on the dump marks
it. What it tells of runs without end that meet the fairness has to be so. What `aigcheck --endless`
prints of clauses has to be what it prints of the file made for one more property, of no literals.
"""
from __future__ import annotations

import pathlib
import re
from typing import Any

import harness
import pytest
from aiger import Machine, machine_of
from harness import Checks
from hypothesis import given
from lasso_search import (
    LAST, NAME, NAMES, bad_steps, check_clauses, has_lasso,
    is_lasso,
    lassos, with_endless,
)
from machines import live_machine, named
from strategies import cases, made

# There is a fair lasso; there is none; and there is none as from some step on the constraints can't
# be met.
FAIR, NONE, EMPTY = 10, 20, 0
# The loop of a lasso, in a line of aigcheck.
LOOP = re.compile("from step ([0-9]+) to ([0-9]+)$", re.M)


def live_names(machine: Machine, count: int) -> dict[str, str]:
    """The names that the file made for so many literals has to have."""
    inputs, latches = len(machine.inputs), len(machine.latches)
    copies = {
        f"l{latches + 1 + int(place[1:])}": f"saved {name}"
        for place, name in machine.names.items()
        if place[0] == "l"
    }
    seen = {f"l{2 * latches + 1 + i}": f"seen {i}" for i in range(count)}
    return {**machine.names, f"i{inputs}": "save", f"l{latches}": "saved", **copies, **seen}


def first_marked(dump: Any) -> Any:
    """The step from which on a value change dump marks the loop."""
    mark = re.search(r"^\$var wire 1 (\S+) loop \$end$", dump, re.M)[1]
    steps = re.split("^#([0-9]+)$", dump, flags=re.M)
    return next(
        step for step, changes in zip(steps[1::2], steps[2::2]) if f"1{mark}" in changes.split("\n")
    )


class Lives:
    """A program, a folder, and what is counted."""

    def __init__(self, program: pathlib.Path, folder: pathlib.Path, checks: Checks) -> None:
        self.program, self.folder, self.checks = program, folder, checks

    def write(self, machine: Machine) -> None:
        (self.folder / "file").write_text(machine.text())

    def run(self, j: int) -> tuple[int, bytes, bytes]:
        return harness.run([self.program, "live", "file", str(j)], cwd=self.folder)

    def check_property(self, machine: Machine, j: int) -> None:
        """Checks the file that is printed for a justice property."""
        asked = machine.justice[j] + machine.fairness
        status, out, said = self.run(j)
        what = f"live {j}: {said}\n{machine.text()}"
        self.checks.wants(what, 0, status)
        made = machine_of(out.decode())
        latches, count = len(machine.latches), len(asked)
        counts = [
            len(machine.inputs) + 1, 1 + 2 * latches + count, 0, 1, len(machine.constraints), 0, 0,
        ]
        lists = [
            made.inputs, made.latches, made.outputs, made.bads, made.constraints, made.justice,
            made.fairness,
        ]
        self.checks.wants(what, counts, list(map(len, lists)))
        self.checks.check(
            len(made.gates) - len(machine.gates) <= 1 + 7 * latches + 3 * count,
            f"too many gates: {what}",
        )
        self.checks.wants(what, live_names(machine, count), dict(NAME.findall(out.decode())))
        self.checks.wants(what, lassos(machine, asked, LAST), bad_steps(made, LAST))
        check_clauses(self.checks, self.folder, ["--justice", str(j)], out, what)

    def check_endless(self, machine: Machine) -> None:
        """Checks what aigcheck prints of runs without end that meet the fairness."""
        (self.folder / "further").write_text(with_endless(machine).text())
        status, out, said = harness.run(
            [self.program, "live", "further", str(len(machine.justice))], cwd=self.folder
        )
        what = f"endless: {said}\n{machine.text()}"
        self.checks.wants(what, 0, status)
        self.checks.wants(
            what, lassos(machine, machine.fairness, LAST), bad_steps(machine_of(out.decode()), LAST)
        )
        check_clauses(self.checks, self.folder, ["--endless"], out, what)

    def check_answer(self, machine: Machine, j: int) -> None:
        """Checks what aigprove says of a justice property."""
        asked, lasso, dump = (
            machine.justice[j] + machine.fairness, self.folder / "lasso", self.folder / "dump",
        )
        words = [
            "--justice", str(j), "--engine", "bounded,windows", "--witness", lasso, "--vcd", dump,
            "--aigedit", self.program, "file",
        ]
        status, out, said = harness.run([harness.PROVE, *words], cwd=self.folder)
        what = f"aigprove --justice {j}: {out} {said}\n{machine.text()}"
        wanted = (
            FAIR if has_lasso(machine, asked) else NONE if machine.first_unmet() is None else EMPTY
        )
        if wanted == NONE and machine.fairness:
            wanted = self.without_end(machine, out.decode(), what)
        self.checks.wants(what, wanted, status)
        if status == FAIR:
            self.checks.check(
                is_lasso(machine, asked, lasso.read_text(), j), f"{lasso.read_text()} {what}"
            )
            begin, last = LOOP.search(
                harness.output([harness.CHECK, "run", self.folder / "file", lasso])
            ).groups()
            steps = f"step {begin}" if begin == last else f"steps {begin} to {last}"
            self.checks.check(
                f"a fair run of j{j}: {steps} again and again\n" in out.decode(),
                f"{begin} to {last}: {what}",
            )
            self.checks.wants(what, begin, first_marked(dump.read_text()))

    def without_end(self, machine: Machine, out: str, what: str) -> int:
        """Checks what aigprove says of runs without end that meet the fairness, and gives the
        status that goes with it."""
        can, cannot = (
            line in out
            for line in [
                "the assumptions can be met without end: ",
                "the assumptions can't be met without end: ",
            ]
        )
        self.checks.check(
            not (cannot if has_lasso(machine, machine.fairness) else can), f"without end: {what}"
        )
        return EMPTY if cannot else NONE


@pytest.fixture
def lives(aigedit: pathlib.Path, folder: pathlib.Path, checks: Checks) -> Lives:
    """The program aigedit, with a folder for files."""
    return Lives(aigedit, folder, checks)


MACHINES = made(lambda rng: named(rng, live_machine(rng), NAMES))


@cases(200)
@given(machine=MACHINES)
def test_live(lives: Lives, machine: Machine) -> None:
    """The file of each justice property is bad at the steps of the lassos; there is none past the
    last."""
    lives.write(machine)
    for j in range(len(machine.justice)):
        lives.check_property(machine, j)
    status, out, said = lives.run(len(machine.justice))
    lives.checks.wants(
        "no property", (1, b"", True), (status, out, b"no such justice property" in said)
    )


@cases(200)
@given(machine=MACHINES)
def test_endless(lives: Lives, machine: Machine) -> None:
    """`--endless` asks about the lassos of fairness alone."""
    lives.write(machine)
    lives.check_endless(machine)


@cases(20)
@given(machine=MACHINES)
def test_aigprove(lives: Lives, machine: Machine) -> None:
    """`aigprove --justice` answers as the search does."""
    lives.write(machine)
    lives.check_answer(machine, 0)
