"""Finds out whether the constraints of a file can be met: up to which step, from which step on they
can't, and, together with fairness, on an infinite path."""
from __future__ import annotations

import os
import time
from collections.abc import Mapping, Sequence

from aigprove.circuits.witness import lasso_of
from aigprove.output.evidence import Evidence
from aigprove.processes.files import Sealed
from aigprove.questions.checker import PAIRS, Checker, Claim, Question, Subject, header_of
from aigprove.questions.justice import span
from aigprove.questions.solver import Solver
from aigprove.questions.target import Target

# SECONDS is the processor time for looking at further steps; elapsed time would make the answer
# depend on other work. MOST is the last step that is looked at, unless the answer is about later
# ones.
SECONDS, MOST = 0.25, 1 << 12
MET, LOOPING = "possible.aag", "endless.aag"


def used() -> float:
    """Returns the processor time in seconds that this process and its children have used."""
    return sum(os.times()[:4])


class Runs:
    """Paths of a file that meet its assumptions. `word` is the option of aigcheck that selects the
    query about them."""

    word: str

    def __init__(self, source: Target, checker: Checker) -> None:
        self.assuming, self.checker = source.assuming(), checker
        self.is_made = self.assuming is not source
        self.subject = Subject(self.assuming.subject.file, [self.word])
        # The claims that aigcheck has checked, and the transformed file that one of them needs.
        self.claims: dict[str, Claim] = {}
        self.makes: tuple[str, Sealed] | None = None

    def claim(self, line: str, command: str, words: Sequence[str],
              files: Mapping[str, Sealed]) -> Claim:
        """Returns the claim that a command of aigcheck checks about the assumptions."""
        name = self.assuming.name
        return Claim(line, [self.word, command, name, *words], {name: self.subject.file, **files})

    def keep(self, evidence: Evidence) -> None:
        """Writes the claims, and what they need, into an evidence folder."""
        if self.claims and self.is_made:
            self.assuming.keep(evidence)
        if self.makes:
            evidence.makes(*self.makes, "possible", self.assuming.name)
        for claim in self.claims.values():
            evidence.shows(claim)


class Assumptions(Runs):
    """The last step up to which the constraints are known to be met, and the first step from which
    they can't be met. Either may be None."""

    word = "--possible"
    met: int | None = None
    unmet: int | None = None

    def look(self, solver: Solver, least: int, deadline: float) -> None:
        """Checks steps 1, 2, 4 and so on, while there is time, and at least up to step `least`.

        If the constraints can't be met at one of them, the first such step is found by
        bisection."""
        until, step = used() + SECONDS, max(min(least, MOST), 1)
        while self.unmet is None and time.monotonic() < deadline:
            self.ask(solver, step)
            step *= 2
            if used() > until or step > MOST:
                break
        while self.unmet is not None and self.unmet > (below := self.last_met()) + 1:
            self.ask(solver, (below + self.unmet) // 2)

    def last_met(self) -> int:
        """Returns the last step up to which the constraints are known to be met, or -1."""
        return -1 if self.met is None else self.met

    def ask(self, solver: Solver, step: int) -> None:
        """Decides by a solver whether the constraints can be met up to a step, and has aigcheck
        check the result."""
        question = Question("query", step)
        can_be_met, given = solver.ask(question, self.subject)
        if can_be_met:
            made = Subject(self.checker.transformed("possible", self.subject.file))
            run = Sealed(self.checker.witness(made, question, given))
            self.makes = (MET, made.file)
            claim = Claim(f"b0 at step {step}", ["run", MET, "met"], {MET: made.file, "met": run})
        else:
            claim = self.claim(f"no run of more than {step} steps meets the constraints", "refuted",
                               [str(step), "unmet"], {"unmet": given})
        self.checker.check(claim)
        self.claims["met" if can_be_met else "unmet"] = claim
        self.met, self.unmet = (step, self.unmet) if can_be_met else (self.met, step)

    def is_empty(self) -> bool:
        """Returns whether the constraints can't be met from some step on, so that a proof is
        vacuous."""
        return self.unmet is not None

    def line(self) -> str:
        """Returns the printed line about the constraints."""
        if self.unmet is not None:
            return f"the assumptions can't be met from step {self.unmet} on: the answer is empty"
        if self.met is None:
            return "the assumptions were never seen to be met"
        return f"the assumptions can be met up to step {self.met}"


class Endless(Runs):
    """A loop that meets the constraints and the fairness of a file, or a proof that there is
    none."""

    word = "--endless"
    loop: tuple[int, int] | None = None

    def look(self, solver: Solver, _: int, deadline: float) -> None:
        """Looks for lassos of at most 2, 3, 5 steps and so on, while there is time."""
        until, k = used() + SECONDS, 1
        while not self.claims and k <= MOST and (
                k == 1 or used() < until and time.monotonic() < deadline):
            self.ask(solver, Question("bounded", k))
            k *= 2

    def ask(self, solver: Solver, question: Question) -> None:
        """Looks for a lasso of at most K + 1 steps, or for a proof that there is none at all, and
        has aigcheck check what is found."""
        has_lasso, given = solver.ask(question, self.subject)
        header = header_of(self.subject.file)
        if has_lasso:
            self.take_lasso(question, given)
            return
        # The circuit has a second copy of each latch, and a latch for each fairness literal and for
        # the beginning of the loop.
        latches = 2 * header.latches + header.fairness + 1
        window = Question("window", question.k, ("distinct",))
        if latches * (question.k + 2) ** 2 > PAIRS:
            return
        has_window, step = solver.ask(window, self.subject)
        if not has_window:
            words = ["to", str(question.k), "endless-base", "endless-step", "distinct"]
            claim = self.claim("no run without end meets the constraints and fairness", "safe",
                               words, {"endless-base": given, "endless-step": step})
            self.checker.check(claim)
            self.claims["unmet"] = claim

    def take_lasso(self, question: Question, given: Sealed) -> None:
        """Records the lasso that a solution describes, as a witness of FILE with an additional,
        empty justice property."""
        circuit = self.checker.circuit(self.subject.file, "FILE")
        number, circuit.justice = len(circuit.justice), [*circuit.justice, []]
        circuit.header.count(circuit, circuit.header.counts[0])
        made = Sealed(circuit.text())
        machine = Subject(self.checker.transformed("live", made, number))
        data = self.checker.witness(machine, question, given)
        lasso = lasso_of(data, len(circuit.latches))._replace(bad=number)
        run = Sealed(lasso.text().encode())
        line, self.loop = self.checker.lasso(Subject(made), run)
        files = {LOOPING: made, "endless": run}
        self.claims["met"] = Claim(line, ["run", *files], files)

    def is_empty(self) -> bool:
        """Returns whether no infinite path meets the constraints and the fairness."""
        return "unmet" in self.claims

    def line(self) -> str:
        """Returns the printed line about them."""
        if self.is_empty():
            return "the assumptions can't be met without end: the answer is empty"
        if self.loop is None:
            return "the assumptions were never seen to be met without end"
        return f"the assumptions can be met without end: {span(*self.loop)} again and again"
