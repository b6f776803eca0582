"""Compares bounded checks of small machines with a search over all states.

Asks of random machines, with constraints, resets of all three kinds and several bad states, whether
a bad state is reached up to a step K from 0 to 12, by one question: `aigcheck bounded`, cadical,
and `aigcheck refuted FILE to K` or `witness FILE to K`, whose witness `aigcheck run` takes. Asked
about one step after the other, as by aigprove, cadical says the same, and nearly always finds the
first step first. Where the clauses are that the constant is false, and that it is true, an empty
proof and one that can't be read are taken, too: none is read. The file of `aigedit question` has an
output that can be true exactly where the search finds one. Where a bad state is reached, mangled
proofs are refused. Where none is, `aigcheck window` is asked, too: by cadical's proofs of both
`aigcheck safe` says that no step is bad, and by neither of them for both, nor by that of a window
where the first is refused; and the same by cadical's proofs of each step.
"""
from __future__ import annotations

import itertools
import random
from pathlib import Path
from typing import Any

import harness
import pytest
from aiger import machine_of
from harness import CHECK, EDIT, output
from hypothesis import given
from machines import deep_machine, random_machine
from strategies import cases, choices
from trials import Files

from aigprove.questions.solver import ASSUMING, in_turn

LAST = 12
# How many inputs a question may have of which all values are tried.
FEW = 10
# The clauses that the constant is false, and that it is true.
FALSE = b"\np cnf 1 2\n-1 0\n1 0\n"


class Trial(Files):
    """A random machine, and a step up to which it is asked."""

    def __init__(self, rng: random.Random, folder: Path) -> None:
        super().__init__(folder, rng)
        self.machine = self.rng.choice([random_machine, deep_machine])(self.rng)
        self.first, self.step = self.machine.first_bad(), self.rng.randint(0, LAST)
        self.file = self.put("made.aag", self.machine.text())
        self.is_reached = self.first is not None and self.first <= self.step
        self.setting = self.rng.choice([[], ["raw"]])

    def fail(self, why: Any) -> None:
        """Ends with the machine that shows a fault."""
        super().fail(
            f"{why}; up to step {self.step}; a search finds a bad state at step {self.first}"
        )

    def refutes(self, proof: str) -> bool:
        """Whether aigcheck takes a proof that no bad state is reached."""
        return self.takes(
            f"no bad state up to step {self.step}", "refuted", self.file, "to", str(self.step),
            proof, *self.setting,
        )

    def run(self) -> Trial:
        """Asks, and compares the answer."""
        status, clauses, said = harness.run(
            [CHECK, "bounded", self.file, str(self.step), *self.setting]
        )
        if status != 0 or harness.alone(said):
            self.fail(f"bounded: {said}")
        if clauses.endswith(FALSE):
            self.compare_unread()
        self.compare_asked(clauses)
        self.compare_question()
        return self

    def compare_unread(self) -> None:
        """Looks that no proof is read of clauses that contradict each other."""
        self.counts["by no proof"] += 1
        if not all(self.refutes(self.put("unread", text)) for text in ["", "no proof"]):
            self.fail("a proof is read")

    def compare_asked(self, clauses: bytes) -> None:
        """Compares a solver's answer."""
        path, proof = self.put("clauses.cnf", clauses), str(self.folder / "proof")
        status, printed, _ = harness.run(["cadical", "-q", "--no-binary", path, proof])
        if status == (20 if self.is_reached else 10):
            self.fail(f"cadical: {printed}")
        if status == 10:
            self.compare_witness(self.put("solution", printed))
            self.refuse_mangled()
        elif not self.refutes(proof):
            self.fail(f"a proof is refused: {Path(proof).read_text()}")
        else:
            self.counts["refuted"] += 1
            self.compare_safe(proof)
        self.compare_turns(clauses)

    def compare_turns(self, clauses: bytes) -> None:
        """Compares the answer about one step after the other."""
        asked = b"".join(in_turn(clauses))
        path, proof = self.put("clauses.icnf", asked), str(self.folder / "turns")
        status, printed, _ = harness.run(["cadical", "-q", "--no-binary", ASSUMING, path, proof])
        self.counts["assumptions in turn"] += asked.count(b"\na ")
        if status != (10 if self.is_reached else 20):
            self.fail(f"in turn: {printed}")
        if not self.is_reached and not self.refutes(proof):
            self.fail(f"a proof in turn is refused: {Path(proof).read_text()}")
        if self.is_reached:
            step = self.witnessed(self.put("turned", printed))
            self.counts["reached in turn, not at the first step"] += step != self.first
            if not self.first <= step <= self.step:
                self.fail(f"in turn a witness ends at step {step}")

    def compare_safe(self, base: str) -> None:
        """Asks for a window, and what both proofs show."""
        form = self.rng.choice([[], ["distinct"]])
        words = [self.file, str(self.step), *form, *self.setting]
        path, step = self.put("window.cnf", output([CHECK, "window", *words])), str(
            self.folder / "step"
        )
        status, _, _ = harness.run(["cadical", "-q", "--no-binary", path, step])
        shown = self.is_safe(base, step, *form)
        if shown != (status == 20) or shown and self.first is not None:
            self.fail(f"safe {form}: {shown}, and cadical ends with {status}")
        if self.first is not None and self.is_safe(base, base, *form):
            self.fail(f"safe {form}: by one proof for both")
        bases = [self.proof_at(n) for n in range(self.step + 1)]
        if self.is_safe_by(["each", str(self.step), *bases], step, *form) != shown:
            self.fail(f"safe {form} by each step: not {shown}")
        self.counts["safe" if shown else "no window"] += 1

    def proof_at(self, step: int) -> str:
        """cadical's proof that no bad state is reached at a step."""
        asked = output([CHECK, "clauses", self.file, str(step), *self.setting])
        path, proof = self.put(f"clauses_{step}.cnf", asked), str(self.folder / f"proof_{step}")
        status, _, _ = harness.run(["cadical", "-q", "--no-binary", path, proof])
        if status != 20:
            self.fail(f"step {step}: cadical ends with {status}")
        return proof

    def is_safe(self, base: str, step: str, *form: str) -> bool:
        """Whether aigcheck takes proofs that no bad state is reached at any step."""
        return self.is_safe_by(["to", str(self.step), base], step, *form)

    def is_safe_by(self, bases: list[str], step: str, *form: str) -> bool:
        """The same by proofs of the first steps as the words say."""
        return self.takes(
            "no bad state at any step", "safe", self.file, *bases, step, *form, *self.setting
        )

    def compare_witness(self, solution: Any) -> None:
        """Compares the witness of a solution."""
        step = self.witnessed(solution)
        self.counts["reached"] += 1
        self.counts["reached at the first step"] += step == self.first
        if not self.first <= step <= self.step:
            self.fail(f"a witness ends at step {step}")

    def witnessed(self, solution: Any) -> Any:
        """The last step of the witness of a solution."""
        witness = output(
            [CHECK, "witness", self.file, "to", str(self.step), solution, *self.setting]
        )
        step = int(output([CHECK, "run", self.file, self.put("witness", witness)]).split()[-1])
        if len(witness.splitlines()) != step + 5:
            self.fail(f"a witness: {witness}")
        return step

    def refuse_mangled(self) -> None:
        """Looks that proofs of other clauses are refused where a bad state is reached."""
        for lines in [
            ["0"],
            ["1 0", "0"],
            [f"{self.rng.randint(1, 9)} 0", f"-{self.rng.randint(1, 9)} 0", "0"],
        ]:
            self.counts["mangled, refused"] += 1
            if self.refutes(self.put("mangled", "".join(line + "\n" for line in lines))):
                self.fail(f"a proof is taken: {lines}")

    def compare_question(self) -> None:
        """Tries all values of the inputs of the question as a file."""
        made = machine_of(output([EDIT, "question", self.file, str(self.step)]))
        if made.latches or len(made.outputs) != 1 or made.bads or made.constraints:
            self.fail(f"a question has {made}")
        if len(made.inputs) > FEW:
            return
        self.counts["tried by all values"] += 1
        values = (
            made.values([], bits)
            for bits in itertools.product([False, True], repeat=len(made.inputs))
        )
        if any(given[made.outputs[0]] for given in values) != self.is_reached:
            self.fail(f"a question's output: {made}")


@pytest.mark.cadical
@cases(110, 1000)
@given(rng=choices())
def test_bounded(folder: Path, checks: harness.Checks, rng: random.Random) -> None:
    """Aigcheck, cadical and a search agree on a random machine."""
    checks.passed += sum(Trial(rng, folder).run().counts.values())
