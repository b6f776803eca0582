"""Compares which proofs are taken with the checker of tests/support/proof_checker.py.

cadical proves, by settings of all kinds, that random machines reach no bad state at a step: as
text, in its binary form, and with hints, which a search by unit propagation here finds (LRAT), as
text and in the binary form that cadical has for them from 1.7.4 on, which is written here, behind
the word `lrat` and without. `aigcheck refuted` takes each, those without the word where their first
bytes tell. Each is mangled, too, and aigcheck takes what comes of it exactly where the checker here
does.
"""
from pathlib import Path

import harness
import pytest
from harness import CHECK, output
from hypothesis import given
from machines import machine_of_clauses, random_clauses, random_machine
from mangling import binary_of_lines, damaged_bytes, mangled, text_of
from proof_checker import PIECES, WORD, Clauses, Formula, is_taken, numbered
from strategies import cases, choices
from trials import Files

# How often a proof is mangled.
MANGLED = 2
SETTINGS = [
    [],
    ["--plain"],
    ["--unsat"],
    ["--sat"],
    ["--no-elim"],
    ["--no-probe"],
    ["--decompose=0"],
    ["--reduceint=10"],
    ["--seed=7"],
]


class Trial(Files):
    """A random machine, a step at which it is safe, and proofs of that."""

    def __init__(self, rng, folder):
        super().__init__(folder, rng)
        while True:
            of_clauses = self.rng.random() < 0.5
            machine = (
                machine_of_clauses(*random_clauses(self.rng))
                if of_clauses
                else random_machine(self.rng)
            )
            self.step = 0 if of_clauses else self.rng.randint(0, 4)
            self.file = self.put("made.aag", machine.text())
            clauses = output([CHECK, "clauses", self.file, str(self.step)])
            self.formula, self.clauses = Formula(clauses), self.put("clauses.cnf", clauses)
            # Of those that unit propagation refutes alone few are kept.
            self.setting = self.rng.choice(SETTINGS)
            self.text = self.proof("--no-binary")
            if self.text is None:
                continue
            if Clauses(self.formula.clauses).propagate([]) is None or self.rng.random() < 0.05:
                return

    def proof(self, form):
        """The bytes of a proof that the clauses have no solution; None where they have one."""
        path = str(self.folder / "proof")
        if harness.run(["cadical", "-q", form, *self.setting, self.clauses, path])[0] != 20:
            return None
        return Path(path).read_bytes()

    def is_taken(self, path):
        return self.takes(
            f"no bad state at step {self.step}", "refuted", self.file, str(self.step), path
        )

    def compare(self, kind, proof, mangle):
        """Compares a proof and what is mangled of it with the checker here."""
        self.counts[kind] += 1
        if not self.is_taken(self.put("proof", proof)):
            self.fail(f"a proof of {kind} is refused:\n{proof}")
        for _ in range(MANGLED):
            self.compare_mangled(kind, mangle())

    def compare_mangled(self, kind, proof):
        taken = is_taken(self.formula, proof)
        self.counts[f"{kind} mangled, {'taken' if taken else 'refused'}"] += 1
        if self.is_taken(self.put("mangled", proof)) != taken:
            self.fail(f"a mangled proof of {kind} is {'refused' if taken else 'taken'}:\n{proof}")

    def compare_lines(self, kind, lines):
        self.compare(
            kind, text_of(lines).encode(),
            lambda: text_of(mangled(self.rng, lines, self.rng.randint(1, 3))).encode(),
        )

    def compare_binary(self, data):
        """Compares a binary proof with numbers, behind the word for it and without, and what is
        mangled of both."""
        self.compare(
            "binary hints", WORD + data, lambda: WORD + damaged_bytes(self.rng, data, PIECES)
        )
        self.compare_mangled("binary hints without the word,", data)
        self.compare_mangled(
            "binary hints without the word,", damaged_bytes(self.rng, data, PIECES)
        )

    def run(self):
        """Compares all proofs of this machine."""
        lines = [line.split() for line in self.text.decode().splitlines()]
        self.compare_lines("cadical", lines)
        if self.formula.is_in_conflict():
            self.counts["in conflict at once"] += 1
            return self
        hints = numbered(self.formula, lines)
        self.compare_lines("hints", hints)
        self.compare_binary(binary_of_lines(hints))
        binary = self.proof("--binary")
        self.compare("binary", binary, lambda: damaged_bytes(self.rng, binary, PIECES))
        return self


@pytest.mark.cadical
@cases(55, 350)
@given(rng=choices())
def test_proofs(folder, checks, rng):
    """aigcheck takes the proofs of a random machine, and mangled ones where the checker here
    does."""
    checks.passed += sum(Trial(rng, folder).run().counts.values())
