"""Compares what aigcheck says of witness circuits with the conditions of a certificate.

A certificate of the hardware model checking competition is a witness circuit that meets five
conditions: reset, transition, property, base and step. For safe designs of tests/designs some are
made here: of an invariant of ABC's pdr, and of the states before, which latches of its own keep;
with its leaves in the model's order, and in another with names that say for which they stand; and
with an input and latches more that are its own. Resets of own latches are functions, too. cadical
refutes what `aigcheck obligations` prints for each condition, and by these proofs `aigcheck
certified` takes it. It takes none whose own latches' resets go round in a circle.

Small random machines, with constraints, resets of all three kinds and several bad states, whose
variables may have gaps and gates below leaves, have witness circuits that are right by
construction, most often, and then mangled: a gate, a reset, a next value, a bad literal or a
constraint is another, a latch becomes an input, leaves change places or names. Resets of these are
functions, too. A search over all values of both circuits' leaves says from the definitions which
conditions hold, which leaves are shared, and whether resets go round in a circle. What is printed
for a condition has a solution exactly where it doesn't hold. By cadical's proofs a certificate is
taken exactly where all five hold; else it is refused by the first that doesn't, with the proof of
another. aigprove says the same, or takes more: an invariant whose steps aren't the model's.
"""
import dataclasses

import pytest
from certified import CIRCULAR, Claims, Design, safe_designs
from claims import MANGLES, Search, Untold, greatest, random_claim
from hypothesis import given
from strategies import cases, choices


class Trial(Claims):
    """A random machine, and a witness circuit."""

    def __init__(self, rng, folder):
        super().__init__(folder, rng)
        self.model, self.witness, is_right = random_claim(self.rng)
        self.is_safe = self.model.first_bad() is None
        self.file, self.setting = self.put("model.aag", self.text()), self.rng.choice([[], ["raw"]])
        search = Search(self.model, self.witness)
        if is_right and not search.goes_round() and search.broken():
            self.pair(self.witness)
            self.fail(f"right by construction, and a search finds broken {search.broken()}")

    def text(self):
        """The text of the model, whose gates may stand in any order."""
        gates = list(self.model.gates)
        if self.rng.random() < 0.5:
            self.rng.shuffle(gates)
        return dataclasses.replace(self.model, gates=gates).text(most=greatest(self.model))

    def run(self):
        for _ in range(self.rng.choice([0, 1, 1, 2])):
            self.witness = self.rng.choice(MANGLES)(self.rng, self.witness)
        try:
            search = Search(self.model, self.witness)
        except Untold as error:
            why, leaf = error.args
            self.refuse(f"node {leaf // 2}: {why}", self.pair(self.witness), self.setting)
            self.counts["refused by a name"] += 1
        else:
            self.compare_found(search)
        return self

    def compare_found(self, search):
        """Compares what is said with what a search finds."""
        if search.goes_round():
            self.refuse(CIRCULAR, self.pair(self.witness), self.setting)
            self.counts["refused by a circle"] += 1
        else:
            self.compare_all(search.broken())

    def compare_all(self, broken):
        """Compares what is said with the conditions that don't hold."""
        pair = self.pair(self.witness)
        if not broken and not self.is_safe:
            self.fail(
                f"all conditions hold, and a bad state is reached at step {self.model.first_bad()}"
            )
        self.compare(pair, broken, self.setting)
        self.compare_proved(pair, broken)


@pytest.mark.cadical
@pytest.mark.abc
@pytest.mark.parametrize("name", safe_designs("safe"))
def test_design(folder, checks, name):
    """Witness circuits of a safe design are taken."""
    checks.passed += sum(Design(name, folder).run().counts.values())


@pytest.mark.cadical
@cases(6, 300)
@given(rng=choices())
def test_random_claim(folder, checks, rng):
    """A random witness circuit is taken where all conditions hold."""
    checks.passed += sum(Trial(rng, folder).run().counts.values())
