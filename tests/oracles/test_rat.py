"""Compares which proofs with RAT steps are taken with the checker of
tests/support/proof_checker.py.

Writes LRAT proofs for random clauses that have no solution, with steps by resolution asymmetry:
clauses are deleted and added again, blocked ones are added, spare variables and new ones get
definitions, and what cadical proves of all these clauses stands behind. Pigeonholes of 3 to 12
holes are refuted by extended resolution (Cook, 1976), whose variables are new, along hints that are
all needed, while those for random clauses are as propagation finds them. `aigcheck refuted` takes
each, as text and in the binary form, behind the word for it and without where the first bytes tell.
Each is mangled four times, too: hints for a clause are left out, or one of them, or some come
behind its number once more, another literal comes first, a clause that they are for is deleted
before, a number is skipped, a new variable goes up to the last number that may be named, or past
it; and bytes of the binary form are changed. aigcheck takes what comes of it exactly where that
checker does, which was written from the forms' descriptions and knows nothing of the library.
"""
import pytest
from hypothesis import given
from rat_proofs import HOLES, Pigeons, Trial
from strategies import cases, choices


@pytest.mark.cadical
@cases(6, 500)
@given(rng=choices())
def test_random_clauses(folder, checks, rng):
    """Proofs of random clauses are taken, and mangled ones where the checker here takes them."""
    checks.passed += sum(Trial(rng, folder).run().counts.values())


@pytest.mark.cadical
@pytest.mark.parametrize("holes", HOLES)
def test_pigeonholes(folder, checks, holes):
    """Refutations by extended resolution are taken, and mangled ones where the checker here takes
    them."""
    checks.passed += sum(Pigeons(holes, folder).run().counts.values())
