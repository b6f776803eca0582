"""Compares which DRAT proofs with RAT steps are taken with a checker of its own.

Writes DRAT proofs for the clauses of test_rat.py that have no solution: what is written there,
without numbers and hints, and blocked clauses beside. So clauses are deleted and added again, spare
variables and new ones get definitions, and a proof of cadical stands behind. Each is checked as
text and in the binary form. Each is mangled, too: another literal comes first, lines are left out,
doubled or swapped, clauses are deleted before. `aigcheck refuted` takes a proof exactly where the
checker here does, which follows the definition step by step: it goes over all clauses until nothing
more is true. The one of tests/support/proof_checker.py says the same.
"""
import collections

import proof_checker
import pytest
import rat_proofs
from hypothesis import given
from mangling import binary_of, lines_of, mangled, text_of
from strategies import cases, choices

# How often a proof is mangled.
MANGLED = 6
# How many clauses are tried that may be blocked.
TRIED = 40
HOLES = [3, 4]


class Live:
    """The clauses that are there, and the literals that follow from clauses which were there
    once."""

    def __init__(self, clauses):
        self.clauses, self.fixed = [tuple(clause) for clause in clauses], set()

    def is_in_conflict(self, literals):
        """Whether unit propagation from true literals ends in a conflict. From none, what is found
        stays true."""
        true, before = self.fixed.union(literals), None
        while true != before and not any(-literal in true for literal in true):
            before = set(true)
            for clause in self.clauses:
                left = {literal for literal in clause if -literal not in true}
                if not left:
                    return True
                if len(left) == 1:
                    true |= left
        if not literals:
            self.fixed = true
        return true != before

    def follows(self, clause):
        return self.is_in_conflict([-literal for literal in clause])

    def has_rat(self, clause):
        """Whether a clause has the RAT property on its first literal. What is fixed is a clause of
        one literal."""
        if not clause or -clause[0] in self.fixed:
            return False
        others = [other for other in self.clauses if -clause[0] in other]
        return all(
            self.follows([*clause, *(literal for literal in other if literal != -clause[0])])
            for other in others
        )

    def delete(self, clause):
        """Deletes a clause of these literals, if there is one, and more than one literal."""
        found = next((other for other in self.clauses if set(other) == set(clause)), ())
        if len(set(clause)) > 1 and found:
            self.clauses.remove(found)


class Steps:
    """A proof's steps: whether each deletes, and its clause."""

    def __init__(self, steps):
        self.steps = steps

    def counts_of(self, formula):
        """Whether they are taken, and how many of them follow, or have the RAT property alone."""
        live, counts = Live(formula.clauses), collections.Counter()
        for before, (deletes, clause) in enumerate(self.steps):
            if live.is_in_conflict([]):
                break
            if not formula.may_name(clause, before):
                return False, counts
            if deletes:
                live.delete(clause)
                continue
            kind = "follow" if live.follows(clause) else "RAT" if live.has_rat(clause) else None
            if kind is None:
                return False, counts
            counts[kind] += 1
            live.clauses.append(tuple(clause))
        return live.is_in_conflict([]), counts


def without_hints(formula, lines):
    """The steps of an LRAT file's lines, without numbers and hints."""
    clauses, steps = dict(enumerate(formula.clauses, 1)), []
    for line in lines:
        if line[1] == "d":
            steps += [(True, clauses.pop(int(word))) for word in line[2:-1]]
            continue
        clause = tuple(map(int, line[1:line.index("0", 1)]))
        clauses[int(line[0])] = clause
        steps.append((False, clause))
    return steps


def blocked(rng, formula, steps):
    """The steps with clauses put in somewhere that have the RAT property there and don't follow."""
    at = rng.randrange(len(steps))
    live = Live(formula.clauses)
    for deletes, clause in steps[:at]:
        if deletes:
            live.delete(clause)
        else:
            live.clauses.append(tuple(clause))
    if live.is_in_conflict([]):
        return steps
    variables, made = sorted({abs(literal) for clause in live.clauses for literal in clause}), []
    for _ in range(TRIED):
        clause = [
            variable * rng.choice([-1, 1]) for variable in rng.sample(variables, rng.randint(2, 4))
        ]
        if not live.follows(clause) and live.has_rat(clause):
            made.append((False, tuple(clause)))
            live.clauses.append(tuple(clause))
    return [*steps[:at], *made, *steps[at:]]


def another_first(rng, steps):
    """The steps with another literal first in a clause that is added."""
    steps = list(steps)
    long = [i for i, (deletes, clause) in enumerate(steps) if not deletes and len(clause) > 1]
    if long:
        i = rng.choice(long)
        place = rng.randrange(1, len(steps[i][1]))
        steps[i] = (False, (steps[i][1][place], *steps[i][1][:place], *steps[i][1][place + 1:]))
    return steps


def deleted_before(rng, formula, steps):
    """The steps with a clause deleted somewhere."""
    at = rng.randrange(len(steps))
    there = [clause for deletes, clause in steps[:at] if not deletes] + formula.clauses
    return [*steps[:at], (True, rng.choice(there)), *steps[at:]]


def spoilt(rng, formula, steps):
    """The steps, changed in some way."""
    change = rng.randrange(3)
    if change == 0:
        return another_first(rng, steps)
    if change == 1:
        return deleted_before(rng, formula, steps)
    lines = [
        line
        for line in mangled(rng, lines_of(steps), 1)
        if line[-1:] == ["0"] and "0" not in line[:-1]
    ]
    return [
        (line[0] == "d", tuple(map(int, line[line[0] == "d":-1])))
        for line in lines
        if line.count("d") == (line[0] == "d")
    ]


class Trial(rat_proofs.Trial):
    """Random clauses without a solution."""

    def compare(self, rng, kind, lines):
        """Compares a proof without hints, with blocked clauses, and mangled, with the checker
        here."""
        steps = without_hints(self.formula, lines)
        more = blocked(rng, self.formula, steps)
        for one in [steps, more]:
            self.compare_steps(f"{kind}, ", Steps(one))
        for _ in range(MANGLED):
            self.compare_steps("mangled, ", Steps(spoilt(rng, self.formula, more)))

    def compare_steps(self, kind, steps):
        taken, counts = steps.counts_of(self.formula)
        self.counts[f"{kind}{'taken' if taken else 'refused'}"] += 1
        self.counts["with RAT steps, taken"] += taken and counts["RAT"] > 0
        self.counts["RAT steps"] += counts["RAT"]
        for data in [text_of(lines_of(steps.steps)).encode(), binary_of(steps.steps)]:
            self.compare_bytes(data, taken)

    def compare_bytes(self, data, taken):
        if proof_checker.is_taken(self.formula, data) != taken:
            self.fail(f"the checkers here differ, and this one says {taken}:\n{data}")
        if self.is_taken(data) != taken:
            self.fail(f"a proof is {'refused' if taken else 'taken'}:\n{data}")


class Pigeons(rat_proofs.Pigeons):
    """One pigeon more than holes, by definitions."""

    compare, compare_steps, compare_bytes = Trial.compare, Trial.compare_steps, Trial.compare_bytes


@pytest.mark.cadical
@cases(6, 300)
@given(rng=choices())
def test_random_clauses(folder, checks, rng):
    """Proofs of random clauses, also mangled, are taken where the checker here takes them."""
    checks.passed += sum(Trial(rng, folder).run().counts.values())


@pytest.mark.cadical
@pytest.mark.parametrize("holes", HOLES)
def test_pigeonholes(folder, checks, holes):
    """Refutations by definitions, also mangled, are taken where the checker here takes them."""
    checks.passed += sum(Pigeons(holes, folder).run().counts.values())
