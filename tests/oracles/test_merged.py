"""Checks what certificates of two files are made and asked by, apart from any program.

Random questions about a few gates, some of the same operands, of which some pairs are said to be
equal. What the proof begins with follows clause by clause by unit propagation, which then finds all
that it finds by the clauses that cadical is asked about instead; and these have a solution with one
of the literals that are assumed exactly if the question has one, as a search over all values says.

Random circuits, with classes of nodes that have the same values in some of all states and inputs,
or in all: wherever the pairs are equal that a certificate keeps, the pairs that it leaves out
are."""
from __future__ import annotations

import functools
import random
import types

from harness import Checks
from hypothesis import given
from strategies import cases, choices

from aigprove.equality.merged_nodes import Pairs
from aigprove.equality.merging import Merging
from aigprove.equality.nodes import Nodes

# How many inputs and gates a question has, and leaves and gates a circuit.
INPUTS, GATES, LEAVES, NODES = 4, 8, 7, 12


def every(count: int) -> int:
    """The bits of all values of so many variables."""
    return (1 << (1 << count)) - 1


@functools.cache
def values(count: int) -> list[int]:
    """By variable from 1 on, the bits that say where it is true."""
    return [0, *(every(count) // ((1 << (1 << i)) + 1) << (1 << i) for i in range(count))]


def solutions(clauses: list[list[int]], count: int) -> int:
    """The bits of the values of variables by which all clauses are true."""
    known, found = values(count), every(count)
    for clause in clauses:
        true = 0
        for it in clause:
            true |= known[it] if it > 0 else every(count) ^ known[-it]
        found &= true
    return found


def is_found(clauses: list[list[int]], wanted: int | None, literals: list[int]) -> bool:
    """Whether unit propagation finds a literal, or a conflict, where these are true."""
    true, size = set(literals), None
    while size != (size := len(true)):
        for clause in clauses:
            left = [it for it in set(clause) if -it not in true]
            if not left:
                return True
            if len(left) == 1:
                true.add(left[0])
    return wanted in true or any(-it in true for it in true)


def follows(clauses: list[list[int]], lemma: list[int]) -> bool:
    """Whether unit propagation finds a conflict where a clause is false."""
    return is_found(clauses, None, [-it for it in lemma])


def propagates(clauses: list[list[int]], clause: list[int]) -> bool:
    """Whether unit propagation finds each literal of a clause where all others are false, as it
    would with the clause."""
    return all(is_found(clauses, it, [-other for other in clause if other != it]) for it in clause)


def clauses_in(text: bytes) -> list[list[int]]:
    """The clauses of a text, line by line."""
    return [[int(word) for word in line.split()[:-1]] for line in text.decode().splitlines()]


class Question:
    """The clauses of random gates, of units, and the last one."""

    def __init__(self, rng: random.Random) -> None:
        self.rng, self.gates, self.units, self.twins = rng, [], [-1], {}
        self.count = 1 + rng.randint(1, INPUTS)
        for _ in range(rng.randint(1, GATES)):
            (
                self.repeat()
                if self.gates and rng.random() < 0.5
                else self.add(self.literal(), self.literal())
            )
        for _ in range(rng.randint(0, 2)):
            self.unite(self.literal(), self.literal())
        self.units += [self.literal()] * (rng.random() < 0.3)
        self.last = [self.literal() for _ in range(rng.randint(1, 3))]

    def literal(self) -> int:
        """A literal, often of one of the last gates."""
        least = max(1, self.count - 3) if self.rng.random() < 0.5 else 1
        return self.rng.randint(least, self.count) * self.rng.choice([1, -1])

    def repeat(self) -> None:
        """Adds a gate that has the operands of another, or what repeats these."""
        gate, *operands = self.rng.choice(self.gates)
        self.twins[gate] = self.add(
            *(self.twins.get(abs(it), abs(it)) * (1 if it > 0 else -1) for it in operands)
        )

    def add(self, left: int, right: int) -> int:
        self.count += 1
        self.gates.append((self.count, left, right))
        return self.count

    def unite(self, left: int, right: int) -> None:
        """Says, as a rule, that both are equal, as a certificate does."""
        ways = [self.add(left, -right), self.add(-left, right)]
        self.units += [-way for way in ways if self.rng.random() < 0.9]

    def clauses(self) -> list[list[int]]:
        """All but the last one."""
        gates = (clause for v, x, y in self.gates for clause in [[-v, x], [-v, y], [v, -x, -y]])
        first, *units = ([it] for it in self.units)
        return [first, *gates, *units]

    def text(self) -> str:
        clauses = [*self.clauses(), self.last]
        return f"p cnf {self.count} {len(clauses)}\n" + "".join(
            f"{' '.join(map(str, clause))} 0\n" for clause in clauses
        )


def check_question(question: Question, checks: Checks) -> None:
    """What is merged of a question."""
    text, clauses = question.text(), question.clauses()
    merging = Merging(text.encode())
    for lemma in clauses_in(merging.proof()):
        checks.check(follows(clauses, lemma), f"{lemma} doesn't follow: {text}")
        clauses.append(lemma)
    lines = b"".join(merging.asked()).split(b"\n")[1:]
    asked = clauses_in(b"\n".join(line for line in lines if not line.startswith(b"a")))
    assumed = [int(line.split()[1]) for line in lines if line.startswith(b"a")]
    checks.check(
        all(propagates(clauses, clause) for clause in asked),
        f"other clauses are asked about: {text}",
    )
    found = any(solutions([*asked, [it]], question.count) for it in assumed)
    checks.check(
        found == bool(solutions([*question.clauses(), question.last], question.count)),
        f"{found}: {text}",
    )


def random_nodes(rng: random.Random) -> Nodes:
    """The nodes of a random circuit, and perhaps of next steps."""
    inputs = rng.randint(0, LEAVES // 2)
    leaves = list(range(2, 2 * rng.randint(inputs + 1, LEAVES) + 2, 2))
    literals, made = [0, *leaves], types.SimpleNamespace(
        inputs=leaves[:inputs], latches=leaves[inputs:], gates=[], constraints=[]
    )

    def literal() -> int:
        return rng.choice(literals) ^ rng.getrandbits(1)

    for gate in range(leaves[-1] + 2, leaves[-1] + 2 * rng.randint(1, NODES) + 2, 2):
        made.gates.append((gate, literal(), literal()))
        literals.append(gate)
    made.nexts, made.resets, made.bads = (
        [literal() for _ in made.latches],
        [0] * len(made.latches),
        [literal()],
    )
    nodes = Nodes(made)
    nodes.look_ahead(rng.randint(0, 2))
    return nodes


def check_pairs(nodes: Nodes, rng: random.Random, checks: Checks) -> None:
    """What is kept of pairs of nodes that are equal where some bits are."""
    count = len(nodes.leaves())
    known, classes = nodes.values(values(count)[1:], every(count)), {}
    seen = rng.choice([every(count), rng.getrandbits(1 << count)])
    for node in nodes.all():
        side = known[node] & seen & -seen != 0
        classes.setdefault((known[node] ^ every(count) * side) & seen, []).append(node ^ side)
    pairs = sorted(
        ((first, other) for first, *others in classes.values() for other in others),
        key=lambda pair: pair[1] >> 1,
    )
    kept, equal = Pairs(nodes, pairs).needed(), every(count)
    for left, right in kept:
        equal &= every(count) ^ known[left] ^ known[right]
    checks.check(set(kept) <= set(pairs), f"{kept} of {pairs}")
    checks.check(
        not any((known[left] ^ known[right]) & equal for left, right in pairs),
        f"{kept} of {pairs}: {nodes.gates.rows}",
    )


@cases(500)
@given(rng=choices())
def test_questions(checks: Checks, rng: random.Random) -> None:
    """What is merged of a random question follows, and finds what the question has."""
    check_question(Question(rng), checks)


@cases(500)
@given(rng=choices())
def test_pairs(checks: Checks, rng: random.Random) -> None:
    """The pairs that a certificate leaves out follow from those that it keeps."""
    check_pairs(random_nodes(rng), rng, checks)
