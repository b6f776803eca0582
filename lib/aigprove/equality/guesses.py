"""Guesses which latches and other nodes of a miter are always equal, or each other's inverse, by
names and random simulation, and prints a certificate that says so.

This is a program of its own. aigcheck checks the certificate."""
import copy
import gc
import itertools
import json
import os
import random
import sys
from collections.abc import Iterable, Iterator, Mapping, Sequence
from typing import Any

from aigprove.circuits.aiger import Circuit, Fault, Lines, text_form
from aigprove.circuits.gates import Gates
from aigprove.equality.incremental import IncrementalQueries, Pair
from aigprove.equality.merged_nodes import MergedNodes, Pairs, ordered
from aigprove.equality.nodes import Classes, Different, Nodes
from aigprove.processes.scheduler import Scheduler, Scope
from aigprove.questions.solver import Undecided

# The prefix that aigedit gives to the names of the second file's latches.
OTHER = b"other."
# The limits of quick calls of cadical: LEAST seconds, and one more for QUICK gates; and FEW
# conflicts, unless there are more than MANY gates, because in these the search for equal inner
# nodes takes long as well.
LEAST, QUICK, FEW, MANY = 1, 1000, 300, 20000
# The numbers of further steps whose nodes are included, one after the other.
AHEAD = [2, 6]


def partners(circuit: Circuit, count: int, others: int,
             equal_starts: Mapping[int, int]) -> dict[int, int | None]:
    """Returns the latch of the second file for each latch of the first, by positions; None if it
    has none.

    `count` and `others` are the files' numbers of latches. The partner has an equal initial value
    (`equal_starts`), the same name, or the same position."""
    names = {circuit.names.get(("l", i)): i for i in range(len(circuit.latches))}
    named = {i: names.get(OTHER + circuit.names[("l", i)])
             for i in range(count) if ("l", i) in circuit.names}
    starting = {partner: place for place, partner in equal_starts.items()}
    return {i: starting.get(i) or named.get(i) or (i + count if others == count else None)
            for i in range(count)}


def paired(classes: Classes, other: Mapping[int, int]) -> Classes:
    """Returns classes in which partners form classes of two, separate from all other members.
    `other` is each literal's partner."""
    made = copy.copy(classes)
    made.rows = []
    for own in classes.rows:
        sides = {it & ~1: it for it in own}
        pairs = [[it, sides[other[it & ~1]]] for it in own if other.get(it & ~1) in sides]
        taken = {it for pair in pairs for it in pair}
        left = [it for it in own if it not in taken]
        made.rows += pairs + [left] * (len(left) > 1)
    return made


class States:
    """Classes of latches that are to be inductive."""

    def __init__(self, classes: Classes, solver: IncrementalQueries) -> None:
        self.classes, self.nodes, self.solver = classes, classes.nodes, solver

    def pairs(self) -> list[Pair]:
        """Returns the pairs of equal latches, once the solver finds them inductive, and no bad
        state in the states where they are equal.

        Raises Different if a bad state is found."""
        found = None
        while found is None:
            self.classes.settle()
            found = self.kept()
        return found

    def kept(self) -> list[Pair] | None:
        """Returns the pairs if they are inductive, and None after splitting a class."""
        classes, size, states = self.classes, self.classes.size(), self.classes.pairs()
        nodes, _ = self.nodes.merged(classes.merged(self.nodes.leaves(), 1))
        facts = [(literal, 1) for literal in nodes.constraints]
        asked = [(nodes.next(left), nodes.next(right))
                 for left, right in states] + [(bad, 0) for bad in nodes.bads]
        while classes.size() == size:
            count = len(nodes.gates.rows)
            limits = ["-t", str(LEAST + count // QUICK), *["-c", str(FEW)] * (count <= MANY)]
            found = self.solver.differing(nodes.gates, facts, asked, limits)
            if found is None:
                return states
            self.divide(nodes, found[1])
        return None

    def divide(self, nodes: Nodes, true: set[int]) -> None:
        """Splits the classes that a solution and random variations of it prove to be different."""
        classes, size = self.classes, self.classes.size()
        own = Classes(nodes, classes.rng, classes.every)
        known = nodes.values(own.beside([literal >> 1 in true for literal in nodes.leaves()]),
                             own.every)
        runs, state = own.check(known, own.every), nodes.following(known)
        classes.step(state, runs)
        if classes.size() < size:
            classes.follow([*classes.drawn(nodes.inputs), *state], runs)
        if classes.size() == size:
            raise Fault.of("false_solution")


class Steps:
    """Classes of nodes that are to be equal in initial states, and inductive."""

    def __init__(self, classes: Classes, solver: IncrementalQueries) -> None:
        self.classes, self.nodes, self.solver = classes, classes.nodes, solver

    def pairs(self) -> list[Pair]:
        """Returns the pairs of equal nodes, once the solver finds them equal in initial states, and
        inductive.

        Raises Different if a bad state is found."""
        size = None
        self.settle()
        while size != self.classes.size():
            size = self.classes.size()
            self.keep_first()
            self.keep_next()
        return self.classes.pairs()

    def keep_first(self) -> None:
        """Splits classes until their members are equal in all initial states."""
        nodes, classes = self.nodes, self.classes
        while True:
            gates = Gates(nodes.latches.stop)
            state = nodes.first(nodes.latches, 1)
            _, apart = MergedNodes(classes, self.order).literals([*nodes.inputs, *state], gates, {})
            facts = [(literal, 1) for literal in self.constraints([*nodes.inputs, *state], gates)]
            found = self.solver.differing(gates, facts, [pair for _, pair in apart])
            if found is None:
                return
            values = classes.beside([literal >> 1 in found[1] for literal in nodes.leaves()])
            state = nodes.first(values[len(nodes.inputs):], classes.every)
            self.follow([*values[:len(nodes.inputs)], *state], classes.every)

    def constraints(self, leaves: Sequence[int], gates: Gates) -> list[int]:
        """Returns the literals of the constraints, given the literals of inputs and latches,
        without assuming that members of classes are equal."""
        return self.nodes.allowing(self.nodes.literals(leaves,
                                                       gates)) if self.nodes.constraints else []

    def keep_next(self) -> None:
        """Splits classes until the solver finds each pair inductive.

        A pair may have been found inductive while other classes were larger than at the end."""
        nodes, classes, proved = self.nodes, self.classes, set[tuple[int, int]]()
        inputs = range(nodes.latches.stop, nodes.latches.stop + 2 * len(nodes.inputs), 2)
        while True:
            united, gates = MergedNodes(classes, self.order), Gates(inputs.stop)
            merged: dict[int, int] = {}
            now, equal = united.literals(nodes.leaves(), gates, merged)
            leaves = [*inputs, *nodes.following(now)]
            _, apart = united.literals(leaves, gates, merged)
            asked = [it for it in apart if it[0] not in proved]
            facts = [(literal, 1)
                     for literal in [*nodes.allowing(now), *self.constraints(leaves, gates)]]
            found = self.solver.differing(gates, facts + [pair for _, pair in equal],
                                          [pair for _, pair in asked])
            if found is None:
                return
            proved.update(names for names, _ in asked[: found[0]])
            self.divide(united, found[1])

    def divide(self, united: MergedNodes, true: set[int]) -> None:
        """Splits the classes that a solution and random variations of it prove to be different in
        the next step."""
        count = len(self.nodes.leaves())
        values = self.classes.beside([number in true
                                      for number in range(1, count + len(self.nodes.inputs) + 1)])
        state, runs = self.after(united, values[:count])
        self.follow([*values[count:], *state], runs)

    def after(self, united: MergedNodes, leaves: Sequence[int]) -> tuple[list[int], int]:
        """Returns the values of latches in the next step, and the runs in which members of classes
        are equal before it."""
        known = self.nodes.values(united.leaves(leaves, self.classes.every), self.classes.every)
        return self.nodes.following(known), self.nodes.allowed(known, self.classes.equal(known))

    def settle(self) -> None:
        """Splits classes by steps from random states in which members are equal, until none is
        split."""
        classes, size = self.classes, None
        while size != (size := classes.size()):
            self.order = ordered(classes)
            state, runs = self.after(MergedNodes(classes, self.order),
                                     classes.drawn(self.nodes.leaves()))
            if runs:
                classes.follow([*classes.drawn(self.nodes.inputs), *classes.spread(state, runs)],
                               classes.every)

    def follow(self, leaves: Sequence[int], runs: int) -> None:
        """Splits classes by runs that begin with these inputs and latches. Raises Fault if none is
        split."""
        size = self.classes.size()
        self.classes.follow(leaves, runs)
        if self.classes.size() == size:
            raise Fault.of("false_solution")


def certificate(nodes: Nodes, pairs: list[Pair]) -> bytes:
    """Returns the text of a certificate, whose bad states are those in which a pair differs.

    It has only the gates that pairs read. Pairs of gates below others come first in its proof
    obligations, whose last literals are asked about first."""
    pairs, gates = Pairs(nodes, pairs).needed(), Gates(nodes.gates.next)
    read = nodes.cone(itertools.chain.from_iterable(pairs))
    gates.rows = [row for row in nodes.gates.rows if row[0] in read]
    ways = [gates.both(*way)
            for left, right in pairs for way in [(left, right ^ 1), (left ^ 1, right)]]
    bads = [bad for bad in reversed(ways) if bad] or [0]
    states = [(latch, latch, reset if reset < 2 else latch)
              for latch, reset in zip(nodes.latches, nodes.resets)]
    counts = [(gates.next >> 1) - 1, len(nodes.inputs), len(states), 0, len(gates.rows), len(bads)]
    return text_form(counts, [*nodes.inputs, *states, *bads, *gates.rows])


# Classes of nodes that may be equal.
Guess = States | Steps


class Guesses:
    """Guesses what is always equal in a miter: classes of nodes, first of latches only, which are
    split until they are inductive.

    `equal_starts` has the latches with equal initial values, and `given` the further arguments,
    such as the two files' numbers of latches."""

    def __init__(self, circuit: Circuit, equal_starts: Mapping[int, int],
                 solver: IncrementalQueries, given: dict[str, Any]) -> None:
        self.circuit, self.equal_starts = circuit, equal_starts
        self.solver, self.given = solver, given
        self.counts: tuple[int, int] = (given["counts"][0], given["counts"][1])
        # Whether the solver exceeded its limits.
        self.is_hard = False

    def certificate(self) -> bytes | None:
        """Returns the certificate of the first guess that is inductive, or None."""
        try:
            for guess in self.guesses():
                if (pairs := self.kept(guess)) is not None:
                    return certificate(guess.nodes, pairs)
        except Different:
            pass
        return None

    def guesses(self) -> Iterator[Guess]:
        """Yields guesses: registers and their partners, then other registers, then other nodes,
        also of further steps."""
        nodes, rng = Nodes(self.circuit, self.equal_starts), random.Random(0)
        latches = Classes(nodes, rng).begin([0, *nodes.latches])
        given = partners(self.circuit, *self.counts, self.equal_starts)
        other = {nodes.latches[i]: nodes.latches[it] for i, it in given.items() if it is not None}
        # If both files have the same number of registers, these are seldom from different time
        # steps.
        ways: list[Iterable[Guess]] = [
            self.latches(latches), self.present(rng), self.ahead(rng)]
        if self.counts[0] != self.counts[1]:
            ways.reverse()
        yield from itertools.chain([States(paired(latches, other), self.solver)], *ways)

    def latches(self, latches: Classes) -> Iterator[Guess]:
        """Yields a guess about registers, unless that about partners was hard for the solver."""
        if not self.is_hard:
            yield States(latches, self.solver)

    def present(self, rng: random.Random) -> Iterator[Guess]:
        """Yields a guess about nodes of one step."""
        nodes = Nodes(self.circuit, self.equal_starts)
        yield Steps(Classes(nodes, rng).begin(nodes.all()), self.solver)

    def ahead(self, rng: random.Random) -> Iterator[Guess]:
        """Yields guesses that include nodes of further steps; first without classes that have no
        node of the present step."""
        whole = []
        for steps in AHEAD:
            stop, nodes = self.nodes_ahead(steps)
            whole.append(Classes(nodes, rng).begin(nodes.all()))
            yield Steps(whole[-1].of_first(stop), self.solver)
        for classes in whole:
            yield Steps(classes, self.solver)

    def nodes_ahead(self, steps: int) -> tuple[int, Nodes]:
        """Returns the nodes, including those of further steps, and the literal behind the last node
        of the present step."""
        nodes = Nodes(self.circuit, self.equal_starts)
        stop = nodes.all().stop
        nodes.look_ahead(steps)
        return stop, nodes

    def kept(self, guess: Guess) -> list[Pair] | None:
        """Returns the pairs of a guess if they are inductive, and None if they aren't or that takes
        too long."""
        try:
            return guess.pairs()
        except Different:
            return None
        except Undecided:
            self.is_hard = True
            return None


def run(make: type[Guesses], folder: str, asked: str) -> int:
    """Prints the certificate for the file `file.aag` in a folder, if one is found.

    `make` is the class that guesses. `asked` is a JSON object with the arguments: the solver, the
    limit, the latches with equal initial values, and the files' numbers of latches."""
    # The program ends soon, so that collecting garbage isn't worthwhile.
    gc.disable()
    given = json.loads(asked)
    with open(os.path.join(folder, "file.aag"), "rb") as file:
        circuit = Circuit(Lines(file.read(), "FILE"), given["limit"])
    equal_starts = {int(place): partner for place, partner in given["equal_starts"].items()}
    task = Scope(Scheduler(1)).task("guesses")
    solver = IncrementalQueries(given["solver"], given["is_cadical"], task, folder)
    sys.stdout.buffer.write(make(circuit, equal_starts, solver, given).certificate() or b"")
    return 0


def main(folder: str, asked: str) -> int:
    """Prints the certificate for the file in a folder."""
    return run(Guesses, folder, asked)
