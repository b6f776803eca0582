"""Compares the questions of random machines, gate for gate, with their definition.

The definition is written here once more, in other words than the library's: of each of the steps 0
to K what a bad literal or a constraint reads in the steps that are left; constants folded, and
equal gates one; within the constraints some bad literal at some step; and of all that what the
output reaches. `aigedit question FILE K` of random machines has just these gates, in this order.
"""
from __future__ import annotations

import itertools
import pathlib
import random

from aiger import Machine, machine_of
from harness import EDIT, Checks, output
from hypothesis import given
from machines import deep_machine, random_machine
from strategies import cases, choices
from trials import Files

LAST = 8


class Netlist:
    """Gates and inputs by the literals that they get, one after another; the first is 2."""

    def __init__(self) -> None:
        self.gates, self.inputs, self.next = {}, [], itertools.count(2, 2)

    def input(self) -> int:
        self.inputs.append(next(self.next))
        return self.inputs[-1]

    def both(self, left: int, right: int) -> int:
        """The and of two literals."""
        low, high = sorted([left, right])
        if low == 0 or high == low ^ 1:
            return 0
        if low == 1 or low == high:
            return high
        if (low, high) not in self.gates:
            self.gates[low, high] = next(self.next)
        return self.gates[low, high]

    def either(self, left: int, right: int) -> int:
        return self.both(left ^ 1, right ^ 1) ^ 1

    def reached(self, output: int) -> tuple[list[int], int, list[tuple[int, int, int]]]:
        """The inputs, the output and the gates that it reaches, numbered anew in their order."""
        operands, kept, waiting = (
            {gate: pair for pair, gate in self.gates.items()},
            set(),
            [output & ~1],
        )
        while waiting:
            literal = waiting.pop()
            if literal not in kept:
                kept.add(literal)
                waiting += [operand & ~1 for operand in operands.get(literal, ())]
        places = {literal: 2 * place for place, literal in enumerate(sorted(kept | {0}))}

        def said(literal: int) -> int:
            return places[literal & ~1] | literal & 1

        inputs = [said(literal) for literal in self.inputs if literal in kept]
        gates = [
            (said(gate), *sorted(map(said, operands[gate]), reverse=True))
            for gate in sorted(kept)
            if gate in operands
        ]
        return inputs, said(output), gates


def read_within(machine: Machine, steps: int) -> set[int]:
    """The literals, not inverted, that a bad literal or a constraint of one of so many further
    steps reads."""
    operands = {gate: operands for gate, *operands in machine.gates}
    following = {latch[0]: latch[1] for latch in machine.latches}
    now, found = {literal & ~1 for literal in machine.bads + machine.constraints}, set()
    for _ in range(steps + 1):
        waiting = list(now)
        while waiting:
            literal = waiting.pop()
            if literal not in found:
                found.add(literal)
                waiting += [operand & ~1 for operand in operands.get(literal, ())]
        now = now | {following[literal] & ~1 for literal in found if literal in following}
    return found


def question(machine: Machine, last: int) -> tuple[list[int], int, list[tuple[int, int, int]]]:
    """The inputs, the output and the gates of the question."""
    net, within, reached = Netlist(), 1, 0
    operands = {gate: operands for gate, *operands in machine.gates}
    states = {row[0]: row[2] if len(row) > 2 else 0 for row in machine.latches}
    states = {latch: reset for latch, reset in states.items() if reset < 2}
    leaves = [*machine.inputs, *(row[0] for row in machine.latches)]
    for step in range(last + 1):
        images, read = {0: 0}, read_within(machine, last - step)

        def image(literal: int) -> int:
            return images[literal & ~1] ^ literal & 1

        for literal in sorted([*leaves, *operands]):
            if literal in read and literal in operands:
                images[literal] = net.both(*map(image, operands[literal]))
            elif literal in read:
                images[literal] = states[literal] if literal in states else net.input()
        for literal in machine.constraints:
            within = net.both(within, image(literal))
        bad = 0
        for literal in machine.bads:
            bad = net.either(bad, image(literal))
        reached = net.either(reached, net.both(within, bad))
        states = {row[0]: image(row[1]) for row in machine.latches if row[1] & ~1 in images}
    return net.reached(reached)


class Trial(Files):
    """A random machine, and a step up to which it is asked."""

    def __init__(self, rng: random.Random, folder: pathlib.Path) -> None:
        super().__init__(folder, rng)
        self.machine = self.rng.choice([random_machine, deep_machine])(self.rng)
        self.step = self.rng.randint(0, LAST)
        self.file = self.put("made.aag", self.machine.text())

    def run(self) -> Trial:
        made = machine_of(output([EDIT, "question", self.file, str(self.step)]))
        printed = (
            [int(str(row)) for row in made.inputs],
            made.outputs[0],
            [tuple(row) for row in made.gates],
        )
        inputs, wanted, gates = question(self.machine, self.step)
        self.counts["with gates"] += bool(gates)
        if printed != (inputs, wanted, gates):
            self.fail(
                f"up to step {self.step}: {printed}; by the definition {inputs, wanted, gates}"
            )
        return self


@cases(100, 1000)
@given(rng=choices())
def test_questions(folder: pathlib.Path, checks: Checks, rng: random.Random) -> None:
    """`aigedit question` prints the gates of the definition."""
    Trial(rng, folder).run()
    checks.passed += 1
