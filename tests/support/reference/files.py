"""Files in AIGER form: which circuit one is or why it is refused, and a circuit's two forms."""
from __future__ import annotations

import re
from collections.abc import Iterable, Iterator, Sequence
from itertools import chain
from typing import NamedTuple

from reference.circuit import TRUE, Circuit, Gate, Latch, gate_of, mapped
from reference.transforms import reencoded

MOST_NUMBER = 2**32 - 1
# The letters of the sections that names are of.
LETTERS = "ilobcjf"
LINE = re.compile(rb"[0-9]+(?: [0-9]+)*\n")
HEADER = re.compile(rb"(aag|aig)((?: [0-9]+){5,9})\n")
NAME = re.compile(rb"([ilobcjf])([0-9]+) ([^\n]*)\n")
COMMENT = re.compile(rb"c(?![0-9])")


class Refusal(Exception):
    """Why a file isn't taken, or a circuit isn't written: by the status's name."""


class Definition(NamedTuple):
    """A gate's line."""

    left: int
    low: int
    high: int


class Reader:
    """The sections of a file, read from its front."""

    def __init__(self, data: bytes, limit: int) -> None:
        found = HEADER.match(data)
        numbers = list(map(int, found[2].split())) if found else []
        if not found or max(numbers) > MOST_NUMBER:
            raise Refusal("HEADER")
        self.data, self.at, self.is_text = data, found.end(), found[1] == b"aag"
        self.most, inputs, latches, outputs, gates, *more = numbers
        least = inputs + latches + gates
        if self.most < least or (self.most > least and not self.is_text):
            raise Refusal("HEADER")
        if self.most + 1 > limit:
            raise Refusal("TOO_MANY")
        bads, constraints, justice, fairness = [*more, 0, 0, 0, 0][:4]
        self.counts = [inputs, latches, outputs, bads, constraints, justice, fairness]
        self.defined: set[int] = {0}
        self.inputs = [self.input_of(i) for i in range(inputs)]
        self.latches = [self.latch() for _ in range(latches)]
        self.outputs = [self.edge("OUTPUTS") for _ in range(outputs)]
        self.bads = [self.edge("BADS") for _ in range(bads)]
        self.constraints = [self.edge("CONSTRAINTS") for _ in range(constraints)]
        self.justice = self.sets(justice)
        self.fairness = [self.edge("FAIRNESS") for _ in range(fairness)]
        self.gates = [self.gate() for _ in range(gates)]

    # ---- lines

    def line(self, section: str, least: int, most: int) -> list[int]:
        """Returns the numbers of a line, of which there are so many."""
        found = LINE.match(self.data, self.at)
        numbers = list(map(int, found[0].split())) if found else []
        if not found or not least <= len(numbers) <= most or max(numbers) > MOST_NUMBER:
            raise Refusal(f"SYNTAX_{section}")
        self.at = found.end()
        return numbers

    def check(self, holds: bool, section: str) -> None:
        if not holds:
            raise Refusal(f"LITERAL_{section}")

    def define(self, literal: int, section: str) -> int:
        """Returns the literal of an input, a latch or a gate, which is none so far."""
        is_free = literal % 2 == 0 and 2 <= literal <= 2 * self.most
        self.check(is_free and literal // 2 not in self.defined, section)
        self.defined.add(literal // 2)
        return literal

    def within(self, literal: int, section: str) -> int:
        self.check(literal <= 2 * self.most + 1, section)
        return literal

    def following(self) -> int:
        """Returns the literal that is defined next in a binary file."""
        return 2 * len(self.defined)

    # ---- sections

    def input_of(self, place: int) -> int:
        literal = self.line("INPUTS", 1, 1)[0] if self.is_text else self.following()
        return self.define(literal, "INPUTS")

    def latch(self) -> Latch:
        """Returns a latch, by literals."""
        numbers = self.line("LATCHES", 1 + self.is_text, 2 + self.is_text)
        literal = self.define(numbers.pop(0) if self.is_text else self.following(), "LATCHES")
        after, reset = self.within(numbers[0], "LATCHES"), [*numbers, 0][1]
        self.check(reset in (0, 1, literal), "LATCHES")
        return Latch(literal, after, None if reset == literal else reset)

    def edge(self, section: str) -> int:
        return self.within(self.line(section, 1, 1)[0], section)

    def sets(self, count: int) -> list[list[int]]:
        sizes = [self.line("JUSTICE", 1, 1)[0] for _ in range(count)]
        return [[self.edge("JUSTICE") for _ in range(size)] for size in sizes]

    def gate(self) -> Definition:
        if not self.is_text:
            return self.binary_gate()
        left, *operands = self.line("GATES", 3, 3)
        self.define(left, "GATES")
        return Definition(left, *(self.within(operand, "GATES") for operand in operands))

    def binary_gate(self) -> Definition:
        left = self.define(self.following(), "GATES")
        high = left - self.difference()
        low = high - self.difference()
        if not 0 <= low <= high < left:
            raise Refusal("DELTA")
        return Definition(left, high, low)

    def difference(self) -> int:
        """Returns a number in groups of seven bits."""
        value, group = 0, self.data[self.at:self.at + 5]
        for place, byte in enumerate(group):
            value += (byte & 127) << 7 * place
            if byte < 128:
                self.at += place + 1
                if value <= MOST_NUMBER:
                    return value
                break
        raise Refusal("DELTA")

    def names(self) -> Iterator[tuple[str, int, bytes]]:
        """Yields each name with its letter and its place."""
        seen = set()
        while self.at < len(self.data) and not COMMENT.match(self.data, self.at):
            found = NAME.match(self.data, self.at)
            if not found:
                raise Refusal("NAME")
            letter, place = found[1].decode(), int(found[2])
            if place >= self.counts[LETTERS.index(letter)] or (letter, place) in seen:
                raise Refusal("NAME")
            seen.add((letter, place))
            self.at = found.end()
            yield letter, place, found[3]

    # ---- the circuit

    def levels(self) -> dict[int, int]:
        """Returns the level of each variable that has one."""
        leaves = [*self.inputs, *(latch.leaf for latch in self.latches)]
        found = dict.fromkeys([0, *(leaf // 2 for leaf in leaves)], 0)
        waiting = self.gates
        while waiting:
            later = []
            for gate in waiting:
                if gate.low // 2 in found and gate.high // 2 in found:
                    found[gate.left // 2] = 1 + max(found[gate.low // 2], found[gate.high // 2])
                else:
                    later.append(gate)
            if len(later) == len(waiting):
                break
            waiting = later
        return found

    def is_in_order(self) -> bool:
        """Returns whether no variable is left out, and gates rise above their operands."""
        lefts = [gate.left for gate in self.gates]
        rises = all(max(gate.low, gate.high) < gate.left for gate in self.gates)
        return rises and lefts == sorted(lefts) and len(self.defined) == self.most + 1

    def check_defined(self) -> None:
        """Refuses literals of variables that nothing defines, and gates without a level."""
        operands = chain(*((gate.low, gate.high) for gate in self.gates))
        self.check(all(edge // 2 in self.defined for edge in operands), "GATES")
        self.check(len(self.levels()) == len(self.defined), "GATES")
        sections = {"LATCHES": [latch.next for latch in self.latches], "OUTPUTS": self.outputs}
        sections |= {"BADS": self.bads, "CONSTRAINTS": self.constraints}
        sections |= {"JUSTICE": list(chain(*self.justice)), "FAIRNESS": self.fairness}
        for section, edges in sections.items():
            self.check(all(edge // 2 in self.defined for edge in edges), section)

    def numbers(self) -> dict[int, int]:
        """Returns the node of each variable."""
        if self.is_in_order():
            return {variable: variable for variable in self.defined}
        levels = self.levels()
        order = sorted(self.defined, key=lambda it: (levels[it], it))
        return {variable: node for node, variable in enumerate(order)}

    def circuit(self) -> Circuit:
        self.check_defined()
        nodes = self.numbers()

        def edge(literal: int) -> int:
            return mapped(nodes.__getitem__, literal)

        def edges(literals: Iterable[int]) -> list[int]:
            return list(map(edge, literals))

        made = Circuit([None] * len(nodes))
        for gate in self.gates:
            made.nodes[nodes[gate.left // 2]] = gate_of(edge(gate.low), edge(gate.high))
        made.inputs = [nodes[literal // 2] for literal in self.inputs]
        made.latches = [Latch(nodes[it.leaf // 2], edge(it.next), it.init) for it in self.latches]
        made.outputs, made.bads = edges(self.outputs), edges(self.bads)
        made.constraints, made.fairness = edges(self.constraints), edges(self.fairness)
        made.justice = list(map(edges, self.justice))
        leaves = {"i": made.inputs, "l": made.latch_leaves()}
        for letter, place, name in self.names():
            if letter in leaves:
                made.names[leaves[letter][place]] = text_of_name(name)
        return made


def text_of_name(name: bytes) -> str:
    try:
        return name.decode()
    except UnicodeDecodeError:
        raise Refusal("NAME") from None


def read(data: bytes, limit: int) -> Circuit:
    """Returns the circuit of a file with at most so many nodes."""
    return Reader(data, limit).circuit()


# ---- what is written


def check_writable(circuit: Circuit) -> None:
    """Refuses what has no written form."""
    if not circuit.is_closed():
        raise Refusal("FREE_LEAF")
    if any(edge > TRUE for edge in circuit.initial_edges()):
        raise Refusal("INITIAL_EDGE")
    leaves = circuit.taken()
    if any(leaf in leaves and "\n" in name for leaf, name in circuit.names.items()):
        raise Refusal("LINE_FEED")


def gates_of(circuit: Circuit) -> list[tuple[int, Gate]]:
    """Returns the gates with their literals."""
    return [(2 * node, gate) for node, gate in enumerate(circuit.nodes) if gate]


def header(form: str, circuit: Circuit) -> str:
    gates = sum(gate is not None for gate in circuit.nodes)
    counts = [len(circuit.nodes) - 1, len(circuit.inputs), len(circuit.latches)]
    counts += [len(circuit.outputs), gates, len(circuit.bads), len(circuit.constraints)]
    counts += [len(circuit.justice), len(circuit.fairness)]
    while len(counts) > 5 and not counts[-1]:
        counts.pop()
    return " ".join([form, *map(str, counts)])


def property_lines(circuit: Circuit) -> list[int]:
    before = circuit.outputs + circuit.bads + circuit.constraints
    return [*before, *map(len, circuit.justice), *chain(*circuit.justice), *circuit.fairness]


def latch_line(latch: Latch, *before: int) -> str:
    reset = 2 * latch.leaf if latch.init is None else latch.init
    return " ".join(map(str, [*before, latch.next] + [reset] * (reset > 0)))


def name_lines(circuit: Circuit) -> list[str]:
    places = {leaf: f"i{place}" for place, leaf in enumerate(circuit.inputs)}
    places |= {leaf: f"l{place}" for place, leaf in enumerate(circuit.latch_leaves())}
    names = circuit.names
    return [f"{place} {names[leaf]}" for leaf, place in places.items() if leaf in names]


def lines(rows: Sequence[object]) -> bytes:
    return "".join(f"{row}\n" for row in rows).encode()


def text(circuit: Circuit) -> bytes:
    """Returns the text form."""
    check_writable(circuit)
    inputs = [2 * leaf for leaf in circuit.inputs]
    latches = [latch_line(latch, 2 * latch.leaf) for latch in circuit.latches]
    gates = [f"{left} {gate.high} {gate.low}" for left, gate in gates_of(circuit)]
    rows = [*inputs, *latches, *property_lines(circuit), *gates, *name_lines(circuit)]
    return lines([header("aag", circuit), *rows])


def groups(value: int) -> bytes:
    """Returns the shortest spelling of a difference."""
    found = bytearray()
    while value > 127:
        found.append(value % 128 + 128)
        value //= 128
    return bytes([*found, value])


def binary(circuit: Circuit) -> bytes:
    """Returns the binary form."""
    check_writable(circuit)
    made = reencoded(circuit)
    head = [header("aig", made), *map(latch_line, made.latches), *property_lines(made)]
    pairs = [(left - gate.high, gate.high - gate.low) for left, gate in gates_of(made)]
    differences = map(groups, chain(*pairs))
    return lines(head) + b"".join(differences) + lines(name_lines(made))
