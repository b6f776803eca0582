"""Reads and writes AIGER files, in text and binary format, as lists of literals and gates."""
from __future__ import annotations

import contextlib
import copy
import itertools
import re
from collections.abc import Iterable, Iterator, Sequence
from typing import TYPE_CHECKING, Any, cast

from aigprove.circuits.gates import Gate, Gates, cone
from aigprove.data import message

if TYPE_CHECKING:
    from typing import Self

KINDS = {"i": "inputs", "l": "latches", "o": "outputs", "b": "bads", "c": "constraints"}
LIMIT = 1 << 24
# The number of lines that are read at once.
BLOCK = 1 << 14
COMMENT = re.compile(rb"c(?![0-9])")
# The bytes of a binary number behind which there is another.
GOES_ON = bytes(range(128, 256))
# The names of signals, by letter and position.
Names = dict[tuple[str, int], bytes]


class Fault(Exception):
    """An error with a message for the user: a file is refused, or a query has no answer."""

    @classmethod
    def of(cls, name: str, /, **fields: object) -> Self:
        """Returns the error with the message of this name, in which these fields are filled in."""
        return cls(message(name, **fields))


def decimal(digits: bytes) -> int:
    """Returns the number that digits spell. Raises Fault if it has more than ten digits, leading
    zeros aside."""
    spelled = digits.lstrip(b"0")
    if len(spelled) > 10:
        raise Fault.of("many_digits")
    return int(spelled or b"0")


def decoded(name: bytes) -> str:
    """Returns a name in a file as text. Bytes that aren't UTF-8 become surrogates."""
    return name.decode("utf-8", "surrogateescape")


def encoded(name: str) -> bytes:
    """Returns the bytes of a text that `decoded` returned."""
    return name.encode("utf-8", "surrogateescape")


class Lines:
    """A stream of bytes that is read from the front. Error messages call it `what`."""

    def __init__(self, data: bytes, what: str) -> None:
        self.data, self.place, self.what = data, 0, what

    def is_read(self) -> bool:
        """Returns whether nothing is left."""
        return self.place == len(self.data)

    def line(self) -> bytes:
        """Returns the next line, without its line feed. Raises Fault if there is none."""
        end = self.data.find(b"\n", self.place)
        if end < 0:
            raise Fault.of("ends_early", what=self.what)
        line = self.data[self.place:end]
        self.place = end + 1
        return line

    def skip(self, count: int) -> None:
        """Skips a number of lines. Raises Fault if there are fewer."""
        *lines, rest = self.data[self.place:].split(b"\n", count)
        if len(lines) < count:
            raise Fault.of("ends_early", what=self.what)
        self.place = len(self.data) - len(rest)

    def numbers(self, least: int, most: int) -> list[int]:
        """Returns the numbers in the next line, of which there are at least `least` and at most
        `most`. Raises Fault otherwise."""
        words = self.line().split(b" ")
        if not least <= len(words) <= most or not all(word.isdigit() for word in words):
            raise Fault.of("bad_numbers", what=self.what)
        return [decimal(word) for word in words]

    def number(self) -> int:
        """Returns the number in the next line. Raises Fault if it has another form."""
        return self.numbers(1, 1)[0]

    def rows(self, count: int, width: int) -> list[tuple[int, ...]]:
        """Returns the numbers in the next `count` lines, `width` in each. Raises Fault if a line
        has another form.

        They are read in blocks, because no other thread of Python runs while a block is read."""
        found: list[tuple[int, ...]] = []
        while len(found) < count:
            found += self.block(min(count - len(found), BLOCK), width)
        return found

    def block(self, count: int, width: int) -> list[tuple[int, ...]]:
        """Returns the numbers in the next `count` lines, which are read at once."""
        end = self.place - 1
        for _ in range(count):
            end = self.data.find(b"\n", end + 1)
            if end < 0:
                break
        lines = self.data[self.place:end].split(b"\n") if end >= 0 else []
        words = b" ".join(lines).split(b" ")
        are_rows = len(lines) == count and all(line.count(b" ") == width - 1 for line in lines)
        if are_rows and all(map(bytes.isdigit, words)):
            # A number may have more digits than Python converts.
            with contextlib.suppress(ValueError):
                found = list(zip(*[iter(list(map(int, words)))] * width))
                self.place = end + 1
                return found
        return [tuple(self.numbers(width, width)) for _ in range(count)]

    def skip_differences(self, count: int) -> None:
        """Skips a number of binary numbers. Raises Fault if there are fewer."""
        while count:
            groups = self.data[self.place:self.place + count]
            if not groups:
                raise Fault.of("ends_early", what=self.what)
            self.place += len(groups)
            count -= len(groups.translate(None, GOES_ON))

    def differences(self, count: int) -> list[int]:
        """Returns the next binary numbers, which consist of groups of seven bits, lowest first.
        Raises Fault if one is malformed."""
        found, number, shift = [], 0, 0
        for size, group in enumerate(self.data[self.place:] if count else b"", 1):
            number |= (group & 127) << shift
            shift += 7
            if group < 128:
                found.append(number)
                number = shift = 0
            if len(found) == count:
                self.place += size
                return found
            if shift == 35:
                raise Fault.of("bad_difference", what=self.what)
        if count:
            raise Fault.of("ends_early", what=self.what)
        return found


class Header:
    """The first line of a file: the format, and the number of signals of each kind. Raises Fault if
    it is malformed."""

    def __init__(self, lines: Lines) -> None:
        form, *words = lines.line().split(b" ")
        are_numbers = 5 <= len(words) <= 9 and all(word.isdigit() for word in words)
        if form not in (b"aag", b"aig") or not are_numbers:
            raise Fault.of("bad_header", what=lines.what)
        self.is_text = form == b"aag"
        # Before AIGER 1.9 there were no bad state properties: the outputs of a file were its bad
        # states.
        self.is_old = len(words) == 5
        self.counts = [*map(decimal, words), *[0] * 4][:9]
        self.inputs, self.latches, self.outputs, self.gates = self.counts[1:5]
        self.bads, self.constraints, self.justice, self.fairness = self.counts[5:9]

    def count(self, circuit: Circuit, greatest: int) -> None:
        """Sets the counts to those of a circuit whose greatest variable is `greatest`."""
        of: list[Sequence[object]] = [circuit.inputs,
                                      circuit.latches, circuit.outputs, circuit.gates,
                                      circuit.bads, circuit.constraints, circuit.justice]
        self.is_old, self.counts = False, [greatest, *map(len, of), len(circuit.fairness)]


class Symbols:
    """The header and the names of a file. Its lists and gates are skipped."""

    def __init__(self, lines: Lines) -> None:
        header = self.header = Header(lines)
        lines.skip(header.inputs * header.is_text + header.latches
                   + header.outputs + header.bads + header.constraints)
        lines.skip(sum(lines.number() for _ in range(header.justice)) + header.fairness)
        if header.is_text:
            lines.skip(header.gates)
        else:
            lines.skip_differences(2 * header.gates)
        self.names = names(lines)


class Circuit:
    """A circuit as its file has it: lists of literals, gates in topological order, and names.

    Raises Fault if the file is malformed, or has at least `limit` nodes."""

    def __init__(self, lines: Lines, limit: int = LIMIT) -> None:
        self.what = lines.what
        header = self.header = Header(lines)
        if max(header.counts) >= limit:
            raise Fault.of("too_large", what=lines.what)
        first_latch = 2 * (header.inputs + 1)
        first_gate = first_latch + 2 * header.latches
        if header.is_text:
            self.inputs: Sequence[int] = [row[0] for row in lines.rows(header.inputs, 1)]
            rows = [lines.numbers(2, 3) for _ in range(header.latches)]
        else:
            self.inputs = range(2, first_latch, 2)
            rows = [[latch, *lines.numbers(1, 2)] for latch in range(first_latch, first_gate, 2)]
        self.latches, self.nexts, self.resets = ([[*row, 0][i] for row in rows] for i in range(3))
        counts = [header.outputs, header.bads, header.constraints]
        self.outputs, self.bads, self.constraints = ([lines.number() for _ in range(count)]
                                                     for count in counts)
        sizes = [lines.number() for _ in range(header.justice)]
        self.justice = [[lines.number() for _ in range(size)] for size in sizes]
        self.fairness = [lines.number() for _ in range(header.fairness)]
        if header.is_text:
            self.gates = cast(list[Gate], lines.rows(header.gates, 3))
        else:
            self.gates = binary_gates(lines, header.gates, first_gate)
        self.names = names(lines)
        self.check()
        self.put_in_order()

    def check(self) -> None:
        """Raises Fault if a literal is defined twice, or used but not defined."""
        defined = [*self.inputs, *self.latches, *(gate for gate, _, _ in self.gates)]
        known = {0, *defined}
        if len(known) <= len(defined) or any(literal & 1 for literal in defined):
            raise Fault.of("bad_definition", what=self.what)
        used = [*self.nexts, *self.outputs, *self.bads,
                *self.constraints, *itertools.chain.from_iterable(row[1:] for row in self.gates)]
        unknown = next((literal for literal in used if literal & ~1 not in known), None)
        if unknown is not None:
            raise Fault.of("not_defined", literal=unknown, what=self.what)

    def put_in_order(self) -> None:
        """Sorts the gates topologically, if they aren't. Raises Fault if they form a cycle."""
        leaves = [0, *self.inputs, *self.latches]
        nodes = itertools.chain(leaves, (gate for gate, _, _ in self.gates))
        places = {literal: i for i, literal in enumerate(nodes)}
        if all(places[left & ~1] < i > places[right & ~1]
               for i, (_, left, right) in enumerate(self.gates, len(leaves))):
            return
        # Few files need it.
        from graphlib import CycleError, TopologicalSorter

        gates = {gate: (gate, left, right) for gate, left, right in self.gates}
        below = {gate: [it & ~1 for it in operands if it & ~1 in gates]
                 for gate, *operands in self.gates}
        try:
            self.gates = [gates[literal] for literal in TopologicalSorter(below).static_order()]
        except CycleError as why:
            gate = max(why.args[1])
            raise Fault.of("cyclic_gate", literal=gate, what=self.what) from None

    def uninitialised(self) -> list[int]:
        """Returns the positions of the uninitialised latches."""
        return [i for i, reset in enumerate(self.resets) if reset > 1]

    def with_lists(self, **lists: Any) -> Circuit:
        """Returns a copy of the circuit in which the lists of these names are replaced."""
        made = copy.copy(self)
        for name, own in lists.items():
            setattr(made, name, own)
        return made

    def signals(self) -> Iterator[tuple[str, int, int]]:
        """Yields the letter, the position and the literal of each signal."""
        lists = [self.inputs, self.latches, self.outputs, self.bads, self.constraints]
        for letter, literals in zip(KINDS, lists):
            for position, literal in enumerate(literals):
                yield letter, position, literal

    def text(self) -> bytes:
        """Returns the circuit in text format, with its names."""
        counts = self.header.counts[: 5 if self.header.is_old else 9]
        latches = zip(self.latches, self.nexts, self.resets)
        sets = [*map(len, self.justice), *itertools.chain(*self.justice), *self.fairness]
        lists = [*self.outputs, *self.bads, *self.constraints, *sets]
        return text_form(counts, [*self.inputs, *latches, *lists, *self.gates]) \
            + symbols(self.names.items())

    def name(self, letter: str, position: int) -> bytes:
        """Returns the name of a signal; if it has none, its letter and position."""
        return self.names.get((letter, position)) or f"{letter}{position}".encode()

    def read_by(self, literal: int) -> set[int]:
        """Returns the positions of the latches on which a literal depends in the same step."""
        seen = cone([literal], {gate: operands for gate, *operands in self.gates})
        return {i for i, latch in enumerate(self.latches) if latch in seen}


def text_form(counts: Iterable[int], lines: Iterable[object]) -> bytes:
    """Returns a file in text format with these counts and lines. A line is a number or a tuple of
    numbers."""
    spelled = (" ".join(map(str, it)) if isinstance(it, tuple) else str(it) for it in lines)
    return "".join(f"{line}\n" for line in ["aag " + " ".join(map(str, counts)), *spelled]).encode()


def symbols(names: Iterable[tuple[tuple[str, int], bytes]]) -> bytes:
    """Returns the lines of names."""
    return b"".join(b"%s%d %s\n" % (letter.encode(), i, name) for (letter, i), name in names)


def differences(numbers: Iterable[int]) -> bytes:
    """Returns binary numbers: groups of seven bits, lowest first, with the eighth bit set in all
    but the last."""
    groups = bytearray()
    for number in numbers:
        while number > 127:
            groups.append(number & 127 | 128)
            number >>= 7
        groups.append(number)
    return bytes(groups)


def binary_gates(lines: Lines, count: int, first: int) -> list[Gate]:
    """Returns a number of gates from a binary file, the first of which has the literal `first`.
    Raises Fault if a gate is malformed."""
    numbers = lines.differences(2 * count)
    gates = [(gate, gate - one, gate - one - two)
             for gate, one, two in zip(itertools.count(first, 2), numbers[::2], numbers[1::2])]
    if any(right < 0 for *_, right in gates):
        raise Fault.of("bad_difference", what=lines.what)
    return gates


def names(lines: Lines) -> Names:
    """Returns the names behind the gates, by letter and position. Raises Fault if a line is
    malformed.

    They end with the comment: a c without a digit behind it."""
    found = {}
    while not lines.is_read() and not COMMENT.match(lines.data, lines.place):
        symbol = re.fullmatch(rb"([ilobcjf])([0-9]+) (.*)", lines.line(), re.DOTALL)
        if symbol is None:
            raise Fault.of("bad_name", what=lines.what)
        found[symbol[1].decode(), decimal(symbol[2])] = symbol[3]
    return found


def binary(inputs: int, nexts: Sequence[int], outputs: Sequence[int], gates: Gates) -> bytes:
    """Returns a circuit in binary format. Its latches have the next values `nexts`, and are 0
    initially."""
    count = len(gates.rows)
    header = f"aig {inputs + len(nexts) + count} {inputs} {len(nexts)} {len(outputs)} {count}"
    lines = "".join(f"{line}\n" for line in [header, *nexts, *outputs])
    return lines.encode() + differences(number for gate, left, right in gates.rows
                                        for number in (gate - left, left - right))
