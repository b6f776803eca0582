"""Parses and writes RTLIL, yosys's own language.

Each line is a statement: its kind, which is the first word, and further words. Attributes may
precede it. Modules, cells, processes, switches, cases and sync rules contain statements."""
from __future__ import annotations

import re
from collections.abc import Iterable, Iterator
from typing import NamedTuple

from aigprove.circuits.aiger import Fault

# The kinds of statements that a statement may contain. ENDLESS are those without an `end` of their
# own: they end where the next one or the enclosing one ends.
BLOCKS = {
    "design": {"autoidx", "module"},
    "module": {"parameter", "wire", "memory", "cell", "process", "connect"},
    "cell": {"parameter", "connect"}, "process": {"assign", "switch", "sync"},
    "switch": {"case"}, "case": {"assign", "switch"}, "sync": {"update", "memwr"},
}
ENDLESS = {"case", "sync"}
# A word, which may be a quoted text; a range of bits; and a constant.
WORD = re.compile(r'"(?:\\.|[^"\\])*"|\S+')
RANGE = re.compile(r"\[([0-9]+)(?::([0-9]+))?\]")
CONSTANT = re.compile(r"([0-9]+)'([01xzm-]*)")


class Part(NamedTuple):
    """A part of a signal: the bits of a constant, or a net's name, with the highest and lowest bit
    if it is a slice."""

    name: str
    bits: str = ""
    high: int | None = None
    low: int | None = None

    def __str__(self) -> str:
        if not self.name:
            return f"{len(self.bits)}'{self.bits}"
        if self.high is None:
            return self.name
        return f"{self.name} [{self.high}]" if self.high == self.low else \
            f"{self.name} [{self.high}:{self.low}]"


# A signal: its parts, highest bits first.
Signal = list[Part]


class Statement:
    """A statement: its kind, its other words as one text, its attributes, and the statements in
    it."""

    __slots__ = ("attributes", "body", "kind", "text")

    def __init__(self, kind: str, text: str = "",
                 attributes: dict[str, str] | None = None) -> None:
        self.kind, self.text, self.attributes = kind, text, attributes or {}
        self.body: list[Statement] = []

    def words(self) -> list[str]:
        """Returns its words behind the kind."""
        return self.text.split(" ") if '"' not in self.text else WORD.findall(self.text)

    @property
    def name(self) -> str:
        """The name that it declares: its last word, or the word in front of a parameter's value."""
        words = self.words()
        return words[-1] if self.kind != "parameter" else next(
            word for word in words if word.startswith("\\"))

    @property
    def type(self) -> str:
        """The type of a cell."""
        return self.words()[0]

    @property
    def source(self) -> str:
        """Its source location, or ""."""
        return self.attributes.get("\\src", '""').strip('"')

    def of(self, *kinds: str) -> list[Statement]:
        """Returns the contained statements of these kinds."""
        return [it for it in self.body if it.kind in kinds]

    def all(self) -> Iterator[Statement]:
        """Yields the statement and everything in it, in order."""
        yield self
        for it in self.body:
            yield from it.all()

    def signals(self) -> list[Signal]:
        """Returns the signals that its words describe. Concatenations are in braces, and those of a
        case are separated by commas."""
        found: list[Signal] = []
        depth = 0
        for word in self.words():
            depth += {"{": 1, "}": -1}.get(word, 0)
            if word == "{" and depth == 1:
                found.append([])
            elif bits := RANGE.fullmatch(word):
                high, low = int(bits[1]), int(bits[2] or bits[1])
                found[-1][-1] = found[-1][-1]._replace(high=high, low=low)
            elif word not in ("{", "}", ","):
                found += [[]] * (not depth)
                found[-1] = [*found[-1], part_of(word)]
        return found

    def put(self, signals: Iterable[Signal]) -> None:
        """Replaces its words by the given signals."""
        self.text = " ".join(map(spelled, signals))


def part_of(word: str) -> Part:
    """Returns the part of a signal that a word describes. If a constant has fewer digits than bits,
    its first digit is repeated."""
    constant = CONSTANT.fullmatch(word)
    if not constant:
        return Part(word)
    return Part("", constant[2].rjust(int(constant[1]), constant[2][:1] or "0"))


def spelled(signal: Signal) -> str:
    """Returns the text of a signal."""
    return str(signal[0]) if len(signal) == 1 else " ".join(["{", *map(str, signal), "}"])


def constant(signal: Signal) -> str:
    """Returns the bits of a signal that consists of constants, and "" for any other."""
    return "".join(part.bits for part in signal) if all(part.bits for part in signal) else ""


def parse(text: str) -> Statement:
    """Returns the design that a text describes; its modules are the statements in it.

    Raises Fault if a line isn't known, or if the text ends too early."""
    design = Statement("design")
    path, attributes = [design], dict[str, str]()
    for line in text.split("\n"):
        kind, _, rest = line.strip(" ").partition(" ")
        if kind == "attribute":
            name, _, value = rest.partition(" ")
            attributes[name] = value
            continue
        if path[-1].kind in ENDLESS and kind in (path[-1].kind, "end"):
            path.pop()
        if kind == "end" and len(path) > 1:
            path.pop()
        elif kind in BLOCKS.get(path[-1].kind, ()):
            path[-1].body.append(Statement(kind, rest, attributes))
            attributes = {}
            path += path[-1].body[-1:] * (kind in BLOCKS)
        elif kind and not kind.startswith("#"):
            raise Fault.of("unknown_line", line=line.strip())
    if len(path) > 1 or attributes:
        raise Fault.of("rtlil_cut")
    return design


def lines_of(statement: Statement, depth: int) -> Iterator[str]:
    """Yields the lines of a statement, indented `depth` times."""
    indent = "  " * depth
    for name, value in statement.attributes.items():
        yield f"{indent}attribute {name} {value}"
    yield f"{indent}{statement.kind} {statement.text}".rstrip(" ")
    for it in statement.body:
        yield from lines_of(it, depth + 1)
    if statement.kind in BLOCKS.keys() - ENDLESS:
        yield f"{indent}end"


def write(design: Statement) -> str:
    """Returns the text of a design."""
    return "".join(f"{line}\n" for it in design.body for line in lines_of(it, 0))


def modules_of(design: Statement) -> dict[str, Statement]:
    """Returns the modules of a design by their names."""
    return {it.name: it for it in design.of("module")}
