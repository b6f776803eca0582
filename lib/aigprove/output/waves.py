"""Traces as value change dumps (VCD, IEEE 1364), which waveform viewers such as gtkwave read."""
import collections
import itertools
import re
from collections.abc import Iterable, Iterator, Mapping, Sequence
from typing import TypeVar

from aigprove.circuits.aiger import KINDS, Circuit
from aigprove.circuits.simulation import Values, run

T = TypeVar("T", str, bytes)
Words = dict[bytes, list[int]]
SIMPLE_NAME = re.compile(rb"[A-Za-z_][A-Za-z0-9_$]*(\[[0-9]+\])?")
BIT = re.compile(rb"(.+)\[(0|[1-9][0-9]{0,5})\]", re.DOTALL)
PATH = re.compile(rb"((?:[A-Za-z_][A-Za-z0-9_$]*\.)+)(.+)", re.DOTALL)


def words(names: Sequence[bytes]) -> Words:
    """Returns the positions of the bits of each word among names, lowest bit first.

    A word `d` has at least two bits, `d[0]`, `d[1]` and so on, each once, and nothing else is named
    `d`."""
    found, times = collections.defaultdict[bytes, dict[int, int]](dict), collections.Counter(names)
    for i, name in enumerate(names):
        bit = BIT.fullmatch(name)
        if bit and times[name] == 1:
            found[bit[1]][int(bit[2])] = i
    return {
        name: [bits[n] for n in range(len(bits))]
        for name, bits in found.items()
        if len(bits) > 1 and set(bits) == set(range(len(bits))) and not times[name]
    }


def grouped(count: int, found: Mapping[T, Sequence[int]]) -> list[tuple[T | None, Sequence[int]]]:
    """Returns the name and the bits' positions of each word, and None and the position of each
    other signal, in order of the lowest positions.

    `found` are the words, of `count` signals."""
    starts = {places[0]: (name, places) for name, places in found.items()}
    inner = {i for places in found.values() for i in places[1:]}
    return [starts.get(i, (None, [i])) for i in range(count) if i not in inner]


def reference(name: bytes) -> str:
    """Returns a name as a VCD identifier, escaped if necessary, in printable ASCII."""
    if SIMPLE_NAME.fullmatch(name):
        return name.decode()
    return "\\" + "".join(chr(byte) if 33 <= byte <= 126 and byte != ord("%") else f"%{byte:02X}"
                          for byte in name)


def code(number: int) -> str:
    """Returns the VCD identifier code of a signal: a number in base 94."""
    digits = chr(33 + number % 94)
    while number >= 94:
        number = number // 94 - 1
        digits = chr(33 + number % 94) + digits
    return digits


class Variable:
    """A signal or a word: its identifier code, scopes and name, and its literals, lowest bit
    first."""

    def __init__(self, number: int, name: bytes, literals: Sequence[int]) -> None:
        self.code, self.literals = code(number), literals
        path = PATH.fullmatch(name)
        self.scopes, self.name = (path[1].decode().split(".")[:-1], path[2]) if path else ([], name)

    def declared(self) -> str:
        """Returns its declaration."""
        width = len(self.literals)
        bits = f" [{width - 1}:0]" if width > 1 else ""
        return f"$var wire {width} {self.code} {reference(self.name)}{bits} $end"

    def change(self, values: Values) -> str:
        """Returns the line with its value."""
        bits = "".join(values[literal] for literal in reversed(self.literals))
        return bits + self.code if len(bits) == 1 else f"b{bits} {self.code}"


def variables(circuit: Circuit) -> Iterator[tuple[str, list[Variable]]]:
    """Yields the letter of each kind of signals, and its variables. A word is at the position of
    its lowest bit."""
    numbers = itertools.count()
    for letter, group in itertools.groupby(circuit.signals(), key=lambda signal: signal[0]):
        literals = [literal for _, _, literal in group]
        names = [circuit.name(letter, i) for i in range(len(literals))]
        places = grouped(len(names), words(names) if letter in "ilo" else {})
        yield letter, [Variable(next(numbers), name or names[own[0]], [literals[i] for i in own])
                       for name, own in places]


def declarations(made: Iterable[Variable]) -> Iterator[str]:
    """Yields the declarations of variables, and of their scopes. The variables have to be sorted by
    scope."""
    opened: list[str] = []
    for it in made:
        pairs = list(zip(opened, it.scopes))
        shared = next((i for i, (own, other) in enumerate(pairs) if own != other), len(pairs))
        yield from ["$upscope $end"] * (len(opened) - shared)
        yield from (f"$scope module {name} $end" for name in it.scopes[shared:])
        yield it.declared()
        opened = it.scopes
    yield from ["$upscope $end"] * len(opened)


def dump(circuit: Circuit, state: Sequence[str],
         inputs: Sequence[Sequence[str]], loop: int | None = None) -> Iterator[str]:
    """Yields the lines of a value change dump of a trace.

    `state` has the initial values of latches, and `inputs` those of inputs in each step. If `loop`
    is the first step of a lasso's loop, a signal `loop` is 1 from there on."""
    made = list(variables(circuit))
    mark = code(sum(len(own) for _, own in made))
    yield "$comment a time unit is a step $end"
    yield "$timescale 1 s $end"
    for letter, own in made:
        yield f"$scope module {KINDS[letter]} $end"
        yield from declarations(sorted(own, key=lambda it: it.scopes))
        yield "$upscope $end"
    if loop is not None:
        yield from ["$scope module run $end", f"$var wire 1 {mark} loop $end", "$upscope $end"]
    yield "$enddefinitions $end"
    last: dict[str, str] = {}
    for t, values in enumerate(run(circuit, state, inputs)):
        now = {it.code: it.change(values) for _, own in made for it in own}
        if loop is not None:
            now[mark] = f"{int(t >= loop)}{mark}"
        yield f"#{t}"
        changes = [line for name, line in now.items() if last.get(name) != line]
        yield from ["$dumpvars", *changes, "$end"] if t == 0 else changes
        last = now
    yield f"#{len(inputs)}"
