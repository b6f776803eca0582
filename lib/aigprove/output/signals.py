"""Prints signals and their values, without control characters.

A name is printed as it is if it is a plain word, and otherwise as a JSON string. If two signals
have the same name, its place (i0, l0) precedes it. A signal without a name is printed by its place.
Bits `d[0]` to `d[7]` are printed as one number, `d=8'hff`, or in base two if one of them doesn't
matter, which is printed as `-`."""
import collections
import itertools
import re
from collections.abc import Iterable, Iterator, Mapping, Sequence

from aigprove.circuits.aiger import KINDS, Circuit, decoded, encoded
from aigprove.circuits.witness import Witness
from aigprove.output.waves import grouped, words

# The least number of equal steps that are printed as one line; and how many lines are printed at
# the beginning and the end of a long trace.
EQUAL, FIRST, LAST = 3, 10, 50
# The greatest number of inputs that are printed even if no value of them matters.
MOST = 20
PLAIN = re.compile(r"(?![ilb][0-9]+(:|$))[!#-<>-\[\]-~]+")


def word(name: str) -> str:
    """Returns a name as a single word that can't be confused with a place."""
    return name if PLAIN.fullmatch(name) else quoted(name)


def quoted(name: str) -> str:
    """Returns a name as a JSON string."""
    # Few names need it.
    import json

    return json.dumps(name)


def number(bits: Sequence[str]) -> str:
    """Returns the value of some bits, lowest first: "0", "1" or "-" for one bit, and otherwise a
    number in Verilog's notation."""
    if len(bits) == 1 or set(bits) == {"x"}:
        return bits[0].replace("x", "-")
    if "x" in bits:
        return f"{len(bits)}'b{''.join(reversed(bits)).replace('x', '-')}"
    return f"{len(bits)}'h{int(''.join(reversed(bits)), 2):0{(len(bits) + 3) // 4}x}"


def group(place: str) -> str:
    """Returns the letter of the kinds of signals whose names have to differ from that of the signal
    at this place."""
    return "i" if place[0] == "l" else place[0]


class Signals:
    """The printed names of a circuit's signals."""

    def __init__(self, circuit: Circuit) -> None:
        self.names = {f"{letter}{i}": decoded(name) for (letter, i), name in circuit.names.items()}
        self.times = collections.Counter((group(place), name)
                                         for place, name in self.names.items())
        if circuit.header.is_old:
            self.names.update({"b" + place[1:]: name
                               for place, name in self.names.items() if place[0] == "o"})
        self.buses = {letter: self.find_buses(letter, len(getattr(circuit, KINDS[letter])))
                      for letter in "ilo"}
        # The places of signals that aren't printed.
        self.hidden: set[str] = set()

    def find_buses(self, letter: str, count: int) -> dict[str, list[int]]:
        """Returns the positions of the bits of each word of a kind, by its name, which is a plain
        word."""
        own = [encoded(self.names.get(f"{letter}{i}", "")) for i in range(count)]
        found = {decoded(name): places for name, places in words(own).items()}
        return {name: places for name, places in found.items()
                if PLAIN.fullmatch(name) and self.is_single(name, letter, places)}

    def is_single(self, name: str, letter: str, places: Iterable[int]) -> bool:
        """Returns whether no other signal has the name of a word, or of one of its bits."""
        own = group(letter)
        return self.times[own, name] == 0 and all(
            self.times[own, self.names[f"{letter}{i}"]] == 1 for i in places)

    def signal(self, place: str) -> str:
        """Returns the printed name of an input, a latch or an output."""
        name = self.names.get(place)
        if name is None:
            return place
        is_single = self.times[group(place), name] == 1
        return word(name) if is_single else f"{place}:{quoted(name)}"

    def place(self, letter: str, position: int) -> str:
        """Returns the printed form of an output or a property: its place and its name."""
        place = f"{letter}{position}"
        return " ".join([place, *(word(self.names[place]) for _ in range(place in self.names))])

    def values(self, letter: str, values: Sequence[str],
               places: set[int] | None = None) -> list[str]:
        """Returns the printed values of the signals of a kind: of all, or of those at the positions
        `places`."""
        shown = []
        for name, own in grouped(len(values), self.buses[letter]):
            if f"{letter}{own[0]}" not in self.hidden and (places is None
                                                           or not places.isdisjoint(own)):
                bits = [values[i] for i in own]
                shown.append(f"{name}={number(bits)}"
                             if name else f"{self.signal(f'{letter}{own[0]}')}={number(bits)}")
        return shown

    def lines(self, trace: Witness,
              latches: set[int], changes: Mapping[int, Sequence[str]]) -> Iterator[str]:
        """Yields the lines of a trace: the initial values of `latches`, then for each step the
        inputs and, behind a bar, the `changes` of that step."""
        yield " ".join(["start:", *self.values("l", trace.start, latches)])
        steps, count = [], len(trace.steps[0])
        is_short = len(grouped(count, self.buses["i"])) <= MOST
        mattering = None if is_short else {i for i in range(count)
                                           if any(row[i] != "x" for row in trace.steps)}
        for t, inputs in enumerate(trace.steps):
            changed = changes.get(t, [])
            steps.append(" ".join([*self.values("i", inputs, mattering),
                                   *["|", *changed] * bool(changed)]))
        yield from folded(steps)


def folded(steps: Iterable[str]) -> Iterator[str]:
    """Yields a line for each step, or for several equal ones. Of a long trace only the first and
    last lines are printed."""
    lines, t = [], 0
    for text, own in itertools.groupby(steps):
        count = len(list(own))
        spans = [(t, t + count - 1)] if count >= EQUAL else [(i, i) for i in range(t, t + count)]
        lines += [(first, last, text) for first, last in spans]
        t += count
    if len(lines) > FIRST + LAST:
        lines[FIRST:-LAST] = [(lines[FIRST][0],
                               lines[-LAST][0] - 1, "as --witness and --vcd write them")]
    for first, last, text in lines:
        span = f"step {first}:" if first == last else f"steps {first} to {last}:"
        yield f"{span} {text}" if text else span
