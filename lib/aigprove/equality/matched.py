"""Matches the signals of two files.

Uninitialised registers are matched by order or by name, as aigedit and aigcheck do it. The inputs,
outputs and bad state properties of designs are matched by name: the second file is reordered for
that. Signals without a counterpart are reported."""
import collections
import copy
import re
from collections.abc import Container, Iterable, Iterator, Mapping, Sequence

from aigprove.circuits.aiger import KINDS, Circuit, Symbols, decoded, encoded
from aigprove.data import message
from aigprove.options.options import APART, BY_NAME, BY_ORDER, STARTS
from aigprove.output.messages import escaped
from aigprove.output.signals import word

# The names of a kind of signals, and whether all of them have one.
SomeNames = tuple[list[bytes], bool]
# The greatest number of names that are listed for each file.
MOST_NAMED = 10
# By letter: the name of a kind of signals, and that of its number in a header.
SIGNALS = {"i": ("inputs", "inputs"), "o": ("outputs", "outputs"), "b": ("bad literals", "bads")}
Named = Circuit | Symbols

# The suffix of a command's name, by the value of `--starts`.
SUFFIXES = {way: "" if way == APART else f"-alike-{way}" for way in STARTS}
# The greatest number of names that are listed, and a pattern of generated names.
NAMED, MADE = 10, re.compile(r"_[0-9]+_(\[[0-9]+\])?")


def names_of(circuit: Circuit, letter: str, count: int) -> SomeNames:
    """Returns the names of the `count` signals of a kind, and whether all have one."""
    names = [circuit.names[letter, i] for i in range(count) if (letter, i) in circuit.names]
    return names, len(names) == count


def names_only_in(path: str, own: SomeNames, other: SomeNames) -> list[str]:
    """Returns a text about the names that only the first file has, in a list, or an empty list.

    If the second file has signals without a name, nothing can be said."""
    names, (others, has_all) = own[0], other
    found = [word(decoded(name)) for name in names if has_all and name not in others]
    more = ["and others"] * (len(found) > MOST_NAMED)
    return [f"{path} alone has {', '.join([*found[:MOST_NAMED], *more])}"] if found else []


def described(letter: str,
              paths: Sequence[str], circuits: Sequence[Circuit], is_named: bool) -> str:
    """Returns the numbers of signals of a kind in two files, with names that only one of them has
    if the numbers differ, or if `is_named`: then the names have to be the same."""
    what, attribute = SIGNALS[letter]
    counts = [getattr(circuit.header, attribute) for circuit in circuits]
    first, other = (names_of(circuit, letter, count) for circuit, count in zip(circuits, counts))
    is_told = is_named or counts[0] != counts[1]
    found = [*names_only_in(paths[0], first, other),
             *names_only_in(paths[1], other, first)] if is_told else []
    return f"{counts[0]} and {counts[1]} {what}" + f" ({'; '.join(found)})" * bool(found)


def mismatch(paths: Sequence[str], circuits: Sequence[Circuit], named: Container[str] = "") -> str:
    """Returns the message that two files have different signals. `named` has the letters of the
    kinds whose names differ."""
    parts = [described(letter, paths, circuits, letter in named) for letter in SIGNALS]
    return message("mismatch", paths=" and ".join(paths), counts=", ".join(parts))


def partners(way: str, first: Circuit, other: Circuit) -> dict[int, int]:
    """Returns the position of the first circuit's register for each matched register of the second,
    by its position."""
    ours, theirs = first.uninitialised(), other.uninitialised()
    if way == BY_ORDER:
        return dict(zip(theirs, ours))
    named = {first.names[place]: place[1]
             for i in reversed(ours) if way == BY_NAME and (place := ("l", i)) in first.names}
    return {i: named[name] for i in theirs if (name := other.names.get(("l", i))) in named}


def way_by_names(circuits: Iterable[Circuit]) -> str:
    """Returns by-name if all uninitialised registers have a name, and otherwise by-order."""
    return BY_NAME if all(("l", i) in circuit.names
                          for circuit in circuits for i in circuit.uninitialised()) else BY_ORDER


class Starts:
    """How uninitialised registers of two circuits are matched; the suffix of commands, and the text
    behind lines.

    If no two registers are matched, their initial values are independent."""

    def __init__(self, way: str, *circuits: Circuit) -> None:
        self.partners = partners(way, *circuits) if circuits else {}
        self.way = way if self.partners else APART
        self.suffix = SUFFIXES[self.way]
        said = f", registers with open start alike {way.replace('-', ' ')}"
        self.qualifier = said * (self.way != APART)


def unmatched(way: str, paths: Sequence[str], first: Circuit, other: Circuit) -> Iterator[str]:
    """Yields lines about the uninitialised registers without a counterpart in the other file, with
    the reason."""
    found = partners(way, first, other)
    yield from lines_of_unmatched(way, paths, first, other, set(found.values()))
    yield from lines_of_unmatched(way, paths[::-1], other, first, set(found))


def lines_of_unmatched(way: str, paths: Sequence[str], own: Circuit, other: Circuit,
                       matched: set[int]) -> Iterator[str]:
    """Yields these lines for one file. `matched` has the positions of the registers that have a
    counterpart."""
    names = collections.defaultdict[str, dict[str, bool]](dict)
    known = uninitialised_names(other)
    for place in own.uninitialised():
        if place not in matched:
            name = own.names.get(("l", place))
            why = "{} has fewer" if way == BY_ORDER else why_unmatched(name, known)
            names[why][shown(own, place)] = True
    for why, found in names.items():
        listed = [*list(found)[:NAMED],
                  *[f"and {len(found) - NAMED} others"] * (len(found) > NAMED)]
        own_path, other_path = map(escaped, paths)
        yield f"{own_path}: open at the start, without a partner: " \
            f"{' '.join(listed)} ({why.format(other_path)})"


def shown(circuit: Circuit, place: int) -> str:
    """Returns the printed name of a register: without the index of a bit or, if it has no name, its
    place."""
    name = circuit.names.get(("l", place))
    return f"l{place}" if name is None else word(decoded(re.sub(rb"\[[0-9]+\]$", b"", name)))


def uninitialised_names(circuit: Circuit) -> dict[bytes | None, bool]:
    """Returns for each name of a circuit's registers whether one of them is uninitialised."""
    known: dict[bytes | None, bool] = {}
    for i, reset in enumerate(circuit.resets):
        name = circuit.names.get(("l", i))
        known[name] = known.get(name, False) or reset > 1
    return known


def why_unmatched(name: bytes | None, known: Mapping[bytes | None, bool]) -> str:
    """Returns why a register has no counterpart by name. `known` are the other file's names, as
    `uninitialised_names` returns them."""
    if name is None:
        return "no name"
    if name not in known:
        return "{} has no register of that name"
    return "another one has that name" if known[name] else "that of {} starts with a constant"


def order(letter: str, first: Named, other: Named) -> list[int] | None:
    """Returns the positions of the second circuit's signals of a kind, in the order of the first
    circuit's names; None if the names differ.

    If the numbers differ, or not all names are there and different, the order stays."""
    ours, theirs = ([it.names.get((letter, i)) for i in range(getattr(it.header, KINDS[letter]))]
                    for it in (first, other))
    if len(ours) != len(theirs) or any(None in names or len(set(names)) < len(names)
                                       for names in (ours, theirs)):
        return list(range(len(theirs)))
    places = {name: i for i, name in enumerate(theirs)}
    return [places[name] for name in ours] if places.keys() == set(ours) else None


def orders(first: Named, other: Named) -> dict[str, list[int] | None]:
    """Returns these positions for each kind, by letter."""
    return {letter: order(letter, first, other) for letter in SIGNALS}


def arranged(circuit: Circuit, places: Mapping[str, Sequence[int]]) -> Circuit:
    """Returns a circuit whose signals have the given order, by letter."""
    made = copy.copy(circuit)
    made.names = {place: name for place, name in circuit.names.items() if place[0] not in places}
    for letter, own in places.items():
        literals = getattr(circuit, KINDS[letter])
        setattr(made, KINDS[letter], [literals[i] for i in own])
        made.names.update(((letter, i), circuit.names[letter, place])
                          for i, place in enumerate(own) if (letter, place) in circuit.names)
    return made


def best(names: Iterable[str]) -> str:
    """Returns the name that a register most likely has in the source: not a generated one, of the
    outermost module, and short."""
    return min(names, key=lambda name: (MADE.fullmatch(name) is not None,
                                        name.count("."), len(name), name))


def chosen(designs: Sequence[Mapping[int, Sequence[str]]]) -> list[dict[int, str]]:
    """Returns a name for each register of one or two designs, given all names of each.

    Registers of two designs get a name that both have, if there is one, and otherwise one that no
    other register has."""
    made: list[dict[int, str]] = [{} for _ in designs]
    if len(designs) == 2:
        places = {name: place for place, names in designs[1].items() for name in names}
        for place, names in designs[0].items():
            shared = [name for name in names if name in places]
            if shared and (other := places[best(shared)]) not in made[1]:
                made[0][place] = made[1][other] = best(shared)
    for own, known in zip(designs, made):
        taken = set(known.values())
        for place in own.keys() - known.keys():
            if left := set(own[place]) - taken:
                known[place] = best(left)
                taken.add(best(left))
    return made


def with_registers(circuit: Circuit, names: Mapping[int, str]) -> Circuit:
    """Returns a circuit whose registers have these names, by position."""
    made = copy.copy(circuit)
    made.names = {place: name for place, name in circuit.names.items() if place[0] != "l"}
    made.names.update((("l", place), encoded(names[place])) for place in sorted(names))
    return made
