"""Sorts the properties of a file by the places of their assertions in the design's text."""
import itertools
import re
from collections.abc import Sequence
from typing import NamedTuple

# A source location: the file, and the line and the column where it begins.
PLACE = re.compile(r"(.*):([0-9]+)\.([0-9]+)-[0-9.]+")
# A part of a name: text and the number behind it.
PART = re.compile(r"([^0-9]*)([0-9]*)")
# The name of an unnamed cell in an instance.
INNER = re.compile(r"\$flatten(\\\S*?)\.\$[a-z]+\$.*")


class Assertion(NamedTuple):
    """The assertion that a property stands for: its name, its source location, and whether the name
    comes from the design."""

    name: str
    place: str
    is_named: bool

    @property
    def path(self) -> str:
        """Its name; if it has none, the path of the instance that it is in, or ""."""
        inner = INNER.fullmatch(self.name)
        if self.is_named or not inner:
            return self.name * self.is_named
        return inner[1].replace(".\\", ".").lstrip("\\")


def order_of(assertions: Sequence[Assertion], files: Sequence[str]) -> list[int]:
    """Returns the indices of assertions, sorted by the files' order, then by line and column, and
    then by name.

    Numbers in names are compared as numbers. Assertions in other files come after those of `files`,
    and assertions without a source location last."""

    def key(i: int) -> tuple[bool, int, str, int, int, list[tuple[str, int]]]:
        found = PLACE.fullmatch(assertions[i].place)
        path, line, column = found.groups() if found else ("", "0", "0")
        name = [(text, int(digits or 0)) for text, digits in PART.findall(assertions[i].name)]
        own = numbers.get(path, len(files))
        return not path, own, path, int(line), int(column), name

    numbers = {path: i for i, path in enumerate(files)}
    return sorted(range(len(assertions)), key=key)


def ordered(data: bytes, order: Sequence[int], is_live: bool) -> bytes:
    """Returns a binary AIGER file with its bad state properties in another order or, if `is_live`,
    its justice properties.

    `order` has the old index of each property."""
    first, _, rest = data.partition(b"\n")
    numbers = [int(word) for word in first.split()[1:]] + [0] * 4
    _, _, latches, outputs, _, bads, constraints, lives, *_ = numbers
    begin = latches + outputs
    lines = rest.split(b"\n", begin + bads + constraints + lives)
    if not is_live:
        lines[begin:begin + bads] = [lines[begin + i] for i in order]
        return b"\n".join([first, *lines])
    begin += bads + constraints
    sizes = [int(line) for line in lines[begin:begin + lives]]
    *literals, tail = lines[-1].split(b"\n", sum(sizes))
    ends = list(itertools.accumulate(sizes))
    own = [literals[ends[i] - sizes[i]:ends[i]] for i in order]
    return b"\n".join([first, *lines[:begin], *(lines[begin + i] for i in order),
                       *(line for part in own for line in part), tail])
