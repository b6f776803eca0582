"""Traces that reach a bad state, or are fair lassos, as witnesses in the AIGER report format."""
from __future__ import annotations

import re
from collections.abc import Sequence
from typing import NamedTuple

from aigprove.circuits.aiger import Fault, Header, Lines


class Witness(NamedTuple):
    """A trace, and the bad state or justice property that it shows.

    `start` has a value for each latch, and each of `steps` one for each input: 0, 1 or x."""

    bad: int
    start: str
    steps: Sequence[str]
    letter: str = "b"

    def text(self) -> str:
        """Returns its text in the AIGER report format."""
        lines = ["1", f"{self.letter}{self.bad}", self.start, *self.steps, "."]
        return "".join(line + "\n" for line in lines)

    def filled(self) -> Witness:
        """Returns the trace with 0 for each x."""
        steps = [row.replace("x", "0") for row in self.steps]
        return self._replace(start=self.start.replace("x", "0"), steps=steps)

    def showing(self, bad: int) -> Witness:
        """Returns the trace as a witness of another property."""
        return self._replace(bad=bad)

    def lasso(self, number: int, latches: int) -> Witness:
        """Returns the lasso that a trace of the l2s circuit describes, for the justice property
        `number` of a file with this number of latches.

        The additional inputs and latches of the l2s circuit are left out."""
        return Witness(number, self.start[:latches], [row[:-1] for row in self.steps], "j")


def lasso_of(data: bytes, latches: int) -> Witness:
    """Returns the lasso in a witness that aigcheck prints for a query about fairness."""
    _, _, start, *steps, _ = data.decode().split()
    return Witness(0, start, steps).lasso(0, latches)


def values_of(line: bytes, count: int, what: str) -> str:
    """Returns the values in a line. Raises Fault if it doesn't have `count` values."""
    if len(line) != count or line.strip(b"01x"):
        raise Fault.of("bad_values", what=what, count=count)
    return line.decode()


def skip_comments(lines: Lines) -> None:
    """Skips lines that begin with c. The last of them may be without a line feed."""
    while lines.data[lines.place:lines.place + 1] == b"c":
        end = lines.data.find(b"\n", lines.place)
        lines.place = len(lines.data) if end < 0 else end + 1


def read(lines: Lines, latches: int, inputs: int, letter: str = "b") -> Witness:
    """Returns the next witness in a stream.

    `latches` and `inputs` are their numbers, and `letter` is that of the property's kind. Raises
    Fault if there is none, or it is malformed."""
    skip_comments(lines)
    if lines.is_read():
        raise Fault.of("no_witness")
    if lines.line() != b"1":
        raise Fault.of("no_status")
    bad = lines.line()
    if not re.fullmatch(rb"%s[0-9]{1,1000}" % letter.encode(), bad):
        raise Fault.of("bad_property_line")
    start = values_of(lines.line(), latches, "the state")
    steps: list[str] = []
    while (line := lines.line()) != b".":
        steps.append(values_of(line, inputs, f"step {len(steps)}"))
    if not steps:
        raise Fault.of("no_step")
    return Witness(int(bad[1:]), start, steps, letter)


def read_for(data: bytes, header: Header, letter: str = "b") -> Witness:
    """Returns the first witness in a text, for a file with this header. Raises Fault if there is
    none, or it is malformed."""
    return read(Lines(data, "WITNESS"), header.latches, header.inputs, letter)
