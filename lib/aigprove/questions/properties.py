"""The properties of a file, which are checked together or one by one."""
from __future__ import annotations

import copy
from collections.abc import Iterator
from typing import TYPE_CHECKING, TypeVar

from aigprove.circuits.aiger import Circuit, Header
from aigprove.questions.checker import Subject
from aigprove.questions.input_file import InputFile
from aigprove.questions.target import Target, statements_about

if TYPE_CHECKING:
    from aigprove.output.evidence import Evidence
    from aigprove.output.report import PropertyAnswer

Own = TypeVar("Own", bound="Properties")


class Properties(Target):
    """The properties of one kind in a file, or one of them."""

    # The letter in front of a property's number; the names of all properties and of one in an
    # evidence folder; the option that selects one; and the command of aigedit that selects one.
    letter: str
    stems: tuple[str, str]
    option: str
    command: str
    # Whether a single property is checked, and its number; and the folder that has the file, if it
    # isn't the evidence folder itself.
    is_one, number, above = False, 0, ""

    def __init__(self, given: InputFile) -> None:
        self.given, self.path, self.name = given, given.path, given.name
        self.subject = Subject(given.file)

    def one(self: Own, number: int, above: str = "") -> Own:
        """Returns one of the properties, with the file in the folder `above`."""
        made = self.placed(above)
        made.is_one, made.number, made.stem = True, number, f"{self.stems[1]}-{number}"
        words = [f"--{self.option}", str(number)]
        made.subject = Subject(made.subject.file, words, [self.command, str(number)])
        made.lines = statements_about(self.letter, number)
        return made

    def placed(self: Own, above: str) -> Own:
        """Returns the same properties, with the file in the folder `above`."""
        made = copy.copy(self)
        made.above, made.name, made.stem = above, above + self.name, self.stems[0]
        return made

    def circuit(self) -> Circuit:
        """Returns the circuit whose names are used for printing traces."""
        return self.given.circuit()

    def places(self, header: Header) -> list[str]:
        """Returns the names of the properties in the AIGER report format."""
        return [f"{self.letter}{self.number}"] if self.is_one else super().places(header)

    def about(self) -> Iterator[str]:
        """Yields lines about what is checked, if that isn't obvious."""
        yield from self.given.about()

    def answers(self) -> list[PropertyAnswer]:
        """Returns an entry of the table for each property, without an answer yet."""
        from aigprove.output.report import PropertyAnswer

        named = self.given.properties(*self.counted())
        return [PropertyAnswer(self.letter, i, *it) for i, it in enumerate(named)]

    def counted(self) -> tuple[str, int]:
        """Returns the letter of the properties' names in the file, and their number."""
        return self.letter, self.given.header().justice

    def keep(self, evidence: Evidence) -> None:
        """Writes the file into an evidence folder, unless another folder has it."""
        if not self.above:
            self.given.keep(evidence)
