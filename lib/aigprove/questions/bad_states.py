"""The bad state properties of a file, and the covers of a design."""
from __future__ import annotations

import re
from collections.abc import Iterable, Iterator, Sequence
from typing import TYPE_CHECKING

from aigprove.circuits.aiger import Circuit, Fault, Header, Lines, decoded
from aigprove.circuits.witness import Witness
from aigprove.designs.front_ends import BLIF, COVER, LIVE
from aigprove.options.options import DesignOptions, Options
from aigprove.output.signals import Signals, word
from aigprove.processes.files import Sealed
from aigprove.questions.checker import Checker, Claim, Subject
from aigprove.questions.input_file import InputFile
from aigprove.questions.properties import Properties
from aigprove.questions.target import Statements

if TYPE_CHECKING:
    from aigprove.designs.replay import Replay
    from aigprove.designs.verilog import Design
    from aigprove.output.evidence import Evidence

# The greatest number of uninitialised registers that are named.
MOST_NAMED = 8
# The lines of aigcheck about a file from before AIGER 1.9, whose outputs are its bad states, and
# the name of the transformed file in which they are bad state properties.
OF_OUTPUTS = Statements("no output is true at step {k}", "no output is true up to step {k}",
                        "no output is true at any step, if none up to step {k}",
                        "no output is true at any step")
BADS = "bads.aag"


class BadStates(Properties):
    """The bad state properties of one file.

    Raises Fault if a design has no assertion, or the file is refused."""

    letter, stems, stem, option = "b", ("properties", "property"), "file", "property"
    command = "property"
    # Whether the query is about the outputs of the file itself, and not about the transformed file.
    is_by_outputs = False

    def __init__(self, options: Options, above: str, checker: Checker,
                 design: DesignOptions | None = None,
                 given: Sequence[Sealed] | None = None) -> None:
        design = design or options.design
        super().__init__(InputFile(options.files, design, above, checker, self.stem, given))
        # The outputs of a design that only has covers aren't bad states.
        is_blif, own = BLIF in self.given.kinds, self.given.design
        self.is_old = is_old(self.given.line) and (not own or is_blif)
        if own and not is_blif and not (own.assertions or self.has_later(design.later)):
            raise Fault.of("no_assertion", path=self.path, top=own.top)
        self.is_by_outputs = self.is_old
        if self.is_old:
            self.subject, self.lines = Subject(self.given.file, ["--outputs"], ["bads"]), OF_OUTPUTS
        self.replay: Replay | None = None

    def placed(self, above: str) -> BadStates:
        """Returns the same properties, with the file in the folder `above`.

        If its outputs are bad states, this is the transformed file, so that each of them may be
        checked separately."""
        made = super().placed(above)
        if self.is_old:
            made.is_by_outputs, made.name = False, above + BADS
            made.subject, made.lines = Subject(self.given.bads), Statements()
        return made

    def run(self, checker: Checker, trace: Witness) -> Claim:
        """Returns the claim that a trace reaches a bad state, after aigcheck has checked it. Raises
        Fault if aigcheck refuses it."""
        own = super().run if not self.is_by_outputs else self.placed("").run
        return own(checker, trace)

    def keep_run(self, evidence: Evidence, checker: Checker, trace: Witness) -> None:
        """Writes a trace into an evidence folder, with the transformed file if the trace is about
        outputs."""
        if self.is_by_outputs:
            self.keep_bads(evidence)
        super().keep_run(evidence, checker, trace)

    def keep_bads(self, evidence: Evidence) -> None:
        """Writes the transformed file into an evidence folder, with the command that generates
        it."""
        evidence.makes(BADS, self.given.bads, "bads", self.given.name)

    def of_file(self, trace: Witness) -> Witness:
        """Returns a witness of the file, given one of the engines' file."""
        return trace.showing(self.number) if self.is_one else trace

    def warnings(self) -> Iterator[str]:
        """Yields warnings about what isn't checked."""
        return self.given.warnings()

    def has_later(self, kinds: Iterable[str]) -> bool:
        """Returns whether the design has properties of these kinds, which other queries check."""
        design = self.given.design
        return design is not None and (COVER in kinds and design.has_covers
                                       or LIVE in kinds and design.has_lives)

    def counted(self) -> tuple[str, int]:
        """Returns the letter of the properties' names in the file, and their number."""
        header = self.given.header()
        return ("o", header.outputs) if self.is_old else ("b", header.bads)

    def about(self) -> Iterator[str]:
        """Yields lines about what is checked, if that isn't obvious."""
        yield from super().about()
        if self.is_old:
            yield "the outputs are taken for bad state properties: " \
                "the file is of a time before these"

    def lines_of_run(self, signals: Signals, circuit: Circuit, trace: Witness) -> Iterator[str]:
        """Yields the lines of a trace, with the values in yosys's simulation if the file is a
        design."""
        design = self.given.design
        if design is None or not design.assertions:
            return super().lines_of_run(signals, circuit, trace)
        return self.lines_of_design(design, signals, circuit, trace)

    def lines_of_design(self, design: Design, signals: Signals, circuit: Circuit,
                        trace: Witness) -> Iterator[str]:
        """Yields the lines of a trace with the values that the failing assertion reads in yosys's
        simulation."""
        from aigprove.designs.replay import Replay

        own, text = design.assertion(trace.bad)
        self.replay = None
        try:
            replay = self.replay = Replay(design, circuit, trace)
        except Fault as why:
            yield from super().lines_of_run(signals, circuit, trace)
            yield from self.uninitialised_registers(design, circuit, trace)
            yield from [f"{own} fails", f"yosys doesn't run it: {why}"]
        else:
            latches = replay.latches | self.uninitialised(circuit, trace)
            yield from signals.lines(trace, latches, replay.changes)
            yield from self.uninitialised_registers(design, circuit, trace)
            if replay.trouble:
                yield f"{own} fails by the file, but where yosys runs the design {replay.trouble}"
            else:
                yield f"{own} fails, as yosys runs it"
                yield from replay.read(len(trace.steps) - 1)
        yield from [f"it says: {text}"] * bool(text)

    def dump(self, circuit: Circuit, trace: Witness) -> Iterable[str]:
        """Returns the lines of a value change dump: that of yosys's simulation, if there is one."""
        return self.replay.dump.splitlines() if self.replay else super().dump(circuit, trace)

    def uninitialised_registers(self, design: Design, circuit: Circuit,
                                trace: Witness) -> Iterator[str]:
        """Yields the line that names the uninitialised registers whose values matter."""
        bits = [decoded(circuit.names.get(("l", i), b""))
                for i in sorted(self.uninitialised(circuit, trace))]
        registers = dict.fromkeys(re.sub(r"\[[0-9]+\]$", "", bit) for bit in bits)
        names = [name for name in registers if name and name not in design.constants]
        if names:
            count = len(names) - MOST_NAMED
            others = f" and {count} others" if count > 0 else ""
            hint = "" if design.reset else " (--reset SIGNAL begins with a reset)"
            listed = " ".join(map(word, names[:MOST_NAMED]))
            yield f"open at the start: {listed}{others}{hint}"

    def keep(self, evidence: Evidence) -> None:
        """Writes the file into an evidence folder, and the transformed file if properties are about
        that."""
        super().keep(evidence)
        if self.is_old and not self.is_by_outputs and not self.above:
            self.keep_bads(evidence)


class Covers(BadStates):
    """The covers of a design, as bad state properties of a separate file. `first` is the file of
    the assertions."""

    letter, stems, stem = "c", ("covers", "cover"), "covers"

    def __init__(self, options: Options, above: str, checker: Checker, first: InputFile) -> None:
        design = of_kind(COVER, options.design, first)
        super().__init__(options, above, checker, design, first.given)


def of_kind(kind: str, options: DesignOptions, first: InputFile) -> DesignOptions:
    """Returns the options for the properties of a kind in a design that has been read as `first`.

    Warnings are off, because they were printed then."""
    assert first.design
    return options._replace(is_quiet=True, kind=kind, top=first.design.top)


def is_old(line: bytes) -> bool:
    """Returns whether a header line is from before AIGER 1.9, and has outputs, which are bad states
    in such a file."""
    try:
        header = Header(Lines(line, "FILE"))
    except Fault:
        return False
    return header.is_old and header.outputs > 0
