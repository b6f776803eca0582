"""The files on the command line. Each is read once, into memory that can't be written any more."""
from __future__ import annotations

import errno
import functools
import re
from collections.abc import Iterator, Sequence
from typing import TYPE_CHECKING

from aigprove.circuits.aiger import Circuit, Fault, Header, Lines, Symbols, decoded, encoded
from aigprove.data import message
from aigprove.designs.front_ends import (
    FRONTS, STANDARD_INPUT, VERILOG, File, kind_of, overdue)
from aigprove.options.options import DesignOptions
from aigprove.output.messages import say
from aigprove.processes.files import Sealed, new_folder, sealed
from aigprove.processes.scheduler import Stopped, Task
from aigprove.questions.checker import Checker

if TYPE_CHECKING:
    from aigprove.designs.verilog import Design
    from aigprove.output.evidence import Evidence

# The file name extensions of designs.
ENDS = ", ".join(FRONTS)
# PAST is Verilog's expression for a signal's value in an earlier step, and INDEX the index of a
# bit.
PAST, INDEX = re.compile(rb"\$past\((.*?)(?:,([0-9]+))?\)"), re.compile(rb"(\[[0-9]+\])?\Z")
# Options for designs, with the front ends that know them; None stands for all.
OF_DESIGNS: dict[str, list[str] | None] = {
    **dict.fromkeys(["top", "reset", "parameter", "black_box", "multiclock"]),
    **dict.fromkeys(["define", "include", "stops"], [VERILOG]),
}


class InputFile:
    """A file on the command line, in AIGER format.

    A design is translated first. `name` is its name in an evidence folder, without the extension;
    `given` are the files if they have been read already. Raises Fault if a file is refused."""

    def __init__(self, paths: Sequence[str], options: DesignOptions, above: str, checker: Checker,
                 name: str = "file", given: Sequence[Sealed] | None = None) -> None:
        self.path, self.checker, self.stem = paths[0], checker, name
        self.given = given or [
            sealed("/dev/stdin" if path == STANDARD_INPUT else path, checker.limit)
            for path in paths]
        self.kinds = [kind_of(path, file.line()) for path, file in zip(paths, self.given)]
        self.check_kinds(paths, options)
        self.design: Design | None = None
        if not self.kinds[0] and not self.given[0].line().startswith(b"a"):
            raise Fault.of("unknown_kind", path=paths[0], ends=ENDS)
        if self.kinds[0]:
            files = [File(path, file.data()) for path, file in zip(paths, self.given)]
            try:
                self.design = design_of(files, options, new_folder(above, "design"), checker.task)
            except Stopped:
                raise overdue(paths[0]) from None
        self.take(sealed(self.design.file, checker.limit) if self.design else self.given[0])
        self.print_warnings(options)

    def print_warnings(self, options: DesignOptions) -> None:
        """Prints yosys's warnings about a design, and the properties that aren't checked now or
        later."""
        if self.design and not options.is_quiet:
            unchecked = self.design.unchecked
            for line in [*self.design.yosys.warnings, *self.design.notes,
                         *(line for kind, line in unchecked if kind not in options.later)]:
                say(line)

    def take(self, file: Sealed) -> None:
        """Sets the file in AIGER format."""
        self.file, self.line = file, file.line()
        self.name = f"{self.stem}.{form(self.line)}"

    def check_kinds(self, paths: Sequence[str], options: DesignOptions) -> None:
        """Raises Fault if one of several files isn't part of a design, or if an option is given
        that the files' kind doesn't have."""
        for path, kind in zip(paths, self.kinds):
            if not kind and len(paths) > 1:
                raise Fault.of("not_of_design", path=path, ends=ENDS)
        for option, of in OF_DESIGNS.items():
            given, known = getattr(options, option), of or FRONTS.values()
            if given and not any(kind and FRONTS[kind] in known for kind in self.kinds):
                kind = "not_design_top" if option == "top" else \
                    "not_verilog" if of else "not_design"
                raise Fault.of(kind, path=self.path, value=given,
                               option=option.replace("_", "-"))

    def header(self) -> Header:
        """Returns the header of the file in AIGER format."""
        return Header(Lines(self.line, "FILE"))

    @functools.cached_property
    def bads(self) -> Sealed:
        """The transformed file, in which outputs are bad state properties."""
        return self.checker.transformed("bads", self.file)

    def has_justice(self) -> bool:
        """Returns whether an AIGER file has a justice property. If its header is malformed, the
        result is False, and the error is reported later."""
        try:
            return not self.design and self.header().justice > 0
        except Fault:
            return False

    def circuit(self) -> Circuit:
        """Returns the circuit with all its names.

        If a design has several names for a signal, that of the outermost module is used."""
        circuit = self.checker.circuit(self.file, "FILE")
        if self.design:
            circuit.names = {place: outermost(name) for place, name in circuit.names.items()}
            name_last_values(circuit)
        return circuit

    def symbols(self) -> Circuit | Symbols:
        """Returns an object with the circuit's header and names, without reading the gates if
        possible."""
        return self.circuit() if self.design else Symbols(Lines(self.file.data(), "FILE"))

    def properties(self, letter: str, count: int) -> list[tuple[str, str]]:
        """Returns the name and the source location of each property: of a design's assertions, or
        of the `count` signals of a kind."""
        if self.design and self.design.assertions:
            return self.design.named()
        names = self.circuit().names
        return [(decoded(names.get((letter, i), b"")), "") for i in range(count)]

    def named(self) -> tuple[Circuit, dict[int, list[str]]]:
        """Returns the circuit of a design, with the names of its assertions, and all names of each
        register by its position."""
        from aigprove.designs.netlist import all_names

        assert self.design
        circuit, known = self.checker.circuit(self.file, "FILE"), self.design.aliases
        told = {place[1]: decoded(name) for place, name in circuit.names.items()
                if place[0] == "l"}
        names = {place: [it for own in name.split(" ") for it in all_names(own, known)]
                 for place, name in told.items()}
        circuit.names = {place: outermost(name) for place, name in circuit.names.items()
                         if place[0] != "l"}
        circuit.names.update((("b", i), encoded(it.name))
                             for i, it in enumerate(self.design.assertions) if it.is_named)
        return circuit, names

    def warnings(self) -> Iterator[str]:
        """Yields a warning if the file has justice or fairness, which isn't checked."""
        header = self.header()
        unseen = [*counted(header.justice, "justice property", "justice properties"),
                  *counted(header.fairness, "fairness constraint")]
        yield from skipped(self.path, unseen, header.justice + header.fairness)

    def about(self) -> Iterator[str]:
        """Yields the line that counts a design's properties."""
        if self.design:
            yield self.design.about()

    def keep(self, evidence: Evidence) -> None:
        """Writes the file, and those from which it was generated, into an evidence folder."""
        evidence.put(self.name, self.file)
        for i, (kind, file) in enumerate(zip(self.kinds, self.given)):
            if kind:
                evidence.put(f"{self.name[:-4]}{f'-{i}' if i else ''}{kind}", file)
            elif file is not self.file:
                evidence.put(f"{self.stem}-given.{form(file.line())}", file)


def design_of(files: Sequence[File], options: DesignOptions, folder: str, task: Task) -> Design:
    """Returns the design in the given files. Raises Fault if it is refused."""
    # The patterns of this module take long to compile.
    from aigprove.designs import verilog
    from aigprove.designs.yosys import full

    try:
        return verilog.Design(files, options, folder, task)
    except OSError as why:
        if why.errno != errno.ENOSPC:
            raise
        raise full(folder) from None


def counted(number: int, one: str, many: str | None = None) -> list[str]:
    """Returns a list with the number and the noun, such as "2 bads", or an empty list for 0.

    `many` is the plural, if it isn't formed with s."""
    return [f"{number} {one if number == 1 else many or one + 's'}"] if number else []


def skipped(path: str, unseen: Sequence[str], count: int) -> Iterator[str]:
    """Yields the warning that a file has more than what is checked.

    `unseen` describes what isn't checked, and `count` is how many of it there are."""
    if unseen:
        kind = "was_skipped" if count == 1 else "were_skipped"
        yield message(kind, path=path, what=" and ".join(unseen))


def outermost(name: bytes) -> bytes:
    """Returns, of the names of a signal, separated by spaces, the one that goes through the fewest
    modules, and of these the shortest."""
    return min(name.split(b" "), key=lambda it: (it.count(b"."), len(it), it))


def name_last_values(circuit: Circuit) -> None:
    """Names the registers that yosys creates for `$past(a)`, if the value that they sample has a
    name."""
    known = {literal: name for letter, i, literal in circuit.signals()
             if letter in "il" and (name := circuit.names.get((letter, i)))}
    left = {i for i, latch in enumerate(circuit.latches) if latch not in known}
    while new := {i: known[circuit.nexts[i]] for i in left if circuit.nexts[i] in known}:
        for i, name in new.items():
            circuit.names["l", i] = known[circuit.latches[i]] = last_value(name)
        left -= new.keys()


def last_value(name: bytes) -> bytes:
    """Returns Verilog's expression for the last value of a signal, or of a bit of one."""
    longer = PAST.sub(lambda it: b"$past(%s,%d)" % (it[1], int(it[2] or 1) + 1), name)
    return longer if longer != name else b"$past(" + INDEX.sub(rb")\1", name, count=1)


def form(line: bytes) -> str:
    """Returns the file name extension for a file with this header line."""
    return "aag" if line.startswith(b"aag") else "aig"
