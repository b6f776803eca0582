"""The justice properties of a file, and the liveness assertions of a design.

Engines get the l2s circuit that aigedit generates (`live`), whose bad state means that a fair lasso
is complete. A liveness assertion of a design is a justice property of a separate file: a fair run
on which the assertion fails."""
from __future__ import annotations

import copy
from collections.abc import Iterable, Iterator, Sequence
from typing import TYPE_CHECKING

from aigprove.circuits.aiger import Circuit, Fault
from aigprove.circuits.witness import Witness
from aigprove.designs.front_ends import FAIR, LIVE
from aigprove.output import waves
from aigprove.processes.files import Sealed
from aigprove.questions.bad_states import of_kind
from aigprove.questions.checker import Checker, Claim, Subject
from aigprove.questions.input_file import InputFile, counted, skipped
from aigprove.questions.properties import Properties
from aigprove.questions.target import Statements, Target, changes_of

if TYPE_CHECKING:
    from aigprove.options.options import Options
    from aigprove.output.signals import Signals


class Justice(Properties):
    """The justice properties of a file, or one of them. Raises Fault if a design has no liveness
    assertion."""

    letter, stems, option, command = "j", ("justices", "justice"), "justice", "live"
    counts, can_be_simulated = True, False
    # Whether this property is the only one that is checked.
    is_alone = True

    def __init__(self, given: InputFile) -> None:
        super().__init__(given)
        design = given.design
        if design and not (design.has_lives and design.assertions):
            raise Fault.of("no_liveness", path=self.path, top=design.top)

    def one(self, number: int, above: str = "") -> Justice:
        """Returns one of the properties. Raises Fault if there is none with this number."""
        if number >= self.given.header().justice:
            raise Fault.of("no_justice", path=self.path)
        made = super().one(number, above)
        made.so_far, made.nothing = f"no fair lasso of j{number}", f"nothing was shown of j{number}"
        made.printed = Statements(*(f"live: {line}" for line in Statements()))
        made.printed = made.printed._replace(safe=made.lines.safe)
        return made

    def each(self) -> Iterator[Target]:
        """Yields each property, as one of several that are checked."""
        for number in range(self.given.header().justice):
            made = self.one(number)
            made.is_alone = False
            yield made

    def counting(self, count: int) -> Justice:
        """Returns the circuit whose bad state means that `count` rounds have ended. If it is never
        reached, no run is fair."""
        made, (_, number) = copy.copy(self), self.subject.edit
        words = [*self.subject.words, "--rounds", str(count)]
        made.subject = self.subject._replace(words=words, edit=["rounds", number, str(count)])
        return made

    def is_fair(self) -> bool:
        """Returns whether there are fairness constraints."""
        return self.given.header().fairness > 0

    def warnings(self) -> Iterator[str]:
        """Yields a warning about the file's other properties, unless these are checked as well."""
        header = self.given.header()
        unseen = [*counted(header.bads, "bad state property", "bad state properties"),
                  *counted(header.justice - 1, "other justice property",
                           "other justice properties")]
        if self.is_alone:
            yield from skipped(self.path, unseen, header.bads + header.justice - 1)

    def about(self) -> Iterator[str]:
        """Yields the lines about the design and the property."""
        if self.is_alone or self.number == 0:
            yield from self.given.about()
        if self.given.design:
            yield f"j{self.number}: {self.given.design.assertion(self.number)[0]}"

    def of_file(self, trace: Witness) -> Witness:
        """Returns the lasso of the file, given a trace of the l2s circuit."""
        return trace.lasso(self.number, self.given.header().latches)

    def run(self, checker: Checker, trace: Witness) -> Claim:
        """Returns the claim that a lasso is fair, after aigcheck has checked it. Raises Fault if
        aigcheck refuses it."""
        files = {self.name: self.given.file, "witness": Sealed(trace.text().encode())}
        line, _ = checker.lasso(Subject(self.given.file), files["witness"])
        return Claim(line, ["run", *files], files)

    def loop(self, lasso: Witness) -> tuple[int, int]:
        """Returns the first and last step of a lasso's loop, as aigcheck finds them."""
        run = Sealed(lasso.text().encode())
        return self.given.checker.lasso(Subject(self.given.file), run)[1]

    def found(self, signals: Signals, traces: Sequence[Witness]) -> str:
        """Returns the line that names the property and the loop."""
        place = signals.place("j", self.number)
        return f"a fair run of {place}: {span(*self.loop(traces[0]))} again and again"

    def lines_of_run(self, signals: Signals, circuit: Circuit, lasso: Witness) -> Iterator[str]:
        """Yields the lines of a lasso.

        They have the initial values of latches that the property reads, or that are uninitialised
        and matter, and the inputs of each step."""
        literals = circuit.justice[self.number] + circuit.fairness
        read: set[int] = set().union(*map(circuit.read_by, literals))
        read = named(circuit, read) if self.given.design else read
        read |= self.uninitialised(circuit, lasso)
        signals.hidden = self.watching(circuit)
        yield from signals.lines(lasso, read, changes_of(signals, circuit, lasso, read))
        yield from self.meaning(lasso)

    def uninitialised(self, circuit: Circuit, trace: Witness) -> set[int]:
        """Returns the positions of the latches that are uninitialised, and whose values matter. In
        a design these have names."""
        return {i for i in super().uninitialised(circuit, trace)
                if not self.given.design or ("l", i) in circuit.names}

    def watching(self, circuit: Circuit) -> set[str]:
        """Returns the places of the inputs and latches that yosys adds for liveness.

        They are the last ones: for each assertion, an input that chooses the step from which on it
        fails, and two latches; for each assumption, a latch."""
        counts = self.given.design.counts if self.given.design else {LIVE: 0, FAIR: 0}
        last = {"i": (len(circuit.inputs), counts[LIVE]),
                "l": (len(circuit.latches), 2 * counts[LIVE] + counts[FAIR])}
        return {f"{letter}{i}" for letter, (end, count) in last.items()
                for i in range(end - count, end)}

    def meaning(self, lasso: Witness) -> Iterator[str]:
        """Yields the lines that say from which step on the assertion fails."""
        design = self.given.design
        if design:
            own, text = design.assertion(self.number)
            place = design.order[self.number] - design.counts[LIVE]
            chosen = [row[place] for row in lasso.steps]
            yield f"{own} fails: from step {chosen.index('1')} on it is never met"
            yield from [f"it says: {text}"] * bool(text)

    def dump(self, circuit: Circuit, lasso: Witness) -> Iterable[str]:
        """Returns the lines of a value change dump in which the loop is marked."""
        return waves.dump(circuit, lasso.start, lasso.steps, self.loop(lasso)[0])


def lives(options: Options, above: str, checker: Checker, first: InputFile) -> Justice:
    """Returns the liveness assertions of a design that has been read as `first`."""
    design = of_kind(LIVE, options.design, first)
    return Justice(InputFile(options.files, design, above, checker, "lives", first.given))


def given_justice(options: Options, above: str, checker: Checker) -> Target:
    """Returns the justice property that `--justice` selects."""
    assert options.justice is not None
    given = InputFile(options.files, options.design, above, checker)
    return Justice(given).one(options.justice)


def span(begin: int, last: int) -> str:
    """Returns the name of a range of steps."""
    return f"step {begin}" if begin == last else f"steps {begin} to {last}"


def named(circuit: Circuit, left: set[int]) -> set[int]:
    """Returns the positions of the named latches among these, and of those that unnamed ones read,
    directly or through others."""
    seen: set[int] = set()
    while left - seen:
        nameless = {i for i in left - seen if ("l", i) not in circuit.names}
        seen |= left
        left = set().union(*(circuit.read_by(circuit.nexts[i]) for i in nameless))
    return {i for i in seen if ("l", i) in circuit.names}
