"""Compares two files by checking their miter, which aigedit generates."""
from __future__ import annotations

import copy
from collections.abc import Iterable, Iterator, Mapping, Sequence

from aigprove.circuits import simulation
from aigprove.circuits.aiger import Circuit, Fault, Header, Symbols, decoded
from aigprove.circuits.minimal import SMALL, simulated
from aigprove.circuits.simulation import SIMULATED
from aigprove.circuits.witness import Witness
from aigprove.data import message
from aigprove.designs.front_ends import FRONTS, VERILOG, kind_of
from aigprove.equality import matched
from aigprove.equality.ends import NAMED, End, unmet
from aigprove.equality.matched import SIGNALS, Starts, mismatch
from aigprove.options.options import APART, BOTH, BY_NAME, COMPARED, FIRST, DesignOptions, Options
from aigprove.output.evidence import Evidence
from aigprove.output.signals import Signals, word
from aigprove.processes.files import Sealed
from aigprove.processes.groups import BackgroundCall
from aigprove.processes.scheduler import Stopped
from aigprove.questions.checker import MISMATCH, Checker, Claim, Question, Subject
from aigprove.questions.input_file import InputFile
from aigprove.questions.target import Statements, Target

# The text behind lines, by the value of `--constraints`.
BEHIND = {BOTH: "", FIRST: ", under the constraints of the first alone",
          COMPARED: ", constraints too"}
# The seconds for finding initial values that don't matter.
SECONDS = 1
# The greatest number of undefined values, and of signals with two names, that are listed.
FEW = 10
# The letter and position of what a bad state property of the miter compares; None for the
# constraints.
Compared = tuple[str, int] | None


class Pair(Target):
    """Two files, whose outputs and bad states are compared by their miter.

    Raises Fault if a file is refused, or if their interfaces differ."""

    name, so_far = "miter.aag", "equal"
    empty, can_be_simulated = "nothing_to_compare", False

    def __init__(self, options: Options, above: str, checker: Checker) -> None:
        assert options.equal
        self.checker, self.paths = checker, [options.files[0], options.equal[0]]
        self.path = " and ".join(self.paths)
        self.known: list[Circuit] | None = None
        self.first, self.other = self.read(options, options.equal, above)
        designs = [it for it in [self.first, self.other] if it.design]
        for given, circuit in zip(designs, self.arranged([it.named() for it in designs])):
            given.take(Sealed(circuit.text()))
        # Without constraints, the option has no meaning.
        self.constraints = BOTH
        if options.constraints and any(self.constrained()):
            self.constraints = options.constraints
        way = options.starts or (BY_NAME if len(designs) == 2 else APART)
        self.begin(way)
        self.by_name = [] if len(designs) == 2 else self.put_in_order()
        if self.by_name:
            self.behind = f", {' and '.join(self.by_name)} matched by name"
            self.begin(way)
        # The circuits aren't kept: they are seldom needed again.
        self.by_position, self.known = list(self.lines_by_position()), None

    def read(self, options: Options, others: Sequence[str],
             above: str) -> tuple[InputFile, InputFile]:
        """Returns both files, which are read in parallel.

        If the first can't be read, or a signal arrives, the other reading is stopped."""
        design = of_second(options.design, others)
        reading = BackgroundCall(InputFile, others, design._replace(is_quiet=True),
                                 above, self.checker, "other")
        try:
            first = InputFile(options.files, options.design, above, self.checker)
            second = reading.result()
        except BaseException as why:
            self.checker.task.scheduler.stop()
            reading.give_up()
            # A timeout of the second file is reported.
            raise (isinstance(why, Stopped) and reading.error) or why
        second.print_warnings(design)
        return first, second

    def arranged(self, designs: Sequence[tuple[Circuit, dict[int, list[str]]]]) -> list[Circuit]:
        """Returns the circuits of designs with matching names of registers.

        All names of registers are given. If both files are designs, the second one's signals get
        the order of the first one's. Raises Fault if their names differ."""
        names = matched.chosen([own for _, own in designs])
        circuits = [matched.with_registers(circuit, own)
                    for (circuit, _), own in zip(designs, names)]
        orders = matched.orders(*circuits) if len(circuits) == 2 else {}
        if unlike := [letter for letter, places in orders.items() if places is None]:
            raise Fault(mismatch(self.paths, circuits, unlike))
        known = {letter: places for letter, places in orders.items() if places is not None}
        return [*circuits[:1], *(matched.arranged(circuit, known) for circuit in circuits[1:])]

    def put_in_order(self) -> list[str]:
        """Reorders the second file's signals if both files have the same names in another order,
        and returns the kinds of signals that changed.

        From then on, the reordered file is the one that is checked."""
        orders = matched.orders(*self.symbols())
        changed = {letter: places for letter, places in orders.items()
                   if places and places != sorted(places)}
        if changed:
            self.other.take(Sealed(matched.arranged(self.other.circuit(), changed).text()))
            self.known = None
        return [SIGNALS[letter][0] for letter in changed]

    def begin(self, way: str) -> None:
        """Generates the miter. `way` says how the initial values of registers are matched."""
        words = self.called("miter", matched.SUFFIXES[way])
        try:
            miter = self.checker.transformed(*words, self.first.file, self.other.file)
        except Fault as why:
            if not str(why).startswith(MISMATCH):
                raise
            raise Fault(mismatch(self.paths, self.circuits())) from None
        self.subject = Subject(miter)
        circuits = [] if way == APART else self.circuits()
        self.unmatched = list(matched.unmatched(way, self.paths, *circuits)) if circuits else []
        self.starts = Starts(way, *circuits)
        self.qualifier = BEHIND[self.constraints] + self.starts.qualifier
        _, bounded, window, _ = Statements()
        self.lines = Statements("equal at step {k}" + self.qualifier, bounded, window,
                                "equal at every step" + self.qualifier)
        self.printed = self.lines._replace(bounded=f"miter: {bounded}", window=f"miter: {window}")

    def called(self, command: str, suffix: str) -> list[str]:
        """Returns the first words of a command of aigedit or aigcheck."""
        setting = ["--constraints", self.constraints] if self.constraints != BOTH else []
        return [*setting, command + suffix]

    def constrained(self) -> list[int]:
        """Returns the numbers of constraints of both files."""
        return [it.header().constraints for it in [self.first, self.other]]

    def latches(self) -> list[int]:
        """Returns how many latches of the miter belong to each file.

        If constraints are compared, each file has one more, which is true while its constraints
        have held."""
        extra = self.constraints == COMPARED
        return [it.header().latches + extra for it in [self.first, self.other]]

    def circuits(self) -> list[Circuit]:
        """Returns the circuits of both files, which are cached while the miter is generated."""
        self.known = self.known or [self.first.circuit(), self.other.circuit()]
        return self.known

    def symbols(self) -> Sequence[Circuit | Symbols]:
        """Returns the headers and names of both files, from the circuits if they are cached."""
        if self.known:
            return self.known
        return [self.first.symbols(), self.other.symbols()]

    def with_equal_starts(self) -> Target | None:
        """Returns the same pair with matched initial values, if registers can be matched and aren't
        yet."""
        if self.starts.partners:
            return None
        made, circuits = copy.copy(self), self.circuits()
        if all(circuit.uninitialised() for circuit in circuits):
            made.begin(matched.way_by_names(circuits))
        return made if made.starts.partners else None

    def way(self) -> str:
        """Returns how registers are matched, as the value of `--starts`."""
        return self.starts.way

    def up_to(self, k: int) -> str:
        """Returns the line that says that all steps up to `k` are equal, and under which
        conditions."""
        return super().up_to(k) + self.qualifier + self.behind

    def assumed(self, header: Header) -> int:
        """Returns the number of constraints of both files, or of the first."""
        first, other = self.constrained()
        return first if self.constraints == FIRST else first + other

    def assuming(self) -> Target:
        """Returns the pair whose miter has the constraints of both files, if these are compared."""
        if self.constraints != COMPARED:
            return self
        made = copy.copy(self)
        made.constraints, made.name = BOTH, "both.aag"
        made.begin(self.starts.way)
        return made

    def unsolvable(self, question: Question, proof: Sealed) -> Claim:
        """Returns the claim that a query has no solution. At a single step it is a claim about both
        files."""
        if question.command != "query":
            return super().unsolvable(question, proof)
        words = [str(question.k), question.name]
        return self.compares(self.lines.of(question), words, {question.name: proof})

    def unreached(self, command: str, words: Sequence[str], files: Mapping[str, Sealed]) -> Claim:
        """Returns the claim that both files are equal at every step."""
        return self.compares(self.lines.safe, ["by"] * (command == "certified") + [*words], files)

    def started(self) -> dict[int, int]:
        """Returns, by positions in the miter, the latch with the same initial value for each latch
        that is matched."""
        count, _ = self.latches()
        return {count + i: partner for i, partner in self.starts.partners.items()}

    def compares(self, line: str, words: Sequence[str], proofs: Mapping[str, Sealed]) -> Claim:
        """Returns the claim that aigcheck checks about both files."""
        files = {self.first.name: self.first.file, self.other.name: self.other.file, **proofs}
        called = self.called("equal", self.starts.suffix)
        return Claim(line, [*called, self.first.name, self.other.name, *words], files)

    def compared(self) -> list[Compared]:
        """Returns what each bad state property of the miter compares: constraints, if these are
        compared, then outputs and bad states, by letter and position."""
        header, both = self.first.header(), [None] * (self.constraints == COMPARED)
        counts = [("o", header.outputs), ("b", header.bads)]
        return [*both, *((letter, i) for letter, count in counts for i in range(count))]

    def circuit(self) -> Circuit:
        """Returns the circuit of the miter. Its properties have the names of what they compare."""
        circuit, first = self.checker.circuit(self.subject.file, "MITER"), self.first.circuit()
        circuit.names.update((("b", i), first.name(*place) if place else b"constraints")
                             for i, place in enumerate(self.compared()))
        if self.constraints == COMPARED:
            own, other = self.latches()
            circuit.names[("l", own - 1)] = b"constraints_held"
            circuit.names[("l", own + other - 1)] = b"other.constraints_held"
        return circuit

    def warnings(self) -> Iterator[str]:
        """Yields warnings about both files, and about their constraints."""
        yield from self.first.warnings()
        yield from self.other.warnings()
        first, other = self.constrained()
        if (first or other) and self.constraints != COMPARED:
            kind = "compared_first" if self.constraints == FIRST else "compared_runs"
            yield message(kind, paths=self.path, first=first, other=other)

    def about(self) -> Iterator[str]:
        """Yields lines about designs, and about how registers, inputs, outputs and bad states are
        matched."""
        yield from self.first.about()
        yield from self.other.about()
        yield from self.unmatched
        yield from self.same_free()
        for kind in self.by_name:
            yield f"{kind} are matched by name: those of the second file are checked in the " \
                "order of the first"
        yield from self.by_position

    def lines_by_position(self) -> Iterator[str]:
        """Yields lines about signals that are matched by position, and have different names."""
        first, other = (it.names for it in self.symbols())
        for letter, (kind, _) in SIGNALS.items():
            places = sorted(place for place in first.keys() & other.keys()
                            if place[0] == letter and first[place] != other[place])
            for place in places[:FEW]:
                names = " and ".join(word(decoded(it[place])) for it in (first, other))
                yield f"{kind} are matched by position: {letter}{place[1]} is {names}"
            if len(places) > FEW:
                yield f"{kind} are matched by position: {len(places) - FEW} others have two " \
                    "names, too"

    def same_free(self) -> Iterator[str]:
        """Yields the line about undefined values that both designs have, and that are one input of
        the miter."""
        free = [dict.fromkeys(it.design.left_open) for it in [self.first, self.other] if it.design]
        both = [word(name) for name in free[0] if name in free[1]] if len(free) == 2 else []
        if both:
            others = [f"and {len(both) - FEW} others"] * (len(both) > FEW)
            listed = " ".join([*both[:FEW], *others])
            yield f"both leave open, and have the same value for: {listed}"

    def others(self, circuit: Circuit, trace: Witness) -> list[Witness]:
        """Returns witnesses for what else differs at the end of a trace, or may differ if the trace
        is too long to be simulated."""
        differing = list(range(len(circuit.bads)))
        if len(trace.steps) * len(circuit.gates) <= SIMULATED:
            *_, values = simulation.run(circuit, trace.start, trace.steps)
            differing = [bad for bad in differing if values[circuit.bads[bad]] == "1"]
        return [trace.showing(bad) for bad in differing[:NAMED] if bad != trace.bad]

    def mattering(self, traces: Sequence[Witness]) -> Sequence[Witness]:
        """Returns the witnesses for constraints, if these differ, and otherwise all: nothing else
        is compared then."""
        compared = self.compared()
        return [trace for trace in traces if compared[trace.bad] is None] or traces

    def found(self, signals: Signals, traces: Sequence[Witness]) -> str:
        """Returns the line that says what differs."""
        signals, compared = Signals(self.first.circuit()), self.compared()
        places = [compared[bad] for bad in sorted(trace.bad for trace in traces)]
        names = [signals.place(*place) if place else "constraints" for place in places]
        step = len(traces[0].steps) - 1
        return f"a difference at step {step}{self.qualifier}{self.behind}: {', '.join(names)}"

    def lines_of_run(self, signals: Signals, circuit: Circuit, trace: Witness) -> Iterator[str]:
        """Yields the lines of a trace, and of what differs at its end.

        Initial values that matter only because registers start equal are left out."""
        trace = self.least(circuit, trace)
        yield from super().lines_of_run(signals, circuit, trace)
        if len(trace.steps) * len(circuit.gates) <= SIMULATED:
            yield from self.lines_of_end(circuit, trace)

    def lines_of_end(self, circuit: Circuit, trace: Witness) -> Iterator[str]:
        """Yields lines about what differs at the end of a short trace, with the values in both
        files.

        If these depend on values that don't matter, such values are 0."""
        compared, shown = self.compared(), [trace, *self.others(circuit, trace)]
        places = [compared[it.bad] for it in self.mattering(shown)]
        if None in places:
            yield from unmet(*self.ends(trace))
            return
        lines, filled = (list(self.values(places, *self.ends(it)))
                         for it in (trace, trace.filled()))
        when = f"in step {len(trace.steps) - 1}" + ", with 0 for each -," * (lines != filled)
        yield from (f"{when} {line}" for line in filled)

    def values(self, places: Iterable[Compared], first: End, other: End) -> Iterator[str]:
        """Yields lines about outputs and bad states that differ, with their values in both
        files."""
        if outputs := {place[1] for place in places if place and place[0] == "o"}:
            ours, theirs = first.outputs(outputs), other.outputs(outputs)
            yield f"the first file has {ours}, and the second {theirs}"
        verb = "fails" if self.first.design else "is true"
        for letter, i in filter(None, places):
            if letter == "b":
                which = {"1": "first", "0": "second"}.get(first.values("b")[i], "")
                yield f"{first.signals.place('b', i)} {verb} in the {which} file alone"

    def ends(self, trace: Witness) -> list[End]:
        """Returns both files at the end of a trace."""
        circuits = [self.first.circuit(), self.other.circuit()]
        return [End(*it, trace) for it in zip(circuits, [0, self.latches()[0]])]

    def least(self, circuit: Circuit, trace: Witness) -> Witness:
        """Returns a short trace without the initial values that matter only because registers start
        equal. They are found by simulation."""
        if not self.starts.partners or len(trace.steps) * len(circuit.gates) > SMALL:
            return trace
        bads = [it.bad for it in self.mattering([trace, *self.others(circuit, trace)])]
        constraints = circuit.constraints[:-len(self.starts.partners)]
        own = circuit.with_lists(constraints=constraints)
        found = simulated(own, trace, circuit.uninitialised(), bads, SECONDS)
        start = list(found.start)
        for place, partner in self.started().items():
            start[partner] = start[partner] if start[place] == "x" else start[place]
        return found._replace(start="".join(start))

    def shown(self, circuit: Circuit, trace: Witness, read: set[int]) -> set[int]:
        """Returns the positions of the latches whose initial values are printed. Of two with the
        same initial value, it is the first file's."""
        partners = self.started()
        return {partners.get(place, place) for place in super().shown(circuit, trace, read)}

    def keep(self, evidence: Evidence) -> None:
        """Writes both files and their miter into an evidence folder."""
        self.first.keep(evidence)
        self.other.keep(evidence)
        words = self.called("miter", self.starts.suffix)
        evidence.makes(self.name, self.subject.file, *words, self.first.name, self.other.name)


def of_second(options: DesignOptions, paths: Sequence[str]) -> DesignOptions:
    """Returns the options for reading the second file, at these paths.

    The top module, parameters and black boxes only apply to FILE. Other options only apply if the
    second file is a design, or one in Verilog."""
    own = options._replace(top=None, parameter=(), black_box=())
    kinds = [kind for path in paths if (kind := kind_of(path, b""))]
    if not any(FRONTS[kind] == VERILOG for kind in kinds):
        own = own._replace(define=(), include=(), stops=False)
    return own if kinds else own._replace(reset=None, multiclock=False)
