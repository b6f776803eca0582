"""What a query is about: a circuit of a file, and the claims that aigcheck can check about it."""
from __future__ import annotations

import re
from collections.abc import Iterable, Iterator, Mapping, Sequence
from typing import TYPE_CHECKING, NamedTuple

from aigprove.circuits import simulation
from aigprove.circuits.aiger import Circuit, Fault, Header
from aigprove.circuits.simulation import SIMULATED
from aigprove.circuits.witness import Witness
from aigprove.processes.files import Sealed
from aigprove.questions.checker import Checker, Claim, Question, Subject

if TYPE_CHECKING:
    from aigprove.output.evidence import Evidence
    from aigprove.output.signals import Signals

# The command of aigcheck that checks that a query has no solution.
SHOWN = {"query": ["refuted"], "bounded": ["refuted", "to"], "window": ["inductive"]}


class Statements(NamedTuple):
    """The lines about queries without a solution, by command, and about all steps.

    `{k}` stands for the last step of the query, and `{steps}` for the number of its steps."""

    query: str = "no bad state at step {k}"
    bounded: str = "no bad state up to step {k}"
    window: str = "no bad state at any step, if none up to step {k}"
    safe: str = "no bad state at any step"

    def of(self, question: Question) -> str:
        """Returns the line about a query."""
        line: str = getattr(self, question.command)
        return line.format(k=question.k, steps=question.k + 1)

    def last_step(self, command: str, text: str) -> int | None:
        """Returns the last step of the query by this command that the line `text` is about, or
        None."""
        line = re.escape(getattr(self, command))
        found = re.fullmatch(re.sub(r"\\{(k|steps)\\}", "([0-9]{1,10})", line), text)
        return int(found[1]) - ("steps" in line) if found else None


def statements_about(letter: str, number: int) -> Statements:
    """Returns the lines about one property. Its kind is given by its letter; that of justice
    properties is j."""
    if letter != "j":
        return Statements(*(f"b{number}: {line}" for line in Statements()))
    lasso, run = f"no fair lasso of j{number}", f"no fair run of j{number}"
    return Statements(f"{lasso} of {{steps}} steps", f"{lasso} of at most {{steps}} steps",
                      f"{run}, if no fair lasso of at most {{steps}} steps", run)


class Target:
    """What the engines check.

    If its circuit isn't the file's own, the engines get a file generated from it, in which the
    inputs and latches of the file come first."""

    # Its name in messages, the file's name in an evidence folder, the name of such a folder, and
    # its circuit.
    path: str
    name: str
    stem: str
    subject: Subject
    # The lines that aigcheck prints, and those that aigprove prints in their place.
    lines, printed = Statements(), Statements()
    # The beginning of the line about the steps checked so far, and the line if there are none; the
    # message about a file without properties; and what is appended to lines about a file whose
    # signals aigprove has reordered.
    so_far, nothing, empty, behind = \
        "no bad state", "nothing was shown", "no_bads", ""
    # Whether it has circuits that count rounds of a justice property, and whether a certificate may
    # be a witness circuit.
    counts, can_be_simulated = False, True

    def circuit(self) -> Circuit:
        """Returns the circuit whose names are used for printing traces."""
        raise NotImplementedError

    def claim(self, line: str, command: str, words: Iterable[str],
              files: Mapping[str, Sealed], printed: str = "") -> Claim:
        """Returns a claim about the circuit: the line that aigcheck prints for a command."""
        called = [*self.subject.words, command, self.name, *words]
        return Claim(line, called, {self.name: self.subject.file, **files}, printed)

    def unsolvable(self, question: Question, proof: Sealed) -> Claim:
        """Returns the claim that a query has no solution, by a proof."""
        command, *words = SHOWN[question.command]
        words += [str(question.k), question.name, *question.form]
        return self.claim(self.lines.of(question), command, words, {question.name: proof},
                          self.printed.of(question))

    def proved(self, question: Question, base: Sealed, window: Question, step: Sealed) -> Claim:
        """Returns the claim that no bad state is reachable, by proofs of a `bounded` query and of a
        window query."""
        words = ["to", str(question.k), question.name, window.name, *window.form]
        return self.unreached("safe", words, {question.name: base, window.name: step})

    def certified(self, certificate: Sealed, proofs: Mapping[str, Sealed], *form: str) -> Claim:
        """Returns the claim that no bad state is reachable, by a certificate and proofs about both,
        which have names. `form` are options of the proofs' clauses."""
        files = {"certificate": certificate, **proofs}
        return self.unreached("certified", [*files, *form], files)

    def unreached(self, command: str, words: Sequence[str], files: Mapping[str, Sealed]) -> Claim:
        """Returns the claim that no bad state is reachable, by a command of aigcheck."""
        return self.claim(self.lines.safe, command, words, files, self.printed.safe)

    def up_to(self, k: int) -> str:
        """Returns the line that says that all steps up to `k` are checked."""
        return f"{self.so_far} up to step {k}"

    def assumed(self, header: Header) -> int:
        """Returns the number of constraints that traces have to meet. `header` is that of the
        file."""
        return header.constraints

    def assuming(self) -> Target:
        """Returns the target whose circuit has these constraints."""
        return self

    def with_equal_starts(self) -> Target | None:
        """Returns the same target with equal initial values of matched registers, if that may
        change an answer, and otherwise None."""
        return None

    def way(self) -> str:
        """Returns how registers are matched for that, as the value of `--starts`."""
        return ""

    def of_file(self, trace: Witness) -> Witness:
        """Returns a witness of the file, given one of the engines' file."""
        return trace

    def run(self, checker: Checker, trace: Witness) -> Claim:
        """Returns the claim that a trace shows what is checked, after aigcheck has checked it.
        Raises Fault if aigcheck refuses it."""
        files = {self.name: self.subject.file, "witness": Sealed(trace.text().encode())}
        line = f"b{trace.bad} at step {len(trace.steps) - 1}"
        checker.check(claim := Claim(line, ["run", *files], files))
        return claim

    def keep_run(self, evidence: Evidence, checker: Checker, trace: Witness) -> None:
        """Writes a trace into an evidence folder, with the command that checks it."""
        evidence.shows(self.run(checker, trace))

    def holds(self, checker: Checker, trace: Witness) -> bool:
        """Returns whether aigcheck accepts a witness of the file."""
        try:
            return bool(self.run(checker, trace))
        except Fault:
            return False

    def others(self, circuit: Circuit, trace: Witness) -> list[Witness]:
        """Returns witnesses of further properties that may fail at the end of a trace."""
        return []

    def mattering(self, traces: Sequence[Witness]) -> Sequence[Witness]:
        """Returns those of several witnesses of one trace that are printed."""
        return traces

    def places(self, header: Header) -> list[str]:
        """Returns the names of the properties in the AIGER report format."""
        return [f"b{i}" for i in range(header.bads)]

    def is_fair(self) -> bool:
        """Returns whether it is about infinite paths, and there are fairness constraints."""
        return False

    def warnings(self) -> Iterator[str]:
        """Yields warnings about what isn't checked."""
        return iter(())

    def about(self) -> Iterator[str]:
        """Yields lines about what is checked, if that isn't obvious."""
        return iter(())

    def found(self, signals: Signals, traces: Sequence[Witness]) -> str:
        """Returns the line that says what a trace shows. `traces` are its witnesses."""
        bad = signals.place("b", traces[0].bad)
        return f"a bad state at step {len(traces[0].steps) - 1}: {bad}"

    def lines_of_run(self, signals: Signals, circuit: Circuit, trace: Witness) -> Iterator[str]:
        """Yields the lines of a trace.

        They have the initial values of latches that the property reads, or that are uninitialised
        and matter; the inputs of each step; and the named latches among these that changed."""
        read = circuit.read_by((circuit.bads or circuit.outputs)[trace.bad])
        changes = changes_of(signals, circuit, trace, read)
        yield from signals.lines(trace, self.shown(circuit, trace, read), changes)

    def shown(self, circuit: Circuit, trace: Witness, read: set[int]) -> set[int]:
        """Returns the positions of the latches whose initial values are printed. `read` are those
        that the property reads."""
        return read | self.uninitialised(circuit, trace)

    def uninitialised(self, circuit: Circuit, trace: Witness) -> set[int]:
        """Returns the positions of the latches that are uninitialised, and whose values matter."""
        return {i for i in circuit.uninitialised() if trace.start[i] != "x"}

    def dump(self, circuit: Circuit, trace: Witness) -> Iterable[str]:
        """Returns the lines of a value change dump."""
        from aigprove.output import waves

        return waves.dump(circuit, trace.start, trace.steps)

    def keep(self, evidence: Evidence) -> None:
        """Writes the file into an evidence folder, with the command that generates it, if there is
        one."""
        raise NotImplementedError


def changes_of(signals: Signals, circuit: Circuit, trace: Witness,
               read: set[int]) -> dict[int, list[str]]:
    """Returns the named latches among `read` whose values changed, with these values, by step.

    The result is empty if the trace is too long to be simulated."""
    if len(trace.steps) * len(circuit.gates) > SIMULATED:
        return {}
    named = {i for i in read if f"l{i}" in signals.names}
    last: list[str] | None = None
    found = {}
    for t, values in enumerate(simulation.run(circuit, trace.start, trace.steps)):
        now = signals.values("l", [values[latch] for latch in circuit.latches], named)
        found[t] = [it for it in now if it not in (last or now)]
        last = now
    return found
