"""Prints the answers to one query, and writes its evidence. Values of a trace that don't matter are
printed as `-`."""
from __future__ import annotations

import contextlib
import math
import sys
from collections.abc import Sequence
from typing import TYPE_CHECKING

from aigprove.circuits.aiger import Fault
from aigprove.circuits.minimal import SMALL, minimal, simulated
from aigprove.circuits.witness import Witness
from aigprove.data import message
from aigprove.engines.job import SAFE, UNSAFE, Answer, Job, RunFound, StepShown
from aigprove.output.messages import report, say, show_progress
from aigprove.output.signals import Signals
from aigprove.processes.files import Sealed, write
from aigprove.questions.checker import Claim, Question

if TYPE_CHECKING:
    from aigprove.output.evidence import Evidence

# The seconds for finding values of a trace that don't matter; for at most how many properties of a
# trace that is done; and the seconds for finding out whether equal initial values make two files
# equal.
SECONDS, SHOWN, EQUAL_STARTS = 1, 8, 5


class Printer:
    """A sink that prints answers and errors. Each replaces the line of progress."""

    def __init__(self, job: Job, evidence: Evidence | None) -> None:
        self.job, self.evidence, self.problem = job, evidence, job.problem
        self.options, self.source, self.board = job.options, job.source, job.board
        # The trace that was printed; and the exit status, once the answer is printed.
        self.trace: Witness | None = None
        self.status: int | None = None

    def take(self, engine: str, answer: Answer) -> int | None:
        """Prints an answer, and returns the exit status if it decides the query."""
        status, seconds = self.print_answer(answer), self.board.seconds()
        if self.options.verbose and status is not None:
            say(message("answered", engine=engine, seconds=f"{seconds:.1f}"))
        if self.evidence and status is not None:
            self.evidence.note(engine, seconds)
        return status

    def fail(self, engine: str, error: Exception | str) -> None:
        """Prints why an engine has no answer."""
        show_progress()
        if isinstance(error, str):
            say(message("engine", engine=engine, why=error))
        else:
            report(error, self.options.verbose, engine)

    def show_progress(self) -> None:
        """Shows what the engines do, and for how many seconds, on a terminal."""
        if sys.stderr.isatty():
            doing = [*self.board.doing.values(), *self.job.task.scheduler.reading()]
            show_progress(f"{', '.join(doing)}: {self.board.seconds():.0f} s")

    def print_answer(self, answer: Answer) -> int | None:
        """Prints an answer, and returns the exit status if it decides the query."""
        if isinstance(answer, StepShown):
            self.print_step(answer)
            return None
        self.job.task.scope.end_others(self.job.task)
        if isinstance(answer, RunFound):
            self.print_run(answer.traces)
            return UNSAFE
        *before, claim = answer.claims
        for it in before:
            self.print_claim(it)
        self.print_claim(claim, is_answer=True)
        self.status = SAFE
        self.certify(answer.certificate)
        return SAFE

    def print_line(self, line: str, is_answer: bool = False) -> None:
        """Prints a line. With `--quiet` only answers are printed, and with `--aiger` none."""
        show_progress()
        if not self.options.aiger and (is_answer or not self.options.quiet):
            print(line, flush=True)

    def print_claim(self, claim: Claim, is_answer: bool = False) -> None:
        """Prints a checked line, and adds it to the evidence."""
        self.print_line((claim.printed or claim.line) + self.source.behind, is_answer)
        if self.evidence:
            self.evidence.shows(claim)

    def print_step(self, step: StepShown) -> None:
        """Prints that all steps up to one are checked, unless another engine has checked it
        already."""
        if step.k >= self.board.steps:
            self.print_claim(step.claim)
            self.board.steps = step.k + 1

    def print_open(self) -> None:
        """Prints that the query is undecided, and up to which step all are checked."""
        steps = self.board.steps
        line = self.source.up_to(steps - 1) if steps else self.source.nothing
        self.print_line(f"undecided: {line}", True)

    def print_report(self, status: int) -> None:
        """Prints the answer in the AIGER report format."""
        if self.trace:
            print(self.trace.text(), end="", flush=True)
            return
        places = "".join(self.source.places(self.problem.header))
        # Without a trace the property is undecided.
        reported = 0 if status == SAFE else 2
        print(f"{reported}\n{places}\n.\n", end="", flush=True)

    def print_run(self, traces: Sequence[Witness]) -> None:
        """Prints a trace without the values that don't matter, and writes it into the files that
        are asked for."""
        source, options = self.source, self.options
        circuit = source.circuit()
        signals = Signals(circuit)
        self.print_line(source.found(signals, list(map(source.of_file, traces))), True)
        self.status = UNSAFE
        is_written = options.aiger or options.keep or options.witness or options.vcd
        if options.quiet and not is_written:
            return
        trace = self.trace = source.of_file(self.smallest(traces))
        if options.vcd or not options.quiet:
            for line in source.lines_of_run(signals, circuit, trace):
                self.print_line(line)
        if self.evidence:
            source.keep_run(self.evidence, self.job.checker, trace)
        if options.witness:
            write(options.witness, [trace.text().encode()])
        if options.vcd:
            dump = source.dump(circuit, trace)
            write(options.vcd, (f"{line}\n".encode() for line in dump))
        self.print_equal_starts(len(trace.steps) - 1)

    def holds(self, trace: Witness, traces: Sequence[Witness]) -> bool:
        """Returns whether aigcheck accepts a trace as a witness of the properties of all these
        witnesses."""
        return all(self.problem.holds(self.job.checker, trace.showing(it.bad)) for it in traces)

    def smallest(self, traces: Sequence[Witness]) -> Witness:
        """Returns the first witness with `x` for the values that don't matter for all of them.

        For a small trace they are found by simulation, and aigcheck checks the result."""
        if len(traces) > SHOWN:
            return traces[0]
        circuit, uninitialised = self.problem.circuit, self.problem.circuit.uninitialised()
        seconds = min(SECONDS, self.board.left())
        if len(traces[0].steps) * len(circuit.gates) <= SMALL:
            bads = [trace.bad for trace in traces]
            found = simulated(circuit, traces[0], uninitialised, bads, seconds)
            if self.holds(found, traces):
                return found
        return minimal(traces[0], uninitialised, lambda it: self.holds(it, traces), seconds)

    def print_equal_starts(self, k: int) -> None:
        """Prints that nothing differs at step `k` if registers start with equal values, and the
        option for that, if a solver soon proves it."""
        options = self.options
        seconds = math.floor(min(EQUAL_STARTS, self.board.left()))
        if seconds <= 0 or not options.solver.is_cadical or options.quiet or options.aiger:
            return
        question = Question("query", k)
        with contextlib.suppress(Fault):
            if equal := self.source.with_equal_starts():
                solver = self.job.solver().within(seconds)
                has_solution, given = solver.ask(question, equal.subject)
                claim = equal.unsolvable(question, given)
                if not has_solution and self.job.checker.shows(claim):
                    self.print_claim(claim)
                    self.print_line(f"--starts {equal.way()} compares so")

    def certify(self, given: Sealed | int | str) -> None:
        """Writes the certificate of `--write-certificate`.

        `given` is an inductive circuit, or the K of k-induction, or says why there is no
        certificate."""
        if not self.options.write_certificate:
            return
        if isinstance(given, str):
            say(message("no_certificate", why=given))
            return
        from aigprove.circuits import certificates

        circuit = self.problem.circuit
        if isinstance(given, int):
            made = certificates.by_window(circuit, given)
        else:
            machine = self.job.checker.circuit(given, "the certificate")
            made = certificates.by_invariant(circuit, machine)
        write(self.options.write_certificate, [made])
