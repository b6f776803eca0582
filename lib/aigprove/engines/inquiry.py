"""Answers one query of a command line, and prints the answer."""
from __future__ import annotations

from typing import TYPE_CHECKING

from aigprove.circuits.aiger import Fault
from aigprove.data import message
from aigprove.engines.job import FAILED, OPEN, SAFE, UNSAFE, Board, Job, Problem
from aigprove.engines.portfolio import Portfolio, engines_of
from aigprove.options.options import Options
from aigprove.output.messages import say, show_progress
from aigprove.output.printer import Printer
from aigprove.processes.scheduler import Scope, Stopped, unlimited
from aigprove.questions.checker import Checker
from aigprove.questions.target import Target

if TYPE_CHECKING:
    from aigprove.output.evidence import Evidence
    from aigprove.questions.assumptions import Assumptions, Endless

# The message that says why there is no certificate, by what an answer comes to.
NO_CERTIFICATE = {UNSAFE: "answer_is_run", OPEN: "no_answer", FAILED: "no_answer"}


class Inquiry:
    """A query: its engines, and what is printed and written.

    Raises Fault if the file is refused."""

    def __init__(self, options: Options, scope: Scope, checker: Checker, above: str,
                 source: Target) -> None:
        self.options, self.scope, self.source = options, scope, source
        task = scope.task("main")
        self.checker = checker.of(task)
        self.problem = Problem(options, source, self.checker, above)
        # A malformed file is refused first.
        self.header = self.problem.header
        self.board = Board(options.deadline)
        self.job = Job(self.problem, task, self.board)
        self.evidence: Evidence | None = None
        if options.keep:
            from aigprove.output import evidence

            self.evidence = evidence.Evidence(options.keep, self.checker, options.limit)
            source.keep(self.evidence)
        self.printer = Printer(self.job, self.evidence)

    def run(self) -> int:
        """Runs the engines, prints the answer, and returns the exit status."""
        for line in [] if self.options.quiet else self.source.warnings():
            say(line)
        for line in self.source.about():
            self.printer.print_line(line)
        status = self.answer()
        if status is None:
            with unlimited():
                return self.end_open()
        if status != SAFE:
            self.printer.certify(message(NO_CERTIFICATE[status]))
        if status == SAFE and self.source.assumed(self.header):
            from aigprove.questions.assumptions import Assumptions

            status = self.status_of(Assumptions(self.source, self.checker))
        if status == SAFE and self.source.is_fair():
            from aigprove.questions.assumptions import Endless

            status = self.status_of(Endless(self.source, self.checker))
        if not self.options.aiger or status == FAILED:
            return status
        self.printer.print_report(status)
        return OPEN

    def end_open(self) -> int:
        """Prints that the query is undecided, and what is known, and returns the exit status."""
        self.printer.print_open()
        self.printer.certify(message(NO_CERTIFICATE[OPEN]))
        if self.options.aiger:
            self.printer.print_report(OPEN)
        self.printer.status = OPEN
        return OPEN

    def answer(self) -> int | None:
        """Runs the engines, and returns the exit status of their answer, or None without one."""
        portfolio = Portfolio(self.problem, self.scope, self.board, self.printer)
        engines = engines_of(self.problem)
        try:
            status = portfolio.run(engines)
            if status is None:
                self.scope.end_others(self.job.task)
        except Stopped:
            self.scope.stop()
            status = self.printer.status
        show_progress()
        if status is None and len(portfolio.failed) == len(engines):
            return FAILED
        return status

    def status_of(self, found: Assumptions | Endless) -> int:
        """Prints whether the assumptions can be met, and returns the exit status: a proof may be
        vacuous."""
        try:
            least = max(self.board.steps - 1, self.board.windowed)
            found.look(self.job.solver(), least, self.options.deadline)
        except Fault as why:
            say(message("assumptions", why=why))
        except Stopped:
            self.scope.stop()
        if self.evidence:
            found.keep(self.evidence)
            self.evidence.note_vacuous(found.line() if found.is_empty() else None)
        self.printer.print_line(found.line(), found.is_empty())
        return OPEN if found.is_empty() else SAFE
