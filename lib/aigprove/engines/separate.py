"""Checks the properties of a file one by one, while there is time: for two seconds each, then for
eight, and so on.

The portfolio of a property prints nothing. Its results go into the property's answer."""
from __future__ import annotations

import math
import threading
import time
from collections.abc import Iterable, Sequence

from aigprove.circuits.aiger import Circuit
from aigprove.circuits.witness import Witness
from aigprove.data import message
from aigprove.engines.job import SAFE, UNSAFE, Answer, Board, Problem, RunFound, StepShown
from aigprove.engines.portfolio import Portfolio, engines_of
from aigprove.options.options import Options
from aigprove.output.evidence import ABOVE, Evidence, EvidenceFolder
from aigprove.output.messages import is_fault, reason, report, say, show_progress
from aigprove.output.report import PropertyAnswer
from aigprove.processes.scheduler import Scheduler, Scope, for_each
from aigprove.questions.checker import Checker, Claim
from aigprove.questions.properties import Properties
from aigprove.questions.target import Target

# The seconds for each property in the first round, and the factor for each further round.
ALONE, MORE = 2, 4


class PropertyPortfolio:
    """The engines for one property, or for all, and the sink that records their answers and
    evidence."""

    def __init__(self, owner: SeparateProperties, source: Target,
                 answers: Sequence[PropertyAnswer], circuit: Circuit | None = None,
                 engines: Iterable[str] = ()) -> None:
        self.owner, self.answers = owner, answers
        self.evidence: Evidence | None = None
        # One thread at a time records an answer, and none does once the evidence is complete.
        self.lock, self.is_closed = threading.Lock(), False
        self.scope = Scope(owner.scheduler)
        checker = owner.checker.of(self.scope.task("main"))
        self.problem = Problem(quiet(owner.options, engines), source, checker, owner.above)
        if circuit:
            self.problem.circuit, self.problem.header = circuit, circuit.header
        self.board = Board(owner.deadline, min(answer.steps for answer in answers))
        self.portfolio = Portfolio(self.problem, self.scope, self.board, self)
        owner.add(self)

    def ask(self, seconds: float) -> bool:
        """Runs the engines for at most a number of seconds, and returns whether all have ended
        before that."""
        self.board.deadline = min(self.owner.deadline, time.monotonic() + seconds)
        self.portfolio.run(engines_of(self.problem))
        is_over = not self.portfolio.left
        self.end_all()
        return is_over

    def end_all(self) -> None:
        """Ends its programs."""
        self.board.deadline = 0
        self.scope.stop()
        self.board.wake()

    def take(self, engine: str, answer: Answer) -> int | None:
        """Records an answer and its evidence, and returns the exit status if it decides the
        query. An answer that comes too late isn't recorded."""
        with self.lock:
            is_late = self.is_closed or self.owner.is_closed
            return None if is_late else self.record(engine, answer)

    def record(self, engine: str, answer: Answer) -> int | None:
        """Records an answer and its evidence, and returns the exit status if it decides the
        query."""
        if isinstance(answer, StepShown):
            self.take_step(answer)
            return None
        trace: Witness | None = None
        if isinstance(answer, RunFound):
            source = self.problem.source
            trace = source.of_file(answer.traces[0])
            if self.owner.folder:
                self.keep(source.run(self.problem.checker, trace))
        else:
            for claim in answer.claims:
                self.keep(claim)
        seconds = self.owner.decide(self.answers, engine, trace)
        if self.evidence:
            self.evidence.note(engine, seconds)
        return UNSAFE if trace else SAFE

    def take_step(self, answer: StepShown) -> None:
        """Records that steps are checked, unless another engine has checked them already."""
        if answer.k >= self.board.steps:
            self.keep(answer.claim)
            self.board.steps = answer.k + 1
        for own in self.answers:
            own.steps = max(own.steps, self.board.steps)

    def fail(self, engine: str, error: Exception | str) -> None:
        """Reports why an engine has no answer."""
        self.owner.fail(engine, error)

    def show_progress(self) -> None:
        """Shows nothing: the table does."""

    def keep(self, claim: Claim) -> None:
        """Writes a claim into an evidence folder, which is created with the first claim."""
        folder, owner = self.owner.folder, self.owner
        if folder and self.evidence is None:
            name = folder.new(self.problem.source.stem)
            self.evidence = Evidence(folder.path(name), owner.checker, owner.options.limit)
            self.problem.source.keep(self.evidence)
            for answer in self.answers:
                answer.parts.append(name)
        if self.evidence:
            self.evidence.shows(claim)

    def close(self) -> None:
        """Completes its evidence folder. Nothing is recorded afterwards."""
        with self.lock:
            self.is_closed = True
            if self.evidence:
                self.evidence.end()
                self.evidence = None
        self.owner.discard(self)


def quiet(options: Options, engines: Iterable[str]) -> Options:
    """Returns the options of a portfolio with these engines that prints and writes nothing."""
    return options._replace(engines=tuple(engines), certificate=None, run=None)


class SeparateProperties:
    """The properties of one file, and their engines. `folder` is the evidence folder, if there is
    one."""

    def __init__(self, options: Options, checker: Checker, above: str,
                 source: Properties, folder: EvidenceFolder | None) -> None:
        self.options, self.checker, self.above = options, checker, above
        self.source, self.folder = source, folder
        self.scheduler: Scheduler = checker.task.scheduler
        self.begun, self.deadline, self.lock = time.monotonic(), options.deadline, threading.RLock()
        self.answers: list[PropertyAnswer] = source.answers()
        # The errors that were printed; the running portfolios, by the numbers of properties; and
        # the properties for which the engines have no answer.
        self.said: set[tuple[str, str]] = set()
        self.asked: dict[int, PropertyPortfolio] = {}
        self.over: set[int] = set()
        # The portfolios whose evidence isn't complete, and whether no answer is recorded any more.
        self.portfolios: set[PropertyPortfolio] = set()
        self.is_closed = False
        self.sources = [source.one(answer.number, ABOVE) for answer in self.answers]

    def add(self, portfolio: PropertyPortfolio) -> None:
        """Adds a portfolio whose evidence isn't complete."""
        with self.lock:
            self.portfolios.add(portfolio)

    def discard(self, portfolio: PropertyPortfolio) -> None:
        """Removes a portfolio whose evidence is complete."""
        with self.lock:
            self.portfolios.discard(portfolio)

    def close(self) -> None:
        """Completes the evidence of all portfolios. No answer is recorded afterwards, although
        threads may still have one when the time is over."""
        self.is_closed = True
        with self.lock:
            left = list(self.portfolios)
        for portfolio in left:
            portfolio.close()

    def open(self) -> list[int]:
        """Returns the numbers of the undecided properties."""
        return [answer.number for answer in self.answers if not answer.is_answered]

    def fail(self, engine: str, error: Exception | str) -> None:
        """Prints why an engine has no answer, once for each reason."""
        why = error if isinstance(error, str) else reason(error)
        with self.lock:
            is_new = (engine, why) not in self.said
            self.said.add((engine, why))
        if is_new:
            show_progress()
            if isinstance(error, str) or is_fault(error):
                say(message("engine", engine=engine, why=why))
            else:
                report(error, self.options.verbose)

    def decide(self, answers: Sequence[PropertyAnswer], engine: str,
               trace: Witness | None) -> float:
        """Records a trace to one of the properties or, if it is None, that none of them is reached.

        Returns the seconds since the beginning."""
        with self.lock:
            seconds = time.monotonic() - self.begun
            for answer in answers:
                if trace is None or trace.bad == answer.number:
                    answer.take(trace, engine, seconds)
                if answer.is_answered and answer.number in self.asked:
                    self.asked[answer.number].end_all()
        return seconds

    def portfolio(self, number: int, engines: Iterable[str] = ()) -> PropertyPortfolio:
        """Returns a portfolio for one property."""
        answers = [self.answers[number]]
        return PropertyPortfolio(self, self.sources[number], answers, self.circuit(number), engines)

    def circuit(self, number: int) -> Circuit | None:
        """Returns the circuit with only this property, if it is known."""
        return None

    def ask_alone(self, number: int, seconds: float) -> None:
        """Checks one property for a number of seconds, if there is time."""
        if time.monotonic() >= self.deadline:
            return
        answer = self.answers[number]
        portfolio = self.portfolio(number, self.options.engines)
        with self.lock:
            self.asked[number] = portfolio
        try:
            if not answer.is_answered and portfolio.ask(seconds) and not answer.is_answered:
                self.over.add(number)
        finally:
            with self.lock:
                del self.asked[number]
            portfolio.close()

    def round(self, numbers: Sequence[int], seconds: float) -> None:
        """Checks properties, `jobs` of them at a time, for a number of seconds each."""
        for_each(numbers, self.options.jobs, lambda number: self.ask_alone(number, seconds))

    def end_all(self) -> None:
        """Ends all portfolios."""
        with self.lock:
            for portfolio in self.asked.values():
                portfolio.end_all()

    def stop(self) -> None:
        """Ends all portfolios; none is started any more."""
        self.deadline = 0
        self.end_all()

    def run(self) -> None:
        """Checks all undecided properties, with more time in each round."""
        seconds: float = ALONE
        while (numbers := self.left()) and time.monotonic() < self.deadline:
            self.round(numbers, math.inf if len(numbers) <= self.options.jobs else seconds)
            seconds *= MORE

    def left(self) -> list[int]:
        """Returns the numbers of the undecided properties for which the engines may still have an
        answer."""
        return [number for number in self.open() if number not in self.over]
