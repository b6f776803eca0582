"""Checks the properties of a file: first all together, then each of the others by itself.

ABC's pdr checks all undecided properties, for a second each, then for four, and so on. During its
first run, the other engines check the whole file."""
import contextlib
import math
import threading
import time
from collections.abc import Iterable, Sequence

from aigprove.circuits.aiger import Circuit, Fault
from aigprove.circuits.witness import Witness
from aigprove.data import message
from aigprove.engines.abc import BMC, PDR, Cones, MultiProperty
from aigprove.engines.certificate import Certificate
from aigprove.engines.job import Job, Missing, RunFound
from aigprove.engines.portfolio import TICK
from aigprove.engines.rows import ROWS
from aigprove.engines.separate import MORE, PropertyPortfolio, SeparateProperties
from aigprove.options.options import Options
from aigprove.output.evidence import ABOVE, EvidenceFolder
from aigprove.processes.files import Sealed
from aigprove.processes.scheduler import Scope, Stopped, for_each
from aigprove.questions.checker import Checker
from aigprove.questions.properties import Properties

# The seconds of pdr's first run for each property, of checking the whole file, and of the search
# for shorter traces.
PASS, WHOLE, SHORTER = 1, 2, 2
# Engines that don't check the whole file besides pdr.
OF_ABC = {"pdr", "bmc3"}


class SharedProperties(SeparateProperties):
    """Properties of one circuit, which are checked together before each is checked by itself."""

    def __init__(self, options: Options, checker: Checker, above: str, source: Properties,
                 folder: EvidenceFolder | None) -> None:
        super().__init__(options, checker, above, source, folder)
        self.whole = self.of_all([name for name in options.engines if name not in OF_ABC])
        self.cones = Cones(self.whole.problem.circuit)
        # Whether ABC's first run is over, and whether its answers are being checked.
        self.first, self.is_checking = threading.Event(), False
        self.scope = Scope(self.scheduler)
        self.pdr = self.scope.task("pdr", ROWS["pdr"].share)
        # The properties for which shorter traces were looked for. One thread at a time does that.
        self.looked: set[int] = set()
        self.shortening = threading.Lock()

    def circuit(self, number: int) -> Circuit:
        """Returns the circuit with only this property."""
        return self.cones.of([number])

    def of_all(self, engines: Iterable[str] = ()) -> PropertyPortfolio:
        """Returns a portfolio for all properties."""
        source = self.source.placed(ABOVE)
        return PropertyPortfolio(self, source, self.answers, None, engines)

    def abc(self) -> MultiProperty:
        """Returns ABC, for several properties at once."""
        return MultiProperty(self.options, self.pdr, self.above)

    def share(self) -> None:
        """Has ABC check all undecided properties."""
        try:
            self.ask_all(self.abc())
        except Missing as why:
            self.fail("pdr", message("passed_over", why=why))
        except Exception as error:
            self.fail_abc("pdr", error)
        finally:
            self.is_checking = False
            self.first.set()

    def fail_abc(self, engine: str, error: Exception) -> None:
        """Prints why ABC has no answer, unless it was stopped."""
        if not isinstance(error, Stopped) and not self.scope.is_stopped():
            self.fail(engine, error)

    def ask_all(self, abc: MultiProperty) -> None:
        """Has ABC check all undecided properties, with more time while it makes progress."""
        seconds = PASS
        while (numbers := self.open()) and time.monotonic() < self.deadline:
            begun = time.monotonic()
            command = PDR.format(each=1000 * seconds)
            runs, certificate = abc.ask(self.cones.of(numbers), command)
            self.is_checking = True
            for_each([(numbers[place], run, "pdr") for place, run in runs.items()],
                     self.options.jobs, self.take_run)
            self.shorten(abc)
            if certificate:
                self.take_certificate(certificate)
            self.first.set()
            is_idle = len(self.open()) == len(numbers)
            if is_idle and time.monotonic() - begun < seconds / 2:
                return
            seconds *= MORE

    def shorten(self, abc: MultiProperty) -> None:
        """Looks for shorter traces to properties whose trace may not be the shortest, once for
        each."""
        with self.shortening:
            exact = {name for name, row in ROWS.items() if row.is_shortest}
            inexact = [it for it in self.answers if it.trace and it.engine not in exact
                       and it.number not in self.looked]
            lengths = {it.number: len(it.trace.steps) for it in inexact if it.trace}
            lengths = {number: length for number, length in lengths.items() if length > 1}
            self.looked.update(lengths)
            left = self.deadline - time.monotonic()
            if lengths and left > 0 and "bmc3" in self.options.engines:
                seconds = left if self.options.shortest else min(left, SHORTER)
                numbers, limit = list(lengths), 0 if seconds == math.inf else math.ceil(seconds)
                command = BMC.format(steps=max(lengths.values()) - 1, seconds=limit)
                runs, _ = abc.ask(self.cones.of(numbers), command)
                found = [(numbers[place], run, "bmc3") for place, run in runs.items()
                         if len(run[1]) < lengths[numbers[place]]]
                for_each(found, self.options.jobs, self.take_run)

    def settle(self) -> None:
        """Looks for shorter traces, and reports errors."""
        try:
            self.shorten(self.abc())
        except Missing:
            pass
        except Exception as error:
            self.fail_abc("bmc3", error)

    def round(self, numbers: Sequence[int], seconds: float) -> None:
        """Checks properties, and then looks for shorter traces."""
        super().round(numbers, seconds)
        self.settle()

    def take_run(self, item: tuple[int, tuple[str, list[str]], str]) -> None:
        """Has a trace to a property checked that a command of ABC found. Raises Fault if it is
        wrong."""
        number, (start, steps), name = item
        trace, checker = Witness(0, start, steps), self.checker.of(self.pdr)
        with contextlib.closing(self.portfolio(number)) as portfolio:
            if not steps or not portfolio.problem.holds(checker, trace):
                raise Fault.of("false_counterexample")
            portfolio.take(name, RunFound([trace]))

    def take_certificate(self, certificate: Sealed) -> None:
        """Has a certificate checked for all properties together, if all are undecided, and
        otherwise for each."""
        numbers = self.open()
        is_whole = len(numbers) == len(self.answers)
        if not is_whole or not self.is_certified(self.of_all(), certificate):
            for_each(numbers, self.options.jobs,
                     lambda number: self.is_certified(self.portfolio(number), certificate))

    def is_certified(self, portfolio: PropertyPortfolio, certificate: Sealed) -> bool:
        """Returns whether a certificate proves the properties of a portfolio."""
        job = Job(portfolio.problem, self.pdr, portfolio.board)
        with contextlib.closing(portfolio):
            try:
                Certificate(job, job.solver(), certificate).run()
            except Fault:
                return False
            portfolio.portfolio.take(0)
        return True

    def together(self) -> None:
        """Has the other engines check the whole file, as long as no property is reached."""
        self.whole.ask(WHOLE)
        self.whole.close()
        if not self.open():
            self.first.set()

    def end_all(self) -> None:
        """Ends all portfolios, and ABC."""
        self.whole.end_all()
        super().end_all()
        self.scope.stop()

    def run(self) -> None:
        """Checks all undecided properties."""
        calls = [self.share] * ("pdr" in self.options.engines)
        is_new = not any(answer.is_answered or answer.steps for answer in self.answers)
        calls += [self.together] * (is_new and bool(self.whole.problem.options.engines))
        threads = [threading.Thread(target=call, daemon=True) for call in calls if self.open()]
        for thread in threads:
            thread.start()
        if threads:
            self.wait_for_first(min(time.monotonic() + WHOLE, self.deadline))
        self.whole.end_all()
        super().run()
        self.settle()
        self.end_all()
        for thread in threads:
            thread.join()

    def wait_for_first(self, until: float) -> None:
        """Waits for ABC's first run, until a point in time. If its answers are being checked by
        then, it waits for these."""
        while not self.first.wait(TICK) and time.monotonic() < self.deadline:
            if time.monotonic() >= until and not self.is_checking:
                return
