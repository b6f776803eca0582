"""Checks every property of a file, or collects earlier answers, and prints and writes the table."""
import functools
import os
import resource
import shlex
import time
from collections.abc import Callable, Iterable, Iterator, Sequence

from aigprove.circuits.aiger import Circuit, Fault
from aigprove.circuits.witness import Witness
from aigprove.data import message
from aigprove.designs.front_ends import COVER, LIVE
from aigprove.engines.job import FAILED, OPEN, SAFE, UNSAFE
from aigprove.engines.portfolio import TICK
from aigprove.engines.rows import tasks
from aigprove.engines.separate import SeparateProperties
from aigprove.engines.shared import SharedProperties
from aigprove.options.options import Options
from aigprove.output.evidence import ABOVE, Evidence, EvidenceFolder
from aigprove.output.gather import Gathered
from aigprove.output.messages import say, show_progress
from aigprove.output.report import PropertyAnswer, Report
from aigprove.output.signals import Signals
from aigprove.processes.files import write
from aigprove.processes.groups import BackgroundCall
from aigprove.processes.scheduler import Stopped, limited, unlimited
from aigprove.questions.assumptions import SECONDS, Assumptions
from aigprove.questions.bad_states import BadStates, Covers
from aigprove.questions.checker import Checker, header_of
from aigprove.questions.justice import Justice, lives
from aigprove.questions.properties import Properties
from aigprove.questions.solver import Solver
from aigprove.questions.target import Target

# A function that returns the bytes of a trace's file, given a function that reads the circuit.
Written = Callable[[Target, Witness, Callable[[], Circuit]], Iterable[bytes]]
# The time limit in seconds of a command of `--tasks`, unless `--timeout` is given.
TASK_SECONDS = 60
STATUS = {"fails": UNSAFE, "holds": SAFE, "undecided": OPEN}


class Table:
    """The properties of a file: its bad states, its justice properties, and the covers of a design.

    Raises Fault if there are none."""

    def __init__(self, options: Options, checker: Checker, above: str) -> None:
        self.options, self.checker, self.above = options, checker, above
        self.begun = time.monotonic()
        # Each property has files in memory, each of which needs a descriptor.
        most = resource.getrlimit(resource.RLIMIT_NOFILE)[1]
        resource.setrlimit(resource.RLIMIT_NOFILE, (most, most))
        self.first = BadStates(options, above, checker)
        self.fair = self.justices()
        self.sources = self.all_sources()
        self.lines = [] if options.quiet else self.heading()
        self.is_there = bool(options.keep) and os.path.lexists(options.keep or "")
        self.folder = (EvidenceFolder(options.keep, checker, options.limit)
                       if options.keep else None)
        for source in self.sources if self.folder else []:
            if self.folder:
                source.keep(self.folder)
        self.parts = list(map(self.properties, self.sources))
        self.answers = [answer for part in self.parts for answer in part.answers]
        header = header_of(self.sources[0].subject.file)
        self.report = Report(self.first.path, self.answers, header.constraints)

    def justices(self) -> list[Justice]:
        """Returns the justice properties of the file, and the liveness assertions of a design."""
        first = self.first.given
        fair = [Justice(first)] if first.header().justice else []
        if self.first.has_later({LIVE}):
            fair.append(lives(self.options, self.above, self.checker, first))
        return fair

    def all_sources(self) -> Sequence[Properties]:
        """Returns all groups of properties. Raises Fault if there are none."""
        sources: list[Properties] = [self.first.placed("")] if self.first.answers() else []
        if self.first.has_later({COVER}):
            sources.append(Covers(self.options, self.above, self.checker, self.first.given))
        sources += self.fair
        if not sources:
            raise Fault.of("of_file", path=self.first.path, why=message(self.first.empty))
        return sources

    def heading(self) -> list[str]:
        """Returns the lines in front of the table."""
        asked: list[Target] = [self.first] if self.first.answers() else []
        asked += [source for source in self.fair if source.given.design]
        warnings = [] if self.fair else list(self.first.warnings())
        return warnings + [line for source in asked or [self.first] for line in source.about()]

    def properties(self, source: Properties) -> SeparateProperties:
        """Returns the properties of a group, with the engines that check them."""
        if isinstance(source, Justice):
            return SeparateProperties(self.options, self.checker, self.above, source, self.folder)
        return SharedProperties(self.options, self.checker, self.above, source, self.folder)

    def run(self) -> int:
        """Checks or collects the properties, prints the table, and returns the exit status."""
        if self.options.tasks:
            for line in commands(self.options, self.sources, self.answers):
                print(line)
            return OPEN
        # If the run is interrupted, the answers so far are printed.
        try:
            self.gather()
            self.ask(self.parts if not self.options.gather else [])
        except Stopped:
            pass
        except (KeyboardInterrupt, SystemExit):
            self.close()
            self.print()
            raise
        with unlimited():
            self.close()
            self.look_at_assumptions()
            self.print()
            self.write()
        is_known = any(answer.is_answered or answer.steps for answer in self.answers)
        if all(part.said for part in self.parts) and not is_known:
            return FAILED
        return STATUS[self.report.status()]

    def gather(self) -> None:
        """Collects the answers in the folder of `--gather`, or in an existing one of `--keep`."""
        folder = self.options.gather or (self.options.keep if self.is_there else None)
        if folder:
            gathered = Gathered(folder, self.parts, self.checker)
            gathered.take(self.options.jobs)
            if self.folder:
                gathered.keep(self.folder)

    def ask(self, parts: Sequence[SeparateProperties]) -> None:
        """Checks the properties that have no answer yet, and shows the progress on a terminal."""
        calls = [BackgroundCall(part.run) for part in parts]
        try:
            while left := [call for call in calls if call.is_alive()]:
                left[0].join(TICK)
                count = sum(answer.is_answered for answer in self.answers)
                seconds = time.monotonic() - self.begun
                show_progress(f"{count} of {len(self.answers)} answered: {seconds:.0f} s")
        finally:
            for part in parts:
                part.stop()
            for call in calls:
                call.give_up()
            self.checker.task.scheduler.bury()
            show_progress()
        for call in calls:
            call.result()

    def close(self) -> None:
        """Completes the evidence of the answers. No answer is recorded afterwards."""
        for part in self.parts:
            part.close()

    def look_at_assumptions(self) -> None:
        """Finds out whether the assumptions can be met, if there are some and a property holds."""
        if not self.report.constraints or not any(answer.is_safe for answer in self.answers):
            return
        found = self.assumptions()
        if self.folder:
            evidence = Evidence(self.folder.path(self.folder.new("assumptions")), self.checker,
                                self.options.limit)
            found.keep(evidence)
            evidence.end()
            self.folder.note_vacuous(found.line() if found.is_empty() else None)
        self.report.met, self.report.unmet, self.report.line = found.met, found.unmet, found.line()

    def assumptions(self) -> Assumptions:
        """Returns what is known about the assumptions."""
        solver = self.options.solver
        found = Assumptions(self.sources[0].placed(ABOVE), self.checker)
        try:
            if not solver.words:
                raise Fault.of("no_cadical")
            asked = Solver(solver.words, self.checker, self.above, solver.takes_turns)
            now, least = time.monotonic(), max(answer.steps for answer in self.answers)
            # If the time is over, this takes a moment more, and begins at the first step.
            with limited(max(self.options.deadline, now + 3 * SECONDS)):
                found.look(asked, least if now < self.options.deadline else 0, now + SECONDS)
        except Fault as why:
            say(message("assumptions", why=why))
        except Stopped:
            self.checker.task.scope.stop()
        return found

    def print(self) -> None:
        """Prints the table, and completes the evidence folder."""
        self.report.seconds = time.monotonic() - self.begun
        lines = [*self.report.table(), *([self.report.line] if self.report.line else [])]
        if self.folder:
            self.folder.end_with(lines)
        for line in [*self.lines, *lines]:
            print(line)

    def write(self) -> None:
        """Writes the files that the options ask for."""
        options = self.options
        self.report.write(options.json, options.junit)
        if options.witness:
            self.write_runs(options.witness, "witness", witness_of)
        if options.vcd:
            self.write_runs(options.vcd, "vcd", dump_of)

    def write_runs(self, folder: str, suffix: str, call: Written) -> None:
        """Writes a file for each trace into a folder."""
        os.makedirs(folder, exist_ok=True)
        for part in self.parts:
            # The circuit is read at most once.
            circuit = functools.cache(part.source.circuit)
            for answer in part.answers:
                if answer.trace:
                    path = os.path.join(folder, f"{answer.letter}{answer.number}.{suffix}")
                    write(path, call(part.sources[answer.number], answer.trace, circuit))


def commands(options: Options, sources: Iterable[Properties],
             answers: Iterable[PropertyAnswer]) -> Iterator[str]:
    """Yields a command for each property and each group of engines.

    A command reads the file in the folder of `--keep`, and writes its evidence into a new
    subfolder."""
    folder = options.keep or ""
    numbers = {"bound": options.bound, "limit": options.limit}
    given = [word for name, number in numbers.items() if number is not None
             for word in (f"--{name}", str(number))]
    seconds = TASK_SECONDS if options.timeout is None else options.timeout
    for source, answer in ((source, answer) for source in sources for answer in answers):
        for engines in tasks() if answer.letter == source.letter else []:
            names = [name for name in engines if name in options.engines]
            if names:
                number, file = str(answer.number), os.path.join(folder, source.name)
                place = os.path.join(folder, f"{source.stems[1]}-{number}-{names[0]}")
                asked = [f"--{source.option}", number, "--engine", ",".join(names),
                         "--timeout", f"{seconds:g}", "--keep", place, file]
                yield shlex.join(["aigprove", "-q", *given, *asked])


def witness_of(source: Target, trace: Witness, _: Callable[[], Circuit]) -> Iterable[bytes]:
    """Returns the text of a witness."""
    return [trace.text().encode()]


def dump_of(source: Target, trace: Witness, read: Callable[[], Circuit]) -> Iterable[bytes]:
    """Returns a value change dump, from yosys's simulation if the file is a design."""
    circuit = read()
    list(source.lines_of_run(Signals(circuit), circuit, trace))
    return (f"{line}\n".encode() for line in source.dump(circuit, trace))
