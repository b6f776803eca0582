"""What an engine gets and hands in.

An engine has a job on a problem, with a task for its programs and a board for its answers. The
protocols say what a portfolio expects of engines, and of the receiver of answers."""
from __future__ import annotations

import contextlib
import functools
import queue
import re
import threading
import time
from collections.abc import Callable, Sequence
from typing import NamedTuple, Protocol

from aigprove.circuits.aiger import Circuit, Fault, Header
from aigprove.circuits.normalised import NormalisedModel
from aigprove.circuits.simulation import SIMULATED, reached
from aigprove.circuits.witness import Witness, read_for
from aigprove.data import message
from aigprove.engines.rows import ROWS
from aigprove.options.options import Options
from aigprove.processes.files import Sealed
from aigprove.processes.scheduler import Task
from aigprove.questions.checker import Checker, Claim, header_of
from aigprove.questions.solver import Solver
from aigprove.questions.target import Target

# The exit statuses of answers.
SAFE, UNSAFE, OPEN, FAILED = 20, 10, 0, 1


class Engine(Protocol):
    """Looks for an answer, in a thread of its own."""

    def run(self) -> None:
        """Looks for an answer, and hands it in once it is checked."""


class Sink(Protocol):
    """Receives answers."""

    def take(self, engine: str, answer: Answer) -> int | None:
        """Receives an answer of an engine, and returns the exit status if it decides the query."""

    def fail(self, engine: str, error: Exception | str) -> None:
        """Reports why an engine gives no answer."""

    def show_progress(self) -> None:
        """Shows what is being done."""


class StepShown(NamedTuple):
    """All steps up to step `k` are checked."""

    k: int
    claim: Claim


class Safe(NamedTuple):
    """No step is bad, as the last claim says. The claims before it are steps of the proof.

    `certificate` is an inductive circuit, or the K of k-induction, or says why there is no
    certificate."""

    claims: Sequence[Claim]
    certificate: Sealed | int | str


class RunFound(NamedTuple):
    """Witnesses of one trace to bad states."""

    traces: Sequence[Witness]


class Ended(NamedTuple):
    """An engine ended without an answer, perhaps because of an error."""

    error: Exception | None


Answer = StepShown | Safe | RunFound
# Creates an engine for a job.
Make = Callable[["Job"], Engine]


class Board:
    """The state of a query: the answers that were handed in, the steps that are checked, its
    beginning and its deadline."""

    def __init__(self, deadline: float, steps: int = 0) -> None:
        self.begun, self.deadline = time.monotonic(), deadline
        # The number of steps that are checked, from 0 on; the number of steps in front of a checked
        # window; and the proofs of `bounded` queries, by K.
        self.steps, self.windowed = steps, 0
        self.bounded: dict[int, Sealed] = {}
        # The tasks of the started engines, and what these do.
        self.tasks: list[Task] = []
        self.doing: dict[str, str] = {}
        # Set once the program of an engine for two files runs.
        self.has_begun = threading.Event()
        self.events: queue.Queue[tuple[Task, Answer | Ended] | None] = queue.Queue()

    def seconds(self) -> float:
        """Returns the seconds since the beginning."""
        return time.monotonic() - self.begun

    def left(self) -> float:
        """Returns the seconds until the deadline."""
        return self.deadline - time.monotonic()

    def end_soon(self) -> None:
        """Records that all steps up to the bound are checked.

        The other engines then get as much time as has passed, plus one second."""
        self.deadline = min(self.deadline, time.monotonic() + self.seconds() + 1)

    def hand_in(self, task: Task, event: Answer | Ended) -> None:
        """Records an answer of a task, or its end."""
        self.events.put((task, event))

    def wake(self) -> None:
        """Ends a wait for answers."""
        self.events.put(None)

    def ended(self, engine: str) -> None:
        """Removes an engine from what is being done."""
        row = ROWS.get(engine)
        self.doing.pop(row and row.doing or engine, None)


class Problem:
    """A file that engines check: its circuit, and the options."""

    def __init__(self, options: Options, source: Target, checker: Checker, above: str) -> None:
        self.options, self.source, self.checker, self.above = options, source, checker, above

    @functools.cached_property
    def machine(self) -> Sealed:
        """The file that engines get. Its bad states are those that are checked."""
        return self.checker.machine(self.source.subject)

    @functools.cached_property
    def text(self) -> Sealed:
        """The text form of that file. Raises Fault if it is refused, or has no bad state
        property."""
        try:
            text = self.checker.text(self.machine)
        except Fault as why:
            said = re.sub("^aig(tool|edit): ", "", str(why))
            raise Fault.of("of_file", path=self.source.path, why=said) from None
        if header_of(text).bads == 0:
            raise Fault.of("of_file", path=self.source.path, why=message(self.source.empty))
        return text

    @functools.cached_property
    def header(self) -> Header:
        """The header of that file."""
        return header_of(self.text)

    @functools.cached_property
    def circuit(self) -> Circuit:
        """The circuit of that file."""
        return self.checker.circuit(self.text, "FILE")

    @functools.cached_property
    def normalised(self) -> NormalisedModel:
        """The normalised model of the circuit."""
        return NormalisedModel(self.circuit)

    def holds(self, checker: Checker, trace: Witness) -> bool:
        """Returns whether aigcheck accepts a trace of that file as a witness."""
        return self.source.holds(checker, self.source.of_file(trace))

    def reached(self, checker: Checker, start: str, steps: Sequence[str]) -> Witness | None:
        """Returns the witness of a trace whose last step is bad, according to aigcheck.

        If there is none, and the trace is short, it is cut at its first bad step, which is
        unchecked. The result is None if no step is bad."""
        for bad in range(len(self.circuit.bads) if steps else 0):
            trace = Witness(bad, start, steps)
            if self.holds(checker, trace):
                return trace
        is_short = len(steps) * len(self.circuit.gates) < SIMULATED
        return reached(self.circuit, start, steps) if is_short else None


class Missing(Fault):
    """The reason why an engine isn't started."""


class Job:
    """The work of an engine on a problem."""

    def __init__(self, problem: Problem, task: Task, board: Board) -> None:
        self.problem, self.task, self.board = problem, task, board
        self.options, self.above = problem.options, problem.above
        self.source = problem.source
        self.checker, self.bound = problem.checker.of(task), problem.options.bound

    def solver(self) -> Solver:
        """Returns the SAT solver. Raises Missing if there is none."""
        solver = self.options.solver
        if not solver.words:
            raise Missing.of("no_cadical")
        return Solver(solver.words, self.checker, self.above, solver.takes_turns)

    def reached(self, start: str, steps: Sequence[str]) -> Witness | None:
        """Returns the witness of a trace, cut at its first bad step if its last step isn't bad, or
        None."""
        return self.problem.reached(self.checker, start, steps)

    def progress(self, what: str, count: int | None = None) -> None:
        """Records what the engine does."""
        self.board.doing[what] = what if count is None else f"{what} {count}"

    def step(self, k: int, claim: Claim) -> None:
        """Hands in that all steps up to step `k` are checked."""
        if k >= self.board.steps:
            self.task.got_further()
        self.hand_in(StepShown(k, claim))

    def hand_in(self, answer: Answer) -> None:
        """Hands in a checked answer."""
        self.board.hand_in(self.task, answer)

    def answering(self) -> contextlib.AbstractContextManager[None]:
        """Returns a context in which the engine's answer is checked, while others wait."""
        return self.task.answering(self.board.tasks)

    def hand_in_run(self, data: bytes) -> None:
        """Has aigcheck check a witness, and hands it in. Raises Fault if aigcheck refuses it."""
        trace = read_for(data, self.problem.header)
        with self.answering():
            self.source.run(self.checker, self.source.of_file(trace))
            others = self.source.others(self.problem.circuit, trace)
            shown = [it for it in others if self.problem.holds(self.checker, it)]
        self.hand_in(RunFound(self.source.mattering([trace, *shown])))
