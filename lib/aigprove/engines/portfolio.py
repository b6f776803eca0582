"""Runs engines in parallel. The first checked answer wins."""
import queue
import threading
from collections.abc import Mapping

from aigprove.data import message
from aigprove.engines.job import Board, Ended, Engine, Job, Make, Missing, Problem, Sink
from aigprove.engines.rows import JUSTICE, PAIRS, ROWS, make_of, names_of
from aigprove.processes.scheduler import Scope, Stopped, Task

# The seconds between two checks of turns, limits and the deadline.
TICK = 0.1
# Later engines begin once one of these has ended, or after a number of seconds: each program is
# slower if more run at once.
BEFORE, HEAD_START = {"registers", "bmc3"}, 0.75


def engines_of(problem: Problem) -> dict[str, Make]:
    """Returns the engines of a query, by their names."""
    options, engines = problem.options, dict[str, Make]()
    if options.certificate or options.run:
        from aigprove.engines.certificate import GivenCertificate, GivenRun

        engines |= {"certificate": GivenCertificate} if options.certificate else {}
        engines |= {"run": GivenRun} if options.run else {}
    is_counted = problem.source.counts and not options.are_engines_named
    names = [*options.engines, *names_of(JUSTICE) * is_counted]
    return {**engines, **{name: make_of(name) for name in names}}


class Portfolio:
    """The engines of one problem, and the answers that they hand in."""

    def __init__(self, problem: Problem, scope: Scope, board: Board, sink: Sink) -> None:
        self.problem, self.scope, self.board, self.sink = problem, scope, board, sink
        # The number of running engines, and the names of those that failed.
        self.left = 0
        self.failed: list[str] = []
        # Set once later engines may begin.
        self.is_free = threading.Event()

    def start(self, name: str, make: Make) -> bool:
        """Starts an engine, and returns whether that was possible."""
        task = self.scope.task(name, ROWS[name].share if name in ROWS else 1)
        try:
            engine = make(Job(self.problem, task, self.board))
        except Missing as why:
            self.freed(name)
            self.fail(name, message("passed_over", why=why))
            return False
        self.board.tasks.append(task)
        work = threading.Thread(target=self.work, args=[task, engine], name=name, daemon=True)
        work.start()
        if name in names_of(PAIRS):
            # Its program starts before other engines use this process.
            self.board.has_begun.wait(HEAD_START)
        return True

    def work(self, task: Task, engine: Engine) -> None:
        """Runs an engine in its thread. Its errors don't affect other engines."""
        if task.engine in ROWS and ROWS[task.engine].is_later:
            self.is_free.wait(HEAD_START)
        try:
            engine.run()
            self.board.hand_in(task, Ended(None))
        except Stopped:
            pass
        except Exception as error:
            self.board.hand_in(task, Ended(error))
        self.freed(task.engine)

    def freed(self, name: str) -> None:
        """Lets later engines begin, if this engine is one of those that they wait for."""
        if name in BEFORE:
            self.is_free.set()

    def fail(self, name: str, error: Exception | str) -> None:
        """Records and reports why an engine has no answer."""
        self.failed.append(name)
        self.sink.fail(name, error)

    def take(self, seconds: float) -> int | None:
        """Processes the next event, if there is one within a number of seconds.

        Returns the exit status if it decides the query."""
        try:
            handed_in = self.board.events.get(timeout=seconds)
        except queue.Empty:
            return None
        if handed_in is None:
            return None
        task, event = handed_in
        if not isinstance(event, Ended):
            return self.sink.take(task.engine, event)
        self.left -= 1
        self.board.ended(task.engine)
        if event.error:
            self.fail(task.engine, event.error)
        return None

    def run(self, engines: Mapping[str, Make]) -> int | None:
        """Runs engines until there is an answer, or all have ended, or the deadline.

        Returns the exit status of the answer, or None."""
        if "registers" not in engines:
            self.is_free.set()
        self.left = sum([self.start(name, make) for name, make in engines.items()])
        status = None
        while status is None and self.board.left() > 0 and self.is_awaited():
            status = self.take(TICK)
            self.scope.scheduler.look(TICK)
            self.sink.show_progress()
        # Answers that were handed in by then count.
        for _ in range(self.board.events.qsize()):
            status = self.take(0) if status is None else status
        return status

    def is_awaited(self) -> bool:
        """Returns whether answers may still come."""
        return self.left > 0 or not self.board.events.empty()
