"""The engines that ask a SAT solver about the file."""
import collections
import itertools
import time
from collections.abc import Iterator

from aigprove.circuits.witness import read_for
from aigprove.data import message
from aigprove.engines.job import Job, Safe
from aigprove.processes.files import Sealed
from aigprove.processes.groups import BackgroundCall
from aigprove.questions.checker import PAIRS, Claim, Question, Subject

# The number of proofs that are checked while the next query is solved.
CHECKS = 2
# If a query about the steps up to K takes fewer seconds, the next is about four times as many.
QUICK = 1


def powers(bound: int | None) -> Iterator[int]:
    """Yields 0, 1, 2, 4 and so on, up to the bound."""
    every = itertools.chain([0], (1 << i for i in itertools.count()))
    return itertools.takewhile(lambda k: bound is None or k <= bound, every)


class Asking:
    """An engine that asks a solver about the file."""

    def __init__(self, job: Job) -> None:
        self.job, self.solver, self.checker = job, job.solver(), job.checker
        self.source, self.board, self.bound = job.source, job.board, job.bound

    def ask(self, question: Question) -> tuple[bool, Sealed]:
        """Returns whether a query has a solution, and the solution or the proof, unchecked."""
        return self.solver.ask(question, self.source.subject)

    def witness(self, question: Question, solution: Sealed) -> bytes:
        """Returns the witness that a solution describes."""
        return self.checker.witness(Subject(self.job.problem.machine), question, solution)


class Steps(Asking):
    """Asks about step 0, 1 and so on, up to the bound. Proofs are checked while the next query is
    solved."""

    def run(self) -> None:
        """Asks about one step after the other."""
        # The steps for which unit propagation is tried, and the claims that are being checked.
        self.tried: dict[int, BackgroundCall[bool]] = {}
        self.checking = collections.deque[tuple[int, Claim, BackgroundCall[None]]]()
        propagates = False
        for k in self.steps():
            is_power = k & (k - 1) == 0
            self.job.progress("step", k)
            ahead = CHECKS - 1 if propagates else 0
            propagates = (propagates or is_power) and self.propagates(k, ahead)
            if not propagates and self.reaches(Question("query", k)):
                return
        self.finish()
        self.board.end_soon()

    def steps(self) -> Iterator[int]:
        """Yields each step that isn't checked yet, in order, up to the bound."""
        k = 0
        while self.bound is None or k <= self.bound:
            yield k
            k = max(k + 1, self.board.steps)

    def propagation(self, k: int) -> Claim:
        """Returns the claim that unit propagation proves that no bad state is reached at step
        `k`."""
        return self.source.unsolvable(Question("query", k), self.checker.empty_clause)

    def propagates(self, k: int, ahead: int) -> bool:
        """Returns whether unit propagation proves that no bad state is reached at step `k`.

        Meanwhile, a number of further steps are tried."""
        for step in range(k, k + ahead + 1):
            if step not in self.tried:
                claim = self.propagation(step)
                self.tried[step] = BackgroundCall(self.checker.shows, claim)
        if not self.tried.pop(k).result():
            self.tried.clear()
            return False
        self.finish()
        self.job.step(k, self.propagation(k))
        return True

    def reaches(self, question: Question) -> bool:
        """Returns whether a bad state is reached, and hands in the trace if it is.

        Otherwise the check of the solver's proof begins."""
        has_solution, given = self.ask(question)
        if not has_solution:
            self.finish(CHECKS - 1)
            claim = self.source.unsolvable(question, given)
            check = BackgroundCall(self.checker.check, claim)
            self.checking.append((question.k, claim, check))
            return False
        self.finish()
        self.job.hand_in_run(self.witness(question, given))
        return True

    def finish(self, left: int = 0) -> None:
        """Waits for all checks except the last `left`, and hands in their steps."""
        while len(self.checking) > left:
            k, claim, check = self.checking.popleft()
            check.result()
            self.job.step(k, claim)


class Bounded(Asking):
    """Asks one query about all steps up to K, for K = 1, 4, 16 and so on, and the bound.

    After a slow query, K is only doubled. The trace that is found may not be the shortest. So the
    solver is asked for the first bad step: whether it is the one that was found, if steps were
    asked about in turn, and otherwise by bisection."""

    def run(self) -> None:
        """Asks about more and more steps."""
        shown = -1
        for k in self.steps():
            if run := self.reaches(k):
                self.job.hand_in_run(self.least(max(shown, self.board.steps - 1), run))
                return
            shown = k
        self.board.end_soon()

    def steps(self) -> Iterator[int]:
        """Yields the values of K."""
        k = 1
        while self.bound is None or k < self.bound:
            begun = time.monotonic()
            if k >= self.board.steps:
                yield k
            k *= 4 if time.monotonic() - begun < QUICK else 2
        # Only a bound ends the loop.
        assert self.bound is not None
        yield self.bound

    def reaches(self, k: int) -> bytes | None:
        """Returns the witness of a trace to a bad state up to step `k`, or None.

        If there is none, the proof is checked, and the steps are handed in."""
        self.job.progress("steps up to", k)
        question = Question("bounded", k)
        has_solution, given = self.ask(question)
        if has_solution:
            return self.witness(question, given)
        claim = self.source.unsolvable(question, given)
        self.checker.check(claim)
        self.board.bounded[k] = given
        self.job.step(k, claim)
        return None

    def least(self, shown: int, run: bytes) -> bytes:
        """Returns the witness of a trace to the first bad step.

        That step is after the step `shown`, and at most the last one of `run`."""
        while (last := self.last(run)) > shown + 1:
            middle = last - 1 if self.solver.takes_turns else (shown + last) // 2
            found = self.reaches(middle)
            shown, run = (shown, found) if found else (middle, run)
        return run

    def last(self, run: bytes) -> int:
        """Returns the last step of a witness."""
        return len(read_for(run, self.job.problem.header).steps) - 1


class Windows(Asking):
    """Asks about k-induction steps of K + 2 time steps, where K is 0 or a power of two.

    First it asks about all paths, and then only about simple paths. Once one is proved, it asks
    about the steps up to K, unless another engine has checked them."""

    def run(self) -> None:
        """Asks about longer and longer windows."""
        for k in powers(self.bound):
            for form in self.forms(k):
                self.job.progress("window", k)
                question = Question("window", k, form)
                has_solution, given = self.ask(question)
                if not has_solution:
                    claim = self.source.unsolvable(question, given)
                    self.checker.check(claim)
                    self.finish(question, claim, given)
                    return

    def finish(self, window: Question, claim: Claim, step: Sealed) -> None:
        """Checks the steps in front of a window, and hands in the answer, or the trace if these
        reach a bad state."""
        question = Question("bounded", window.k)
        base = self.board.bounded.get(window.k)
        if base is None:
            has_solution, base = self.ask(question)
            if has_solution:
                self.job.hand_in_run(self.witness(question, base))
                return
        shown = self.source.proved(question, base, window, step)
        self.checker.check(shown)
        self.board.windowed = window.k + 1
        certificate: str | int = message("about_paths") if window.form else window.k
        self.job.hand_in(Safe([claim, shown], certificate))

    def forms(self, k: int) -> list[tuple[str, ...]]:
        """Returns the options of the window queries for `k`."""
        latches = self.job.problem.header.latches
        is_small = latches and latches * (k + 2) * (k + 2) <= PAIRS
        return [(), ("distinct",)] if is_small else [()]
