"""The scheduler: a limited number of programs run at once, and the others wait for their turn."""
from __future__ import annotations

import contextlib
import math
import os
import signal
import threading
import time
from collections.abc import Callable, Collection, Iterable, Iterator
from types import FrameType
from typing import Any, TypeVar

from aigprove.circuits.aiger import Fault
from aigprove.output.messages import plain, unnamed
from aigprove.processes.files import Folder, Sealed, in_memory
from aigprove.processes.groups import Group, Keeper, Words, bury

S = TypeVar("S")
T = TypeVar("T")
# The seconds by which an engine may have run longer than another one that waits.
TURN = 0.25
# The least seconds for which other engines wait while an engine's answer is checked. They wait at
# least as long as the engine has looked for the answer.
ALONE = 1
# An engine that has checked a step, but no further one for LATELY seconds of its own time, gets a
# SLOWED part of the time of others.
LATELY, SLOWED = 2, 2
# The seconds that the main thread has after the deadline, and after which it is interrupted again.
LATE, AGAIN = 0.15, 0.01


class Stopped(Exception):
    """The work isn't needed any more: the answer is known, or the time is over."""


class Task:
    """The work of one engine, or of the main thread, on a query. Its programs share turns."""

    def __init__(self, scope: Scope, engine: str, share: int) -> None:
        self.scope, self.engine = scope, engine
        self.scheduler: Scheduler = scope.scheduler
        # How many times as long as others it may run.
        self.share = share
        # The seconds that its programs have run, and had run when the task last made progress.
        self.used = 0.0
        self.further: float | None = None
        # Whether its answer is being checked, and until when it waits for another's.
        self.is_answering, self.rests_until = False, 0.0

    def start(self, words: Words, folder: Folder | None = None, **streams: Any) -> Group:
        """Starts a program, which waits if no turn is free. Raises Stopped if the task isn't needed
        any more."""
        return self.scheduler.start(self, words, folder, **streams)

    def finish(self, group: Group) -> int:
        """Waits for the end of a program, ends what it left running, and returns its status."""
        return self.scheduler.finish(group)

    def output(self, words: Words, **streams: Any) -> tuple[int, str, str]:
        """Runs one of aig's own programs.

        Returns its status, its output, and its messages on standard error, without the paths of
        immutable copies among its arguments, and the lines in them."""
        sealed = [word for word in words if isinstance(word, Sealed)]
        with in_memory() as out, in_memory() as said:
            options: dict[str, Any] = {"stdout": out, "stderr": said, **streams}
            descriptors = [file.fileno() for file in sealed]
            status = self.finish(self.start(words, pass_fds=descriptors, **options))
            for file in out, said:
                file.seek(0)
            printed = out.read().decode("ascii", "surrogateescape")
            return status, printed, unnamed(plain(said.read()).strip(), sealed)

    def got_further(self) -> None:
        """Records that the engine has made progress."""
        with self.scheduler.lock:
            self.further = self.used

    def weight(self) -> float:
        """Returns for how long its programs have run, as it counts for turns."""
        if self.is_answering:
            return 0
        is_behind = self.further is not None and self.used - self.further > LATELY
        return self.used * (SLOWED if is_behind else 1) / self.share

    def rests(self) -> bool:
        """Returns whether its programs wait while another engine's answer is checked."""
        return self.rests_until > time.monotonic()

    def is_stopped(self) -> bool:
        """Returns whether it may not start programs any more."""
        return self.scope.is_stopped() or self.scope.only not in (None, self)

    @contextlib.contextmanager
    def answering(self, others: Collection[Task]) -> Iterator[None]:
        """Lets other tasks wait a while, because this task's answer is being checked.

        If the answer is wrong, they continue."""
        self.scheduler.prefer(self, others)
        try:
            yield
        except Fault:
            self.scheduler.treat_alike(self, others)
            raise


class Scope:
    """The programs of one query, which can be ended without those of others."""

    def __init__(self, scheduler: Scheduler) -> None:
        # `only` is the only task that may start programs, once there is an answer.
        self.scheduler, self.is_over = scheduler, False
        self.only: Task | None = None

    def task(self, engine: str, share: int = 1) -> Task:
        """Returns a new task."""
        return Task(self, engine, share)

    def is_stopped(self) -> bool:
        """Returns whether none of its tasks may start programs any more."""
        return self.is_over or self.scheduler.is_stopped

    def end_others(self, task: Task) -> None:
        """Kills the programs of all other tasks, which start none any more, and the processes that
        these left."""
        with self.scheduler.lock:
            self.only = task
        self.scheduler.end(lambda group: group.task.scope is self and group.task is not task)
        self.scheduler.bury()

    def stop(self) -> None:
        """Kills its programs, and starts none any more."""
        with self.scheduler.lock:
            self.is_over = True
        self.scheduler.end(lambda group: group.task.scope is self)


class Scheduler:
    """The running programs, of which `jobs` run at a time. `memory` is the limit of each in bytes,
    if there is one.

    It forks a process that kills them if this one is killed, so there may be no threads yet."""

    def __init__(self, jobs: int, memory: int | None = None) -> None:
        self.jobs, self.memory = jobs, memory
        self.lock, self.is_stopped, self.keeper = threading.Lock(), False, Keeper()
        self.running: list[Group] = []
        self.waiting: list[Group] = []
        self.looked = time.monotonic()

    def start(self, task: Task, words: Words, folder: Folder | None, **streams: Any) -> Group:
        """Starts a program of a task, which waits if no turn is free. Raises Stopped if the task
        isn't needed any more."""
        with self.lock:
            self.check_stopped(task)
            group = Group(task, words, folder, **streams)
            if self.memory:
                group.limit_memory(self.memory)
            self.keeper.tell(group.process.pid)
            if len(self.running) < self.jobs and not task.rests():
                self.running.append(group)
            else:
                self.waiting.append(group)
                group.signal(signal.SIGSTOP)
                self.turn()
        return group

    def finish(self, group: Group) -> int:
        """Waits for the end of a program, ends what it left running, and returns its status."""
        # The group is killed before its leader is reaped, because the group's number may be reused
        # after that.
        os.waitid(os.P_PID, group.process.pid, os.WEXITED | os.WNOWAIT)
        group.kill()
        self.keeper.tell(-group.process.pid)
        status = group.process.wait()
        with self.lock:
            self.count()
            for groups in self.running, self.waiting:
                if group in groups:
                    groups.remove(group)
            self.fill()
            self.check_stopped(group.task)
        return status

    def check_stopped(self, task: Task) -> None:
        """Raises Stopped if the task isn't needed any more."""
        if task.is_stopped():
            raise Stopped

    def reading(self) -> list[str]:
        """Returns how far programs have read long files, as texts."""
        with self.lock:
            return [text for group in self.running for text in group.reading()]

    def prefer(self, task: Task, others: Collection[Task]) -> None:
        """Gives turns to a task whose answer is being checked. The others wait a while."""
        with self.lock:
            self.count()
            # It may itself be waiting for another task.
            task.is_answering, task.rests_until = True, 0.0
            until = time.monotonic() + max(ALONE, task.used)
            for other in others:
                if not other.is_answering:
                    other.rests_until = until
            for group in [group for group in self.running if group.task.rests()]:
                self.suspend(group)
            self.fill()

    def treat_alike(self, task: Task, others: Collection[Task]) -> None:
        """Ends the preference of a task whose answer was wrong."""
        with self.lock:
            task.is_answering = False
            for other in others:
                other.rests_until = 0.0
            self.fill()

    def count(self) -> None:
        """Adds the time since the last call to the times of running programs."""
        now = time.monotonic()
        for group in self.running:
            group.task.used += now - group.counted
            group.counted = now

    def fill(self) -> None:
        """Continues waiting programs while there are free turns."""
        while len(self.running) < self.jobs and (ready := self.ready()):
            group = min(ready, key=weight)
            self.waiting.remove(group)
            self.running.append(group)
            group.counted = time.monotonic()
            group.signal(signal.SIGCONT)

    def look(self, tick: float) -> None:
        """Updates turns and checks limits, unless that was done less than `tick` seconds ago."""
        if time.monotonic() - self.looked > tick:
            self.looked = time.monotonic()
            with self.lock:
                self.turn()
            self.check_limits()

    def turn(self) -> None:
        """Takes the turn from the task that has run longest, and gives it to the one that has run
        least, if the difference is large enough."""
        self.count()
        self.fill()
        longest = max(self.running, key=weight, default=None)
        least = min(self.ready(), key=weight, default=None)
        if longest and least and weight(longest) - weight(least) > TURN:
            self.suspend(longest, fill=True)

    def ready(self) -> list[Group]:
        """Returns the programs that wait for a turn."""
        return [group for group in self.waiting if not group.task.rests()]

    def suspend(self, group: Group, fill: bool = False) -> None:
        """Suspends a running program. If `fill`, another one gets its turn first."""
        self.running.remove(group)
        group.signal(signal.SIGSTOP)
        if fill:
            self.fill()
        self.waiting.append(group)

    def check_limits(self) -> None:
        """Kills programs that have written too much."""
        with self.lock:
            groups = list(self.running)
        for group in groups:
            if group.folder and group.folder.is_full():
                group.kill()

    def end(self, is_wanted: Callable[[Group], bool]) -> None:
        """Kills the programs for which `is_wanted` returns true, and waits for their end."""
        with self.lock:
            groups = list(filter(is_wanted, self.running + self.waiting))
            for group in groups:
                group.kill()
        for group in groups:
            group.wait()

    def bury(self) -> None:
        """Kills the processes that programs have left running."""
        with self.lock:
            own = [group.process.pid for group in self.running + self.waiting]
            bury([self.keeper.process, *own])

    def stop(self) -> None:
        """Kills all programs, and starts none any more."""
        with self.lock:
            self.is_stopped = True
        self.end(lambda _: True)


def end_late(_: int, frame: FrameType | None) -> None:
    """Handles SIGALRM: interrupts the main thread by raising Stopped.

    Python ignores exceptions in `__del__`, so that it is raised later in this case."""
    while frame:
        if frame.f_code.co_name == "__del__":
            signal.setitimer(signal.ITIMER_REAL, AGAIN)
            return
        frame = frame.f_back
    raise Stopped


@contextlib.contextmanager
def limited(deadline: float) -> Iterator[None]:
    """Interrupts the main thread soon after a deadline, by raising Stopped."""
    signal.signal(signal.SIGALRM, end_late)
    if deadline < math.inf:
        signal.setitimer(signal.ITIMER_REAL, max(deadline - time.monotonic(), 0) + LATE)
    try:
        yield
    finally:
        signal.setitimer(signal.ITIMER_REAL, 0)


@contextlib.contextmanager
def unlimited() -> Iterator[None]:
    """Lets the main thread finish something short, although its deadline may pass meanwhile."""
    left, _ = signal.setitimer(signal.ITIMER_REAL, 0)
    try:
        yield
    finally:
        signal.setitimer(signal.ITIMER_REAL, left)


def for_each(items: Iterable[S], jobs: int, call: Callable[[S], T]) -> list[T]:
    """Returns what `call` returns for each item. `jobs` calls run at a time.

    If the main thread is interrupted, the calls aren't awaited."""
    # Importing this module takes a while.
    from concurrent.futures import ThreadPoolExecutor

    pool, is_awaited = ThreadPoolExecutor(jobs), True
    try:
        return list(pool.map(call, items))
    except Stopped:
        is_awaited = threading.current_thread() is not threading.main_thread()
        raise
    finally:
        pool.shutdown(wait=is_awaited, cancel_futures=True)


def weight(group: Group) -> float:
    """Returns for how long the task of a program has run, as it counts for turns."""
    return group.task.weight()
