"""Checks how aigprove's scheduler starts, stops and ends programs, apart from any engine.

Programs are `sleep`. With one job one of two runs, and the other is stopped; the turn goes to the
task that ran least. What a scope is asked to end ends, and nothing of another scope, nor of the one
task that is left. While an answer is checked others of the same question wait, and go on once it is
refused. A folder that is too full ends its program, and no process is forked once there are
threads. Whatever the main thread does is given up once its time is over."""
from __future__ import annotations

import contextlib
import os
import pathlib
import threading
import time
from collections.abc import Callable, Iterator

import fixtures
import pytest
from harness import Checks

from aigprove.circuits.aiger import Fault
from aigprove.processes import groups, scheduler
from aigprove.processes.files import Folder
from aigprove.processes.scheduler import Scope, Stopped, limited

LONG = ["sleep", "60"]


@pytest.fixture
def one_job() -> Iterator[scheduler.Scheduler]:
    """A scheduler that runs one program at a time."""
    with fixtures.new_scheduler(1) as made:
        yield made


def state(group: groups.Group) -> str | None:
    """The state of a program, as /proc has it: T where it is stopped; None once it ended."""
    try:
        with open(f"/proc/{group.process.pid}/stat", encoding="ascii") as file:
            found = file.read().rpartition(")")[2].split()[0]
    except FileNotFoundError:
        return None
    return None if found == "Z" else found


def wait(until: Callable[[], bool], seconds: int = 20) -> bool:
    """Whether something holds within so many seconds."""
    end = time.monotonic() + seconds
    while not until() and time.monotonic() < end:
        time.sleep(0.01)
    return until()


def is_stopped(group: groups.Group) -> bool:
    return wait(lambda: state(group) == "T")


def runs(group: groups.Group) -> bool:
    return wait(lambda: state(group) == "S")


def has_ended(group: groups.Group) -> bool:
    """Whether a program ends, which is then no program of its scheduler's any more."""
    ended = wait(lambda: state(group) is None)
    if ended and group in group.task.scheduler.running:
        with contextlib.suppress(Stopped):
            group.task.finish(group)
    return ended


def test_turns(checks: Checks, one_job: scheduler.Scheduler) -> None:
    """The turn of one job goes round."""
    first, other = (Scope(one_job).task(name) for name in ["bmc3", "steps"])
    groups = [task.start(LONG) for task in (first, other)]
    checks.wants("one job", (True, True), (runs(groups[0]), is_stopped(groups[1])))
    time.sleep(2 * scheduler.TURN)
    one_job.look(0)
    checks.wants("the other's turn", (True, True), (is_stopped(groups[0]), runs(groups[1])))
    for group in groups:
        group.kill()
    checks.wants("ended", [-9, -9], [group.task.finish(group) for group in groups])


def test_scopes(checks: Checks, four_jobs: scheduler.Scheduler) -> None:
    """A scope ends its own programs alone, or those of all tasks but one."""
    scope, other = Scope(four_jobs), Scope(four_jobs)
    main, engine, beside = scope.task("main"), scope.task("pdr"), other.task("pdr")
    groups = [task.start(LONG) for task in (main, engine, beside)]
    scope.end_others(main)
    checks.wants(
        "all but one", (False, True, False),
        (state(groups[0]) is None, has_ended(groups[1]), state(groups[2]) is None),
    )
    checks.check(
        main.output(["echo", "here"])[1] == "here\n", "the task that is left starts nothing"
    )
    checks.check(is_refused(engine), "another task starts something")
    scope.stop()
    checks.wants("a scope", (True, False), (has_ended(groups[0]), state(groups[2]) is None))
    checks.check(
        is_refused(main) and not is_refused(beside),
        "a scope that was ended starts something, or another doesn't",
    )
    other.stop()
    checks.check(has_ended(groups[2]), "another scope doesn't end")


def test_gone(checks: Checks, four_jobs: scheduler.Scheduler) -> None:
    """What an engine left running, in a session of its own too, is gone once the engine was ended,
    and its memory with it."""
    groups.adopt()
    scope = Scope(four_jobs)
    main, engine = scope.task("main"), scope.task("pdr")
    group = engine.start(["sh", "-c", "setsid sleep 60 & sleep 60 & sleep 60"])
    checks.check(wait(lambda: left_by(group)), "nothing is left running")
    scope.end_others(main)
    checks.wants(
        "gone", (None, set()),
        (state(group), set(groups.children()) - {four_jobs.keeper.process, group.process.pid}),
    )
    checks.check(
        main.output(["echo", "here"])[1] == "here\n", "the task that is left starts nothing"
    )
    scope.stop()


def left_by(group: groups.Group) -> bool:
    """Whether a shell has started three programs, one of which has a session of its own."""
    with open(
        f"/proc/{group.process.pid}/task/{group.process.pid}/children", encoding="ascii"
    ) as file:
        started = file.read().split()
    return len(started) == 3 and any(os.getsid(int(it)) == int(it) for it in started)


def is_refused(task: scheduler.Task) -> bool:
    """Whether a task starts nothing any more."""
    try:
        task.output(["true"])
    except Stopped:
        return True
    return False


def test_answers(checks: Checks, four_jobs: scheduler.Scheduler) -> None:
    """An answer is checked before others go on."""
    scope = Scope(four_jobs)
    tasks = [scope.task(name) for name in ["bounded", "windows"]]
    group = tasks[1].start(LONG)
    try:
        with tasks[0].answering(tasks):
            checks.check(is_stopped(group), "another engine runs while an answer is checked")
            checks.wants("the check", (0, "shown\n", ""), tasks[0].output(["echo", "shown"]))
            raise Fault("it is none")
    except Fault:
        checks.check(runs(group), "another engine doesn't go on once an answer is refused")
    tasks[0].used = 60
    with tasks[0].answering(tasks):
        left = tasks[1].rests_until - time.monotonic()
    checks.check(55 < left <= 60, f"the check of a long search has {left:.0f} s")
    scope.stop()
    checks.check(has_ended(group), "a scope doesn't end")


def test_limits(checks: Checks, four_jobs: scheduler.Scheduler, folder: pathlib.Path) -> None:
    """A folder that has more bytes than it may ends the program that writes there."""
    scope = Scope(four_jobs)
    with Folder(str(folder)) as inner:
        group = inner.start(scope.task("steps"), LONG)
        four_jobs.check_limits()
        checks.check(state(group) is not None, "a program is ended whose folder isn't full")
        inner.limit = 1 << 12
        with inner.make("more") as out:
            out.write(bytes(1 << 16))
        four_jobs.check_limits()
        checks.check(has_ended(group), "a folder is full")
    scope.stop()


def test_forks(
    checks: Checks, four_jobs: scheduler.Scheduler, monkeypatch: pytest.MonkeyPatch
) -> None:
    """A question that is asked while there are threads forks no process of Python's."""
    calls = []
    monkeypatch.setattr(os, "fork", lambda: calls.append(True))
    threading.Thread(target=time.sleep, args=[1], daemon=True).start()
    status, printed, _ = Scope(four_jobs).task("main").output(["echo", "there"])
    monkeypatch.undo()
    checks.wants("no fork", (0, "there\n", []), (status, printed, calls))


def computing() -> None:
    """Work of Python's own, which looks at no clock."""
    while True:
        sorted(range(1000))


class Dropped:
    """What takes a while to be dropped, whatever is raised meanwhile."""

    def __del__(self) -> None:
        time.sleep(0.2)


def dropping() -> None:
    """Work that is almost all in dropping objects."""
    while True:
        Dropped()
        sorted(range(500000))


def test_deadlines(checks: Checks, four_jobs: scheduler.Scheduler) -> None:
    """Whatever the main thread does is given up soon after a deadline, and nothing before that."""
    task, lasting = Scope(four_jobs).task("main"), threading.Event()
    calls: list[tuple[str, Callable[[], object]]] = [
        ("a program", lambda: task.output(LONG)),
        ("computing", computing),
        ("a call", groups.BackgroundCall(lasting.wait, 8).result),
        ("dropping", dropping),
        ("several calls", lambda: scheduler.for_each(range(4), 2, lambda _: lasting.wait(8))),
    ]
    for name, call in calls:
        begun = time.monotonic()
        try:
            with limited(begun + 0.5):
                call()
            is_given_up = False
        except Stopped:
            is_given_up = True
        seconds = time.monotonic() - begun
        checks.check(
            is_given_up and 0.5 <= seconds < 2.5,
            f"{name}: {'given up' if is_given_up else 'ended'} after {seconds:.2f} s",
        )
    lasting.set()


def test_limits_in_limits(checks: Checks, four_jobs: scheduler.Scheduler) -> None:
    """A limit of time is of what is in it alone, and what is short is ended first."""
    task = Scope(four_jobs).task("main")
    with limited(time.monotonic() + 0.2):
        status = task.output(["true"])[0]
    # The timer ended with what it limits.
    time.sleep(1)
    with limited(float("inf")):
        printed = task.output(["echo", "here"])[1]
    ended = []
    try:
        # What is short is ended first.
        with limited(time.monotonic() + 0.2):
            with scheduler.unlimited():
                time.sleep(1)
                ended.append("what is short")
            time.sleep(8)
            ended.append("what is long")
    except Stopped:
        ended.append("given up")
    checks.wants("what may be ended", ["what is short", "given up"], ended)
    checks.wants("in time", (0, "here\n"), (status, printed))


def test_for_each(checks: Checks) -> None:
    """Calls side by side give what each returns, and a fault of one."""
    checks.wants("each", [1, 4, 9], scheduler.for_each([1, 2, 3], 2, lambda it: it * it))
    given: list[object] = []

    def fails(it: int) -> None:
        given.append(it)
        raise Fault(f"no {it}")

    try:
        scheduler.for_each([1], 1, fails)
    except Fault as why:
        given.append(str(why))
    checks.wants("a fault", [1, "no 1"], given)
