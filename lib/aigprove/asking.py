"""Answers a command line: one query after the other, or a table."""
import contextlib
import os
import signal
import time
from collections.abc import Iterator, Sequence

from aigprove.designs.front_ends import LIVE, TranslationTimeout
from aigprove.engines.inquiry import Inquiry
from aigprove.engines.job import FAILED, OPEN, SAFE, UNSAFE
from aigprove.options.options import Options
from aigprove.output.messages import say
from aigprove.processes.files import new_folder
from aigprove.processes.groups import adopt, bury, remove
from aigprove.processes.scheduler import Scheduler, Scope, Stopped, limited
from aigprove.questions.bad_states import BadStates
from aigprove.questions.checker import Checker
from aigprove.questions.target import Target

SIGNALS = [signal.SIGTERM, signal.SIGHUP, signal.SIGINT, signal.SIGALRM]


def targets(options: Options, above: str, checker: Checker) -> Iterator[Target]:
    """Yields the targets of a command line.

    Those of a design are its assertions, if it has some, and then each liveness assertion. Modules
    that only some targets need are imported for these."""
    if options.justice is not None:
        from aigprove.questions.justice import given_justice

        yield given_justice(options, above, checker)
        return
    if options.equal:
        from aigprove.equality.pair import Pair

        yield Pair(options, above, checker)
        return
    source = BadStates(options, above, checker)
    if LIVE in options.design.later and source.given.has_justice() and not source.answers():
        from aigprove.questions.justice import Justice

        yield from Justice(source.given).each()
        return
    is_later = source.has_later(options.design.later & {LIVE})
    if not is_later or source.given.design and source.given.design.assertions:
        yield source if options.property is None else source.one(options.property)
    if is_later:
        from aigprove.questions.justice import lives

        yield from lives(options, above, checker, source.given).each()


def asked(options: Options, above: str, checker: Checker) -> int:
    """Answers one query after the other, up to the first that finds a trace.

    Returns the exit status of all together."""
    inquiries: list[Inquiry] = []
    statuses: list[int] = []
    try:
        for source in targets(options, above, checker):
            own = options
            if inquiries:
                # The certificate is for the first query.
                keep = os.path.join(options.keep, source.stem) if options.keep else None
                own = options._replace(keep=keep, write_certificate=None)
            scope = Scope(checker.task.scheduler)
            inquiries.append(Inquiry(own, scope, checker, above, source))
            statuses.append(inquiries[-1].run())
            if statuses[-1] in (UNSAFE, FAILED) or options.aiger:
                break
            scope.stop()
    except (TranslationTimeout, Stopped) as why:
        # An answer that is printed already counts.
        ended = next((it.printer.status for it in inquiries[len(statuses):]), None)
        if ended is None and not statuses:
            raise
        end_all(checker.task.scheduler)
        if ended is None:
            # The assertions are answered. The time was over while the file of the next query was
            # being generated, or during that query.
            if str(why):
                say(why)
            print("undecided: nothing was shown of liveness")
        statuses.append(OPEN if ended is None else ended)
    finally:
        end_evidence(inquiries)
    return next((it for it in (UNSAFE, FAILED, OPEN) if it in statuses), SAFE)


def end_evidence(inquiries: Sequence[Inquiry]) -> None:
    """Completes the evidence folders. Those of further queries are subfolders of the first."""
    kept = [(inquiry.evidence, inquiry.source) for inquiry in inquiries]
    for evidence, source in kept[1:]:
        if evidence and kept[0][0]:
            evidence.end()
            kept[0][0].part(source.stem)
    if kept and kept[0][0]:
        kept[0][0].end()


@contextlib.contextmanager
def undisturbed() -> Iterator[None]:
    """Ignores signals for a moment, so that clean-up completes."""
    before = {number: signal.signal(number, signal.SIG_IGN) for number in SIGNALS}
    try:
        yield
    finally:
        for number, handler in before.items():
            signal.signal(number, handler)


def end_all(scheduler: Scheduler) -> None:
    """Kills all programs, and the processes that they left."""
    scheduler.stop()
    bury()


def answer(options: Options) -> int:
    """Answers a command line, and returns the exit status."""
    begun = time.monotonic()
    # The scheduler forks a process, which has to be before there are threads.
    scheduler = Scheduler(options.jobs, options.memory)
    adopt()
    programs, task = options.programs, Scope(scheduler).task("main")
    temporary = [os.environ.get("TMPDIR", ""), "/tmp", "."]
    checker = Checker.begin(task, programs.aigtool, programs.aigedit, programs.aigcheck,
                            options.limit)
    above = new_folder(next(filter(os.path.isdir, temporary)), "aigprove")
    try:
        with limited(options.deadline):
            if not options.each:
                return asked(options, above, checker)
            # Importing this module takes a while.
            from aigprove.output.table import Table

            return Table(options, checker, above).run()
    except (TranslationTimeout, Stopped) as why:
        late = str(why)
    finally:
        with undisturbed():
            end_all(scheduler)
            remove(above)
    if late:
        say(late)
    if options.each:
        from aigprove.output.report import Report

        # A file that wasn't read has no known properties.
        report = Report(options.files[0], [], seconds=time.monotonic() - begun, line=late)
        report.write(options.json, options.junit)
    print("2\n." if options.aiger else "undecided: nothing was shown")
    return OPEN
