"""The engines for two files: they look for a certificate of the miter, from corresponding registers
or signals.

A separate program guesses the certificate, so that it runs in parallel with other engines. aigcheck
checks the result."""
import json

from aigprove.circuits.aiger import Fault
from aigprove.data import message
from aigprove.engines.abc import path_of_abc
from aigprove.engines.certificate import Certificate
from aigprove.engines.job import Job, Missing
from aigprove.equality.incremental import in_turn
from aigprove.equality.pair import Pair
from aigprove.equality.program import words_of
from aigprove.output.messages import ending, say
from aigprove.processes.files import Folder, Sealed
from aigprove.questions.checker import Query, Subject
from aigprove.questions.solver import Solver


class MergingSolver(Solver):
    """A solver for the queries about a certificate, which first merges equal variables of the
    clauses.

    cadical is asked about the literals of the last clause in turn."""

    def ask(self, question: Query, subject: Subject) -> tuple[bool, Sealed]:
        """Returns whether a query has a solution, and the solution or the proof, unchecked."""
        with Folder(self.above) as folder:
            with folder.make("clauses.cnf") as out:
                self.checker.print_question(question, subject, out)
            words = words_of("merging", folder.path, *in_turn(self.words))
            has_solution = self.ended(folder, words) == 10
            return has_solution, folder.taken("out", "answer" if has_solution else "proof")


class CorrespondingRegisters:
    """Guesses classes of nodes that are always equal, and has their certificate checked.

    Raises Missing if the query isn't about two files."""

    # The engine's name, the module that guesses, and the message if it finds no certificate.
    name, guesses = "registers", "guesses"
    unshown = "unshown_registers"

    def __init__(self, job: Job) -> None:
        if not isinstance(job.source, Pair):
            raise Missing.of("only_pairs")
        self.job, self.pair = job, job.source
        self.solver = job.solver()
        if job.options.solver.is_cadical:
            self.solver = MergingSolver(self.solver.words, job.checker, job.above)
        # Further arguments of the module.
        self.further: dict[str, object] = {}

    def run(self) -> None:
        """Guesses a certificate, and has it checked."""
        self.job.progress(self.name)
        certificate = self.guessed()
        if certificate.size():
            # In plain Tseitin clauses (`raw`), equal gates have equal clauses.
            Certificate(self.job, self.solver, certificate, "raw").run()
        elif self.job.options.verbose:
            say(message("engine", engine=self.name, why=message(self.unshown)))

    def guessed(self) -> Sealed:
        """Returns the certificate, which is empty if there is none. Raises Fault if the program
        fails."""
        task, solver = self.job.task, self.job.options.solver
        asked = {"solver": solver.words, "is_cadical": solver.is_cadical,
                 "limit": self.job.checker.limit, "equal_starts": self.pair.started(),
                 "counts": self.pair.latches(), **self.further}
        with Folder(self.job.above) as folder:
            with folder.make("file.aag") as out:
                out.write(self.job.problem.text.data())
            words = words_of(self.guesses, folder.path, json.dumps(asked))
            group = folder.start(task, words)
            self.job.board.has_begun.set()
            if status := task.finish(group):
                *_, last = folder.text("err", "message").strip().split("\n")
                raise Fault(last or message("own_program", ending=ending(status)))
            folder.pass_on()
            return folder.taken("out", "certificate")


class CorrespondingSignals(CorrespondingRegisters):
    """Has ABC find the classes, and a certificate made of them directly.

    If that isn't one, another is made of the classes that the solver finds to be inductive."""

    name = guesses = "scorr"
    unshown = "unshown_signals"

    def __init__(self, job: Job) -> None:
        super().__init__(job)
        self.further = {"abc": path_of_abc(job.options.abc), "is_taken": True}

    def run(self) -> None:
        """Has a certificate made of ABC's classes, and has it checked."""
        try:
            super().run()
        except Fault:
            self.further["is_taken"] = False
            super().run()
