"""Runs aigcheck, the only program whose answers are trusted.

Every statement about a circuit that aigprove prints is a line that aigcheck printed for a read-only
copy of the file."""
from __future__ import annotations

import re
from collections.abc import Mapping, Sequence
from typing import IO, NamedTuple

from aigprove.circuits.aiger import LIMIT, Circuit, Fault, Header, Lines
from aigprove.data import message
from aigprove.output.messages import ending
from aigprove.processes.files import Sealed, Word, in_memory
from aigprove.processes.scheduler import Task

# How aigcheck's refusal of a proof ends.
STEP = "proof step does not follow"
# How the refusal of a file ends that has more nodes than the limit.
TOO_LARGE = "too many variables"
# The greatest number of variables that a simple-path query may have for comparing states.
PAIRS = 1 << 22
# MISMATCH begins aigedit's message about an interface mismatch, and RESETS the one about an initial
# value that is neither constant nor the latch itself. LOOP is the loop of a lasso in aigcheck's
# line.
MISMATCH, RESETS = "aigedit: files do not fit: ", "aigedit: other file: bad literal in latches"
LOOP = re.compile("from step ([0-9]+) to ([0-9]+)")


def header_of(file: Sealed) -> Header:
    """Returns the header of a file. Raises Fault if it is malformed."""
    return Header(Lines(file.line(), "FILE"))


class Claim(NamedTuple):
    """A line that aigcheck prints when it is called with `words`, in which names of `files` stand
    for these files.

    If `printed` isn't empty, aigprove prints it in place of the line."""

    line: str
    words: Sequence[str]
    files: Mapping[str, Sealed]
    printed: str = ""


class Subject(NamedTuple):
    """A circuit that aigcheck is asked about.

    `words` are the options that select it in the file. If it isn't the file's own circuit, `edit`
    is the command of aigedit that prints it, and the command's further arguments."""

    file: Sealed
    words: Sequence[str] = ()
    edit: Sequence[str] = ()


class Question(NamedTuple):
    """A BMC query: clauses that are satisfiable if a bad state can be reached.

    The state is reached at step `k` (`query`), at a step up to `k` (`bounded`), or at the end of a
    path of k + 2 steps from any state (`window`). `form` are options of the clauses."""

    command: str
    k: int
    form: tuple[str, ...] = ()

    @property
    def name(self) -> str:
        """The name of its proof in an evidence folder."""
        command = {"query": "step", "bounded": "steps", "window": "window"}[self.command]
        return "-".join([command, str(self.k), *self.form])

    @property
    def words(self) -> Sequence[Word]:
        """The arguments behind the command and FILE."""
        return [self.k, *self.form]


class Condition(NamedTuple):
    """A query about a witness circuit: clauses that are satisfiable if it breaks the condition
    `name`."""

    witness: Sealed
    name: str
    command: str = "obligations"

    @property
    def words(self) -> Sequence[Word]:
        """The arguments behind the command and FILE."""
        return [self.witness, self.name]


# A query whose clauses aigcheck prints.
Query = Question | Condition


class Checker(NamedTuple):
    """The programs aigtool, aigedit and aigcheck, run for one task."""

    task: Task
    # The commands that print a file's text form and a query's clauses; then those of aigedit and
    # aigcheck.
    texts: Sequence[str]
    queries: Sequence[str]
    aigedit: Sequence[str]
    aigcheck: Sequence[str]
    limit: int
    # The proof that consists of the empty clause, and the empty proof.
    empty_clause: Sealed
    nothing: Sealed

    @classmethod
    def begin(cls, task: Task, aigtool: str, aigedit: str, aigcheck: str,
              limit: int | None) -> Checker:
        """Returns a checker for the programs at these paths. `limit` is the value of `--limit`."""
        words = [] if limit is None else ["--limit", str(limit)]
        edit, check = [aigedit, *words], [aigcheck, *words]
        # aigtool has no option `--limit`.
        texts = [*edit, "reencode"] if words else [aigtool, "text"]
        queries = [*check, "clauses"] if words else [aigtool, "query"]
        return cls(task, texts, queries, edit, check, limit or LIMIT, Sealed(b"0\n"), Sealed(b""))

    def of(self, task: Task) -> Checker:
        """Returns the same checker for another task."""
        return self._replace(task=task)

    def print(self, words: Sequence[Word], out: IO[bytes]) -> None:
        """Runs a program whose output goes into a file. Raises Fault unless it ends with status
        0."""
        status, _, said = self.task.output(words, stdout=out)
        if status != 0:
            hint = message("too_many_nodes") * said.rstrip("\n").endswith(TOO_LARGE)
            raise Fault((said.partition("\n")[0] or f"{words[0]} {ending(status)}") + hint)

    def printed(self, *words: Word) -> Sealed:
        """Returns the output of a program as an immutable copy. Raises Fault unless it ends with
        status 0."""
        with in_memory() as out:
            self.print(words, out)
            out.seek(0)
            return Sealed(out)

    def text(self, file: Sealed) -> Sealed:
        """Returns the text form of a file."""
        return self.printed(*self.texts, file)

    def transformed(self, *words: Word) -> Sealed:
        """Returns the file that aigedit prints for these arguments."""
        return self.printed(*self.aigedit, *words)

    def lasso(self, subject: Subject, run: Sealed) -> tuple[str, tuple[int, int]]:
        """Returns the line that aigcheck prints about a lasso, and the first and last step of its
        loop.

        Raises Fault if aigcheck refuses the lasso."""
        called: list[Word] = [*self.aigcheck, *subject.words, "run", subject.file, run]
        line = self.printed(*called).data().decode().rstrip("\n")
        found = LOOP.search(line)
        if not found:
            raise Fault.of("other_line", line=repr(line))
        return line, (int(found[1]), int(found[2]))

    def joint(self, file: Sealed, certificate: Sealed, is_needed: bool) -> Sealed | None:
        """Returns the product of a file and a certificate that begins with the file's inputs and
        latches.

        If it doesn't begin so, or has initial values that are functions, the result is None; if it
        `is_needed`, Fault is raised."""
        try:
            return self.transformed("join", file, certificate)
        except Fault as why:
            if is_needed or not str(why).startswith((MISMATCH, RESETS)):
                raise
            return None

    def circuit(self, file: Sealed, what: str) -> Circuit:
        """Returns the circuit in a file that a program accepted. Error messages call the file
        `what`."""
        return Circuit(Lines(file.data(), what), self.limit)

    def machine(self, subject: Subject) -> Sealed:
        """Returns a file with just this circuit, for engines. It isn't used as evidence."""
        command, *words = subject.edit or [""]
        return self.transformed(command, subject.file, *words) if command else subject.file

    def print_question(self, question: Query, subject: Subject, out: IO[bytes]) -> None:
        """Prints the clauses of a query into a file."""
        words = [*self.aigcheck, *subject.words, question.command]
        if question.command == "query":
            words = [*words[:-1], "clauses"] if subject.words else [*self.queries]
        self.print([*words, subject.file, *question.words], out)

    def refusal(self, claim: Claim) -> str | None:
        """Returns aigcheck's message if it refuses a proof of a claim, and None if it prints the
        claim's line.

        Raises Fault for any other error, or any other line."""
        words = [*self.aigcheck, *(claim.files.get(word, word) for word in claim.words)]
        status, printed, said = self.task.output(words)
        said = said.partition("\n")[0]
        if status != 0 and not said.endswith(STEP):
            raise Fault(said or f"{self.aigcheck[0]} {ending(status)}")
        if status == 0 and printed != claim.line + "\n":
            raise Fault.of("other_line", line=repr(printed))
        return said if status else None

    def shows(self, claim: Claim) -> bool:
        """Returns whether aigcheck prints the line of a claim; False if it refuses a proof. Raises
        Fault otherwise."""
        return self.refusal(claim) is None

    def check(self, claim: Claim) -> None:
        """Has aigcheck check a claim. Raises Fault if it doesn't print the claim's line."""
        if why := self.refusal(claim):
            raise Fault(why)

    def witness(self, subject: Subject, question: Question, solution: Sealed) -> bytes:
        """Returns the witness that a solution of a query describes, in the AIGER format."""
        to = ["to"] if question.command == "bounded" else []
        called: list[Word] = [*self.aigcheck, *subject.words, "witness", subject.file]
        return self.printed(*called, *to, question.k, solution).data()
