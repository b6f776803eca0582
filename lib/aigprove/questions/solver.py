"""Calls a SAT solver. aigcheck checks its answers."""
from __future__ import annotations

import os
import re
from collections.abc import Callable, Sequence

from aigprove.circuits.aiger import Fault
from aigprove.output.messages import ending
from aigprove.processes.files import Folder, Sealed
from aigprove.processes.groups import Words
from aigprove.processes.scheduler import Task
from aigprove.questions.checker import Checker, Query, Subject

# The last clause of a query that is trivially unsatisfiable: variable 1 is true, and the first
# clause says that it is false.
CONFLICT = b"\n1 0\n"
NUMBER = re.compile("-?[0-9]{1,20}")
# The option of cadical for a proof under assumptions, which has no hints and keeps all variables.
ASSUMING = "--plain"


class Undecided(Fault):
    """The solver ended without an answer."""


def true_of(solution: Sealed) -> set[int]:
    """Returns the literals that are true in a solution: those in the solver's `v` lines."""
    lines = solution.data().decode("ascii", "replace").splitlines()
    words = (word for line in lines if line.startswith("v ") for word in line.split()[1:])
    return {int(word) for word in words if NUMBER.fullmatch(word)} - {0}


def are_in_conflict(path: str) -> bool:
    """Returns whether the clauses in a file are trivially unsatisfiable, because the output of a
    `bounded` query is the constant false."""
    with open(path, "rb") as clauses:
        clauses.seek(max(0, os.path.getsize(path) - len(CONFLICT)))
        return clauses.read() == CONFLICT


def in_turn(clauses: bytes) -> list[bytes | memoryview]:
    """Returns the pieces of an incremental file for cadical that asks about the steps up to K in
    turn.

    Behind the clauses of the query there is, for one step after the other, the assumption that a
    bad state is reached by then, so that cadical reuses what it has learned. The clauses are in the
    order of their gates. The last gate says that no step up to K is bad, as a chain: each gate in
    it reads that of the step before. If the clauses have another form, fewer steps are assumed, and
    the query has the same answer."""
    gate, end = -int(clauses[clauses.rindex(b"\n", 0, -1):].split()[0]), len(clauses)
    chain: list[int] = []
    while gate:
        chain.append(gate)
        gate, end = operands(clauses, gate, end) if gate > 0 else (0, end)
    head = clauses.index(b"\np cnf ") + 1
    assumed = b"".join(b"a %d 0\n" % -gate for gate in reversed(chain))
    return [b"p inccnf", memoryview(clauses)[clauses.index(b"\n", head):], assumed]


def operands(clauses: bytes, gate: int, end: int) -> tuple[int, int]:
    """Returns the first operand of a gate, and the offset of its clauses, which stand before `end`.

    The operand is 0 if the gate isn't an and."""
    place = clauses.rfind(b"\n%d -" % gate, 0, end)
    words = clauses[place + 1:clauses.find(b"\n", place + 1)].split() if place >= 0 else []
    if len(words) != 4:
        return 0, end
    first, other = sorted((-int(word) for word in words[1:3]), key=abs)
    is_and = clauses.endswith(b"\n-%d %d 0\n-%d %d 0" % (gate, first, gate, other), 0, place)
    return (first, place) if is_and else (0, end)


def ended(task: Task, folder: Folder, words: Words, program: str) -> int:
    """Runs a solver in a folder, and returns 10 if it is satisfiable, and 20 if it isn't.

    Raises Undecided if the solver gives up, and Fault if it fails. `program` is its name for
    messages."""
    try:
        status = folder.run(task, words)
    finally:
        folder.pass_on()
    if status not in (10, 20):
        kind: Callable[[str], Fault] = Fault if status else Undecided
        raise kind(f"{os.path.basename(program)} {ending(status)}")
    return status


class Solver:
    """A SAT solver. None of its answers is trusted.

    Its last two arguments are a DIMACS file and the file for its proof, as LRAT text or DRAT. It
    has to end with status 10 and print lines `s ..` and `v ..`, or end with status 20. If it
    `takes_turns`, as cadical does, a query about several steps becomes an incremental one."""

    def __init__(self, words: Sequence[str], checker: Checker, above: str,
                 takes_turns: bool = False) -> None:
        self.words, self.checker, self.above, self.takes_turns = words, checker, above, takes_turns
        self.task: Task = checker.task

    def within(self, seconds: int) -> Solver:
        """Returns the same solver, which has to be cadical, with a limit of time."""
        words = [*self.words, "-t", str(seconds)]
        return Solver(words, self.checker, self.above, self.takes_turns)

    def ask(self, question: Query, subject: Subject) -> tuple[bool, Sealed]:
        """Returns whether a query has a solution according to the solver, and the solution or the
        proof, unchecked.

        A query that is trivially unsatisfiable is decided without the solver, and gets an empty
        proof. Raises Undecided or Fault if the solver has no answer."""
        with Folder(self.above) as folder:
            with folder.make("clauses.cnf") as out:
                self.checker.print_question(question, subject, out)
            is_bounded = question.command == "bounded"
            if is_bounded and are_in_conflict(folder.place("clauses.cnf")):
                return False, self.checker.nothing
            status = self.ended(folder, [*self.called(question, folder), folder.place("proof")])
            has_solution = status == 10
            return has_solution, folder.taken(*("out", "answer") if has_solution
                                              else ("proof", "proof"))

    def ended(self, folder: Folder, words: Words) -> int:
        """Runs a command in a folder, and returns 10 if the query is satisfiable, and 20 if it
        isn't."""
        return ended(self.task, folder, words, self.words[0])

    def called(self, question: Query, folder: Folder) -> list[str]:
        """Returns the command for a query whose clauses are in a folder."""
        if not self.takes_turns or question.command != "bounded":
            return [*self.words, folder.place("clauses.cnf")]
        with open(folder.place("clauses.cnf"), "rb") as clauses:
            pieces = in_turn(clauses.read())
        with folder.make("clauses.icnf") as out:
            out.writelines(pieces)
        return [*self.words, ASSUMING, folder.place("clauses.icnf")]
