"""Asks a solver about many literals, or pairs of literals, of one circuit.

cadical is asked about one after the other, and reuses what it has learned. Other solvers are asked
about all at once. The answers aren't checked."""
from collections.abc import Iterable, Sequence

from aigprove.circuits.aiger import Fault
from aigprove.circuits.gates import Gates
from aigprove.options.options import HINTED
from aigprove.processes.files import Folder, Sealed
from aigprove.processes.scheduler import Task
from aigprove.questions.solver import ASSUMING, ended, true_of

Pair = tuple[int, int]


def ways_to_differ(left: int, right: int) -> list[list[int]]:
    """Returns both ways in which two literals can differ, each as a list of literals that are then
    true."""
    return [[it for it in way if it != 1]
            for way in [(left, right ^ 1), (left ^ 1, right)] if 0 not in way]


def dimacs(literal: int) -> int:
    """Returns a literal in DIMACS notation."""
    return -(literal >> 1) if literal & 1 else literal >> 1


def line(literals: Iterable[int]) -> str:
    """Returns a clause in DIMACS notation."""
    return " ".join([*(str(dimacs(it)) for it in literals), "0\n"])


def gate_clauses(gates: Gates) -> list[str]:
    """Returns the clauses of gates, three for each."""
    rows = ((gate >> 1, dimacs(left), dimacs(right)) for gate, left, right in gates.rows)
    return [f"-{gate} {left} 0\n-{gate} {right} 0\n{gate} {-left} {-right} 0\n"
            for gate, left, right in rows]


def ways_at_once(ways: Sequence[Sequence[int]], first: int) -> list[str]:
    """Returns clauses that say that one of the ways is true, with new variables from `first` on."""
    chosen = range(2 * first, 2 * (first + len(ways)), 2)
    clauses = [line([own ^ 1, literal]) for own, way in zip(chosen, ways) for literal in way]
    return [*clauses, line(chosen)]


class IncrementalQueries:
    """A solver that is asked about pairs of literals. `words` call it, and `above` is the folder
    for its files."""

    def __init__(self, words: Sequence[str], is_cadical: bool, task: Task, above: str) -> None:
        self.words, self.is_cadical, self.task, self.above = words, is_cadical, task, above
        # The gates of the last query, and their clauses.
        self.gates: Gates | None = None
        self.clauses = ""

    def differing(self, gates: Gates, facts: Iterable[Pair], pairs: Sequence[Pair],
                  limits: Sequence[str] = ()) -> tuple[int, set[int]] | None:
        """Returns the index of a pair that can differ, and the variables that are true then; None
        if none can differ, according to the solver.

        The gates hold, and the pairs in `facts` are equal. Pairs before that index can't differ.
        `limits` are options of cadical. Raises Undecided if it reaches a limit."""
        ways = [way for pair in pairs for way in ways_to_differ(*pair)]
        if not ways:
            return None
        with Folder(self.above) as folder:
            with folder.make("asked") as out:
                out.writelines(text.encode() for text in self.asked(gates, facts, ways))
            # Other solvers may need a file for their proof.
            words = [*in_turn(self.words), *limits] if self.is_cadical else self.words
            proof = [] if self.is_cadical else [folder.place("proof")]
            called = [*words, folder.place("asked"), *proof]
            status = ended(self.task, folder, called, self.words[0])
            return self.solved(folder.taken("out", "answer"), pairs) if status == 10 else None

    def asked(self, gates: Gates, facts: Iterable[Pair],
              ways: Sequence[Sequence[int]]) -> list[str]:
        """Returns the pieces of the solver's input. The clauses of the gates are reused in the next
        query."""
        if self.gates is not gates:
            self.gates, self.clauses = gates, "".join(gate_clauses(gates))
        further = [line(it ^ 1 for it in way) for pair in facts for way in ways_to_differ(*pair)]
        if self.is_cadical:
            further += [f"a {line(way)}" for way in ways]
            return ["p inccnf\n", self.clauses, "".join(further)]
        further += ways_at_once(ways, gates.next >> 1)
        variables = (gates.next >> 1) + len(ways) - 1
        head = f"p cnf {variables} {3 * len(gates.rows) + len(further)}\n"
        return [head, self.clauses, "".join(further)]

    def solved(self, solution: Sealed, pairs: Sequence[Pair]) -> tuple[int, set[int]]:
        """Returns the index of the pair that differs in a solution, and the true variables. Raises
        Fault if none differs."""
        true = true_of(solution)
        for place, pair in enumerate(pairs):
            left, right = ((it >> 1 in true) ^ (it & 1) for it in pair)
            if left != right:
                return place if self.is_cadical else 0, true
        raise Fault.of("false_solution")


def in_turn(words: Iterable[str]) -> list[str]:
    """Returns the words that call cadical for an incremental query."""
    return [*(word for word in words if word != HINTED), ASSUMING]
