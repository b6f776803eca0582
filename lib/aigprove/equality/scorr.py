"""Has ABC find nodes of a miter that are always equal, or each other's inverse, and prints a
certificate that says so.

This is a program of its own. aigcheck checks the certificate."""
import collections
import random
from collections.abc import Iterable, Iterator

from aigprove.circuits.aiger import Fault, Header, Lines, binary
from aigprove.circuits.gates import Gates
from aigprove.equality import guesses
from aigprove.equality.guesses import AHEAD, Guess, Guesses, Steps
from aigprove.equality.incremental import IncrementalQueries, Pair
from aigprove.equality.merged_nodes import ordered
from aigprove.equality.nodes import Classes, Nodes
from aigprove.output.messages import ending
from aigprove.processes.files import Folder

# The commands of ABC for a model in which each node is an output. `scorr` merges nodes that are
# equal by induction. If nodes of further steps are included, registers are retimed first, so that
# those of one time step meet, and two steps are considered. Afterwards, equal nodes are outputs of
# one literal, or of it and its inverse.
UNITE = "read_aiger nodes.aig; {}; write_aiger united.aig"
PRESENT, MOVED = "scorr", "dretime -m; zero; scorr -F 2"
# Classes that only have nodes of further steps are left out if at most this part of the gates
# remains. Otherwise they stay, because the other classes may only be inductive together with them.
PART = 0.9


def machine(nodes: Nodes) -> bytes:
    """Returns a model in binary AIGER format whose outputs are the nodes from the first latch on,
    and whose latches are 0 initially."""
    if any(nodes.resets):
        return begun(nodes)
    outputs = range(nodes.latches.start, nodes.all().stop, 2)
    return binary(len(nodes.inputs), nodes.nexts, outputs, nodes.gates)


def begun(nodes: Nodes) -> bytes:
    """Returns the model of a circuit with latches that aren't 0 initially.

    Its last latch says whether the model has taken a step. Before that, the value of an
    uninitialised latch is that of a further input."""
    count, latches = len(nodes.inputs), len(nodes.latches)
    uninitialised = [i for i, reset in enumerate(nodes.resets)
                     if reset > 1 and i not in nodes.equal_starts]
    first = 2 * (1 + count + len(uninitialised))
    own, gates = range(first, first + 2 * latches, 2), Gates(first + 2 * latches + 2)
    free = dict(zip(uninitialised, range(nodes.inputs.stop, first, 2)))
    start = nodes.first([free.get(i, 0) for i in range(latches)], 1)
    state = [latch ^ value if value < 2 else gates.choice(own.stop, latch, value)
             for latch, value in zip(own, start)]
    known = nodes.literals([*nodes.inputs, *state], gates)
    nexts = [literal ^ (value == 1) for literal, value in zip(nodes.following(known), start)]
    return binary(count + len(uninitialised), [*nexts, 1], known[nodes.latches.start::2], gates)


def outputs(data: bytes) -> list[int]:
    """Returns the literals of the outputs of a binary AIGER file."""
    lines = Lines(data, "ABC's file")
    header = Header(lines)
    lines.skip(header.latches)
    return [literal for literal, in lines.rows(header.outputs, 1)]


def rows(nodes: Nodes, literals: Iterable[int]) -> list[list[int]]:
    """Returns the classes of nodes, given the literals of the nodes from the first latch on. The
    class of the constant is the first one."""
    found = collections.defaultdict(list, {0: [0]})
    for node, literal in zip(range(nodes.latches.start, nodes.all().stop, 2), literals):
        found[literal & ~1].append(node ^ literal & 1)
    return list(found.values())


class Found(Steps):
    """Classes that ABC has found, which aren't split by random steps. If `is_taken`, they are
    assumed to be inductive."""

    def __init__(self, classes: Classes, solver: IncrementalQueries, is_taken: bool) -> None:
        super().__init__(classes, solver)
        self.is_taken = is_taken

    def pairs(self) -> list[Pair]:
        """Returns the pairs of equal nodes, unchecked if `is_taken`."""
        return self.classes.pairs() if self.is_taken else super().pairs()

    def settle(self) -> None:
        """Sorts the nodes, and splits no class."""
        self.order = ordered(self.classes)


class FoundSignals(Guesses):
    """The nodes of a miter that ABC finds to be equal."""

    def guesses(self) -> Iterator[Guess]:
        """Yields a guess about nodes of one step, if the files have the same number of latches, and
        one that includes further steps; each only if no bad state is left."""
        # Without registers there are no further steps.
        ways = [*[0] * (self.counts[0] == self.counts[1]),
                max(AHEAD)] if self.circuit.latches else []
        for steps in ways:
            stop, nodes = self.nodes_ahead(steps)
            own = rows(nodes, self.united(nodes, MOVED if steps else PRESENT))
            if set(nodes.bads) <= set(own[0]):
                classes = Classes(nodes, random.Random(0))
                classes.rows = [row for row in own if len(row) > 1]
                fewer = classes.of_first(stop)
                is_less = len(fewer.nodes.gates.rows) < PART * len(nodes.gates.rows)
                yield Found(fewer if is_less else classes, self.solver, self.given["is_taken"])

    def united(self, nodes: Nodes, commands: str) -> list[int]:
        """Returns the literal of each node, from the first latch on, in the circuit that ABC's
        commands leave. Raises Fault if ABC fails."""
        with Folder(self.solver.above) as folder:
            with folder.make("nodes.aig") as out:
                out.write(machine(nodes))
            if status := folder.run(self.solver.task,
                                    [self.given["abc"], "-q", UNITE.format(commands)]):
                raise Fault.of("abc_ended", ending=ending(status))
            return outputs(folder.taken("united.aig", "circuit").data())


def main(folder: str, asked: str) -> int:
    """Prints the certificate of the nodes that ABC finds to be equal."""
    return guesses.run(FoundSignals, folder, asked)
