"""Merges equal variables of clauses, and asks cadical about the rest.

The clauses define gates, each an and. Variables are merged if their definitions are equal, or if
unit clauses say so. Each clause that says so follows from those before it by unit propagation, so a
proof may begin with them. This is a program of its own, and aigcheck checks the proof."""
import gc
import itertools
import os
import signal
import sys
from collections.abc import Iterable, Iterator, Sequence

from aigprove.data import message

# A gate: its variable and its operands, as DIMACS literals.
Gate = tuple[int, int, int]
TRUE, FALSE = -1, 1


def parsed(clauses: bytes) -> tuple[int, int]:
    """Returns the number of variables of a DIMACS file, and the offset of its first clause."""
    head = 0 if clauses.startswith(b"p cnf ") else clauses.index(b"\np cnf ") + 1
    end = clauses.index(b"\n", head)
    return int(clauses[head:end].split()[2]), end + 1


def is_short(line: bytes) -> bool:
    """Returns whether a line has a clause of at most one literal."""
    return line.count(b" ") < 2


def definitions(lines: Sequence[bytes]) -> tuple[list[Gate], list[tuple[int, ...]]]:
    """Returns the gates in the lines of plain Tseitin clauses, and the unit clauses in front of and
    behind them.

    A gate has three clauses: -v x, -v y, v -x -y. Raises ValueError if there are other clauses."""
    first, stop = 0, len(lines)
    while first < stop and is_short(lines[first]):
        first += 1
    while first < stop and is_short(lines[stop - 1]):
        stop -= 1
    numbers = list(map(int, b" ".join(lines[first + 2:stop:3]).split()))
    one, two = ([-number for number in numbers[place::4]] for place in (1, 2))
    gates = list(zip(numbers[::4], one, two))
    if 3 * len(gates) != stop - first or any(numbers[3::4]):
        raise ValueError(message("other_clauses"))
    return gates, [tuple(map(int, line.split()[:-1])) for line in [*lines[:first], *lines[stop:]]]


def clauses_of(variable: int, left: int, right: int) -> list[list[int]]:
    """Returns the clauses of a gate."""
    return [[-variable, left], [-variable, right], [variable, -left, -right]]


def text_of(clause: Iterable[int]) -> bytes:
    """Returns a clause in DIMACS notation."""
    return b"%s 0\n" % b" ".join(b"%d" % it for it in clause)


def texts_of(clauses: Iterable[Iterable[int]]) -> Iterator[bytes]:
    """Returns clauses in DIMACS notation, without duplicates and tautologies."""
    sets = dict.fromkeys(frozenset(clause) for clause in clauses)
    return (text_of(own) for own in sets if TRUE not in own and not any(-it in own for it in own))


def is_plain(variable: int, left: int, right: int) -> bool:
    """Returns whether the clauses of a gate are neither tautologies nor have a literal twice."""
    return len({1, abs(variable), abs(left), abs(right)}) == 4


def text_of_gate(variable: int, left: int, right: int) -> bytes:
    """Returns the clauses of a gate in DIMACS notation."""
    if is_plain(variable, left, right):
        return b"%d %d 0\n%d %d 0\n%d %d %d 0\n" % (-variable, left, -variable,
                                                    right, variable, -left, -right)
    return b"".join(texts_of(clauses_of(variable, left, right)))


def text_of_lemmas(literal: int, other: int) -> bytes:
    """Returns the clauses that say that two literals are equal, in DIMACS notation."""
    if abs(other) == 1:
        return b"%d 0\n" % (literal if other == TRUE else -literal)
    return b"%d %d 0\n%d %d 0\n" % (-literal, other, literal, -other)


def literal_of(left: int, right: int) -> int | None:
    """Returns the literal to which an and of two literals simplifies, or None."""
    if FALSE in (left, right) or left == -right:
        return FALSE
    if left == TRUE or left == right:
        return right
    return left if right == TRUE else None


class Merging:
    """The clauses of a query, without the last one, and for each variable the literal that it is
    merged with. Variable 1 is false."""

    def __init__(self, clauses: bytes) -> None:
        count, place = parsed(clauses)
        *lines, last, _ = clauses[place:].split(b"\n")
        # Indexed by a literal: the inverse of a variable counts from the end of the list.
        self.count = count
        self.same: list[int] = [*range(count + 1), *range(-count, 0)]
        *self.last, _ = map(int, last.split())
        gates, self.others = definitions(lines)
        self.merged: list[tuple[int, int]] = []
        for (it,) in filter(None, self.others):
            self.same[it], self.same[-it] = TRUE, FALSE
        # Variables with equal definitions are merged first, so that the nodes of a file and of its
        # certificate become the same. Then unit clauses merge others.
        gates = self.merge(gates)
        self.merge_equal(gates)
        left, same = self.merge(gates), self.same
        self.resolve()
        self.rows = list(dict.fromkeys((same[variable], same[one], same[two])
                                       for variable, one, two in left))

    def literal(self, of: int) -> int:
        """Returns the literal that a literal is merged with."""
        return self.same[of]

    def resolve(self) -> None:
        """Replaces each literal that is itself merged with another one."""
        for variable in range(2, self.count + 1):
            it = self.same[self.same[variable]]
            self.same[variable], self.same[-variable] = it, -it

    def merge(self, gates: Iterable[Gate]) -> list[Gate]:
        """Merges the variables of equal definitions, and returns the other gates."""
        self.resolve()
        same, made, left = self.same, dict[tuple[int, int], int | None](), list[Gate]()
        for gate in gates:
            variable, one, two = gate
            # These may have been merged in this loop.
            own, one, two = same[same[variable]], same[same[one]], same[same[two]]
            key = (one, two) if one < two else (two, one)
            other = made.get(key)
            if other is None:
                other = made[key] = literal_of(one, two)
            if other is None:
                made[key] = own
                left.append(gate)
            elif own == -other:
                left.append(gate)
            elif own != other:
                self.unite(own, other)
        return left

    def unite(self, own: int, other: int) -> None:
        """Merges two literals: that of the smaller variable stays."""
        if abs(own) < abs(other):
            own, other = other, own
        self.same[own], self.same[-own] = other, -other
        self.merged.append((own, other))

    def merge_equal(self, gates: Iterable[Gate]) -> None:
        """Merges the variables of which unit clauses say that neither is true without the other."""
        ands = [operands for variable, *operands in gates if self.same[variable] == FALSE]
        apart = {tuple(sorted(map(self.literal, own), key=abs)) for own in ands}
        for left, right in apart:
            if (-left, -right) in apart:
                left, right = sorted(map(self.last_of, (left, right)), key=abs)
                if abs(left) < abs(right):
                    self.same[right], self.same[-right] = -left, left

    def last_of(self, literal: int) -> int:
        """Returns the literal at the end of the chain of merged literals."""
        while (it := self.same[literal]) != literal:
            literal = it
        return literal

    def asked(self) -> Iterator[bytes]:
        """Yields the pieces of cadical's input, which asks about the literals of the last clause in
        turn, the last first. Yields nothing if all are false."""
        wanted = dict.fromkeys(it for it in map(self.literal, reversed(self.last)) if it != FALSE)
        if wanted:
            yield b"p inccnf\n-1 0\n"
            yield from texts_of(map(self.literal, own) for own in self.others)
            yield from itertools.starmap(text_of_gate, self.rows)
            yield from (b"a %d 0\n" % it for it in wanted)

    def proof(self) -> bytes:
        """Returns the beginning of a proof: for each merged variable, that it is equal to the other
        literal.

        Then come the clauses that are shorter after merging, by which unit propagation finds
        more."""
        shorter = itertools.filterfalse(lambda row: is_plain(*row), self.rows)
        return b"".join([*itertools.starmap(text_of_lemmas, self.merged),
                         *itertools.starmap(text_of_gate, shorter)])


def main(folder: str, *words: str) -> int:
    """Asks cadical, which `words` call, about the clauses in a folder. Prints its solution or the
    whole proof, and returns its status.

    If a signal ends cadical, it ends this process, too."""
    # The program ends soon, so that collecting garbage isn't worthwhile.
    gc.disable()
    clauses, asked, proof, answer = (os.path.join(folder, name)
                                     for name in ["clauses.cnf", "asked", "proof", "answer"])
    with open(clauses, "rb") as file:
        merging = Merging(file.read())
    with open(asked, "xb") as out:
        out.writelines(merging.asked())
        is_asked = out.tell() > 0
    # It runs while the beginning of the proof is generated.
    solver = is_asked and started([*words, asked, proof], answer)
    begin, status = merging.proof(), os.waitstatus_to_exitcode(os.waitpid(solver,
                                                                          0)[1]) if solver else 20
    sys.stdout.buffer.write(begin if status == 20 else b"")
    if solver:
        with open(proof if status == 20 else answer, "rb") as file:
            sys.stdout.buffer.write(file.read())
    if status < 0:
        os.kill(os.getpid(), -status)
    return status


def started(words: list[str], out: str) -> int:
    """Starts a program without input, whose output goes into a file, and returns its process id.

    Python ignores SIGPIPE and SIGXFSZ; the program doesn't."""
    streams = [(os.POSIX_SPAWN_OPEN, 0, os.devnull, os.O_RDONLY, 0),
               (os.POSIX_SPAWN_OPEN, 1, out, os.O_WRONLY | os.O_CREAT | os.O_EXCL, 0o600)]
    return os.posix_spawnp(words[0], words, os.environ,
                           file_actions=streams, setsigdef=[signal.SIGPIPE, signal.SIGXFSZ])
