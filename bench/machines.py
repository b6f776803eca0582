"""Circuits for measurements, which are built from words: run machines FOLDER writes each of them as a binary file. Only `lock` reaches a
bad state."""
import itertools
import pathlib
import sys

from circuits import Adders
from aiger import Machine


class Design(Adders):
    """Gates over words. A word is a list of literals, the lowest bit first. Inputs and registers are words."""

    def __init__(self, inputs, registers):
        super().__init__(sum(inputs) + sum(registers))
        literals = itertools.count(2, 2)
        self.inputs, self.registers = ([list(itertools.islice(literals, bits)) for bits in words] for words in (inputs, registers))

    def choice(self, condition, left, right):
        """Returns one of two words, as a condition selects."""
        return [self.either(self.both(condition, one), self.both(condition ^ 1, other)) for one, other in zip(left, right)]

    def all(self, literals):
        """Returns whether all literals are true, by a chain of gates."""
        return self.any([literal ^ 1 for literal in literals]) ^ 1

    def any(self, literals):
        """Returns whether a literal is true, by a chain of gates."""
        last = 0
        for literal in literals:
            last = self.either(last, literal)
        return last

    def several(self, literals):
        """Returns whether two of the literals are true."""
        one = two = 0
        for literal in literals:
            two, one = self.either(two, self.both(one, literal)), self.either(one, literal)
        return two

    def is_equal(self, word, other):
        return self.all(self.differ(bit, far) ^ 1 for bit, far in zip(word, other))

    def sum(self, word, other, carry=0):
        """Returns the sum of two words, with their length."""
        bits = []
        for bit, far in zip(word, other):
            total, carry = self.sum_and_carry(bit, far, carry)
            bits.append(total)
        return bits

    def machine(self, nexts, bad, starts):
        """Returns the circuit whose registers have the given next values and initial values. An initial value is a number, or None if it
        is open."""
        rows = []
        for word, next, start in zip(self.registers, nexts, starts, strict=True):
            rows += [(bit, after, bit if start is None else start >> i & 1) for i, (bit, after) in enumerate(zip(word, next, strict=True))]
        return Machine(list(itertools.chain(*self.inputs)), rows, bads=[bad], gates=self)


def constant(number, bits):
    return [number >> i & 1 for i in range(bits)]


def ring(stations=16):
    """A token moves around a ring of stations, and a station that requests it keeps it for a time. A state is bad if two stations have
    the token."""
    made = Design([stations], [stations, 3])
    (asks,), (token, held) = made.inputs, made.registers
    is_over = made.all(held)
    stays = [made.both(made.both(has, ask), is_over ^ 1) for has, ask in zip(token, asks)]
    goes = [made.both(has, stay ^ 1) for has, stay in zip(token, stays)]
    nexts = [made.either(stay, gone) for stay, gone in zip(stays, [goes[-1], *goes[:-1]])]
    kept = made.any(stays)
    longer = made.choice(kept, made.sum(held, constant(1, 3)), constant(0, 3))
    return made.machine([nexts, longer], made.several(token), [1, 0])


def rings(one=9, other=10):
    """Two marks move around rings of different lengths, one position whenever an input is true. A state is bad if both are at their last
    positions, which is first possible at step 89."""
    made = Design([1], [one, other])
    (moves,), first, second = *made.inputs, *made.registers
    nexts = [made.choice(moves, [ring[-1], *ring[:-1]], ring) for ring in (first, second)]
    return made.machine(nexts, made.both(first[-1], second[-1]), [1, 1])


def lock(digits=12, bits=4):
    """A lock that opens after a number of correct digits in a row, each of which depends on the one before. A state is bad if the lock is
    open."""
    made = Design([bits], [bits, 4])
    (given,), (wanted, right) = made.inputs, made.registers
    is_right = made.is_equal(given, wanted)
    after = made.sum(made.sum(wanted, [0, 0, *wanted[:-2]]), constant(7, bits))
    count = made.choice(is_right, made.sum(right, constant(1, 4)), constant(0, 4))
    nexts = [made.choice(is_right, after, constant(3, bits)), count]
    return made.machine(nexts, made.is_equal(right, constant(digits, 4)), [3, 0])


def arbiter(count=8):
    """An arbiter that serves the clients in turn, beginning after the last one that was served. A client that isn't served continues to
    request. A state is bad if a client has waited for as many turns as there are clients."""
    made = Design([count], [count, count, *[4] * count])
    (comes,), (turn, waits, *ages) = made.inputs, made.registers
    asks = [made.either(come, wait) for come, wait in zip(comes, waits)]
    got = [0] * count
    for start in range(count):
        free = turn[start]
        for place in (*range(start + 1, count), *range(start + 1)):
            got[place] = made.either(got[place], made.both(free, asks[place]))
            free = made.both(free, asks[place] ^ 1)
    some = made.any(got)
    left = [made.both(ask, gets ^ 1) for ask, gets in zip(asks, got)]
    older = [made.choice(stays, made.sum(age, constant(1, 4)), constant(0, 4)) for stays, age in zip(left, ages)]
    bad = made.any(made.is_equal(age, constant(count, 4)) for age in ages)
    return made.machine([made.choice(some, got, turn), left, *older], bad, [1, 0, *[0] * count])


def multiplier(bits=5):
    """A product that is added up in several steps. A state is bad if the finished product differs from that of an array of adders."""
    made = Design([bits, bits, 1], [bits, bits, bits, 2 * bits, 2 * bits, bits + 1])
    (first, second, (begins,)), (one, other, rest, shifted, total, place) = made.inputs, made.registers
    is_free = place[bits]
    starts = made.both(begins, is_free)
    added = made.sum(total, [made.both(bit, rest[0]) for bit in shifted])
    wide, none = [*first, *[0] * bits], [0] * (2 * bits)
    moved = made.choice(is_free, place, [0, *place[:-1]])
    nexts = [
        made.choice(starts, first, one),
        made.choice(starts, second, other),
        made.choice(starts, second, [*rest[1:], 0]),
        made.choice(starts, wide, [0, *shifted[:-1]]),
        made.choice(starts, none, made.choice(is_free, total, added)),
        made.choice(starts, constant(1, bits + 1), moved),
    ]
    differs = made.is_equal(total, made.product(one, other)) ^ 1
    return made.machine(nexts, made.both(is_free, differs), [0, 0, 0, 0, 0, 1 << bits])


def watchdog(bits=5):
    """A watchdog counter that is reset by a key of two words in order, and fires at its end. A state is bad if it fires although a chain
    of latches has seen the key within this number of steps."""
    count = 1 << bits
    made = Design([3], [1, bits, count - 1, 1])
    (word,), ((half,), age, seen, (rings,)) = made.inputs, made.registers
    is_first, is_second = (made.is_equal(word, constant(number, 3)) for number in (5, 2))
    kicks = made.both(half, is_second)
    end = made.all(age)
    older = made.choice(kicks, constant(0, bits), made.choice(end, age, made.sum(age, constant(1, bits))))
    nexts = [[is_first], older, [kicks, *seen[:-1]], [made.both(end, kicks ^ 1)]]
    return made.machine(nexts, made.both(rings, made.any(seen[1:])), [0, 0, 0, 0])


MACHINES = [ring, rings, lock, arbiter, multiplier, watchdog]

if __name__ == "__main__":
    for make in MACHINES:
        (pathlib.Path(sys.argv[1]) / f"{make.__name__}.aig").write_bytes(make().binary())
