"""Generates circuits for measurements: run circuits KIND COUNT FILE

If KIND is `multiplier`, COUNT is the number of its bits. Otherwise COUNT is the number of gates. The circuit `pipeline` has random gates
between latches, `random` has random gates, and `shuffled` has the same gates in any order. The same arguments give the same file.
"""
import functools
import pathlib
import random
import sys

sys.path.append(str(pathlib.Path(__file__).resolve().parent.parent / "tests" / "support"))
from aiger import Gates, Machine, joined

TOKENS, STAGES = 16, 52


class Adders(Gates):
    """The gates of a circuit, with operations that add gates."""

    def either(self, a, b):
        return self.both(a ^ 1, b ^ 1) ^ 1

    def differ(self, a, b):
        return self.both(self.either(a, b), self.both(a, b) ^ 1)

    def sum_and_carry(self, a, b, c):
        half = self.differ(a, b)
        return self.differ(half, c), self.either(self.both(a, b), self.both(half, c))

    def product(self, a, b):
        """Returns the bits of a product, the lowest first. The rows of `a`, one for each bit of `b`, are added one after the other."""
        total = [0] * (len(a) + len(b))
        for i, bit in enumerate(b):
            carry = 0
            for j, other in enumerate(a):
                total[i + j], carry = self.sum_and_carry(total[i + j], self.both(other, bit), carry)
            total[i + len(a)] = carry
        return total


def numbers_of(bits):
    """Returns gates over two numbers with the given count of bits, and the two numbers."""
    return Adders(2 * bits), list(range(2, 2 * bits + 2, 2)), list(range(2 * bits + 2, 4 * bits + 2, 2))


def multiplier(bits):
    """Returns a file whose outputs are the bits of a product. It has 10 gates for each pair of bits."""
    gates, a, b = numbers_of(bits)
    return Machine(a + b, outputs=gates.product(a, b), gates=gates).text()


def multipliers(bits):
    """Returns a file that is bad if a product differs from the product of the same numbers in the other order."""
    gates, a, b = numbers_of(bits)
    bad = 0
    for one, other in zip(gates.product(a, b), gates.product(b, a)):
        bad = gates.either(bad, gates.differ(one, other))
    return Machine(a + b, bads=[bad], gates=gates).text()


def pipeline(gates):
    """Returns a file with the given number of gates, in which tokens move through stages. Random gates decide whether they move. A state
    with four tokens in the last stage is bad."""
    rng, made = random.Random(1), Adders(TOKENS * (STAGES + 1))
    leaves, states = list(range(2, made.first, 2)), []
    inputs, latches, pool = leaves[:TOKENS], leaves[TOKENS:], list(leaves)
    while len(made) < gates - 3 * len(latches) - 4:
        pool.append(made.both(rng.choice(pool[-300:]) ^ rng.randrange(2), rng.choice(pool) ^ rng.randrange(2)))
    for before, latch in zip(leaves, latches):
        goes, stays = made.both(before, rng.choice(pool) ^ rng.randrange(2)), made.both(latch, rng.choice(pool) ^ 1)
        states.append((latch, made.either(goes, stays)))
    bad = functools.reduce(made.both, latches[-4:], 1)
    return Machine(inputs, states, bads=[bad], gates=made).text()


def random_circuit(gates, inputs=1000, latches=1000, outputs=16):
    """Returns a file of random gates. Operands are drawn from all smaller variables, half of them from the last thousand."""
    rng = random.Random(1)
    first_gate, end = inputs + latches + 1, inputs + latches + gates + 1

    def literal(below):
        low = max(1, below - 1000) if rng.random() < 0.5 else 1
        return 2 * rng.randrange(low, below) + rng.randrange(2)

    lines = [f"aag {end - 1} {inputs} {latches} {outputs} {gates}", *range(2, 2 * inputs + 2, 2)]
    lines += [f"{2 * v} {literal(end)}" for v in range(inputs + 1, first_gate)]
    lines += [literal(end) for _ in range(outputs)]
    for v in range(first_gate, end):
        a, b = literal(v), literal(v)
        lines.append(f"{2 * v} {max(a, b)} {min(a, b)}")
    return joined(lines)


def shuffled(gates):
    """Returns the same file with its gates, which are the last lines, in any order."""
    lines = random_circuit(gates).splitlines()
    last = lines[-gates:]
    random.Random(1).shuffle(last)
    return joined(lines[:-gates] + last)


KINDS = {"multiplier": multiplier, "pipeline": pipeline, "random": random_circuit, "shuffled": shuffled}

if __name__ == "__main__":
    pathlib.Path(sys.argv[3]).write_text(KINDS[sys.argv[1]](int(sys.argv[2])))
