"""Random machines, as the scripts of this folder ask about them: made of random gates, of lists of
literals, and of clauses."""
import dataclasses
import random

from aiger import Gates, Machine

# Names that signals are given, some by several: words, bits of a word, and signs that a reader may
# take for something else.
NAMES = [
    "a", "a", "a b", "a=1", "i0", "l1", "b0", '"a"', "é", "a\\b", "x[0]", "\t", "i0:a", "d[0]",
    "d[0]", "d[1]", "d[1]", "d[2]", "d",
]
LISTS = {
    "i": "inputs",
    "l": "latches",
    "o": "outputs",
    "b": "bads",
    "c": "constraints",
    "j": "justice",
}


def random_gates(rng, leaves, count, least=0):
    """So many gates over leaves and over one another, whose operands are literals from the least
    on."""
    made = Gates(leaves)
    for _ in range(count):
        made.both(rng.randrange(least, made.end()), rng.randrange(least, made.end()))
    return made


def named(rng, machine, names, letters="il", share=0.7):
    """The machine with names for a share of the places of these letters, in any order. Several may
    have one name."""
    places = [
        f"{letter}{i}" for letter in letters for i in range(len(getattr(machine, LISTS[letter])))
    ]
    rng.shuffle(places)
    return dataclasses.replace(
        machine, names={place: rng.choice(names) for place in places if rng.random() < share}
    )


def small_machine(
    rng: random.Random, most: tuple[int, int, int] = (2, 3, 6), justice: tuple[int, int] = (0, 0)
) -> Machine:
    """A machine of at most so many inputs, latches and gates, in the order of a binary file, with
    lists of any literals, and so many justice properties."""
    inputs, latches, gates = (rng.randint(0, count) for count in most)
    made = random_gates(rng, inputs + latches, gates)

    def some(least, most):
        return [rng.randrange(made.end()) for _ in range(rng.randint(least, most))]

    leaves = list(range(2, made.first, 2))
    states = [[leaf, *some(1, 1), rng.choice([0, 1, leaf])] for leaf in leaves[inputs:]]
    sets = [some(0, 2) for _ in range(rng.randint(*justice))]
    return Machine(
        leaves[:inputs], states, some(0, 3), some(0, 3), some(0, 2), sets, some(0, 1), made
    )


def live_machine(rng):
    """A small machine with one justice property or two."""
    return small_machine(rng, justice=(1, 2))


def renumbered(rng, machine):
    """The machine with other numbers for its variables, of which some may be left out; and its
    greatest variable, or one above."""
    count = len(machine.inputs) + len(machine.latches) + len(machine.gates)
    most = count + rng.choice([0, 0, 1, 5])
    new = [0, *rng.sample(range(1, most + 1), count)]

    def turn(it):
        return 2 * new[it // 2] + it % 2 if isinstance(it, int) else list(map(turn, it))

    made = {name: turn(section) for name, section in vars(machine).items() if name != "names"}
    return Machine(**made, names=machine.names), most


def random_machine(rng):
    """A machine of random gates, with constraints that hold for most inputs."""
    inputs, latches = rng.randint(0, 3), rng.randint(1, 5)
    made = random_gates(rng, inputs + latches, rng.randint(3, 20), least=2)
    leaves, literal = list(range(2, made.first, 2)), lambda: rng.randrange(made.end())
    rng.shuffle(leaves)
    states = leaves[inputs:]
    latches = [(leaf, literal(), rng.choice([0, 0, 1, 1, leaf])) for leaf in states]
    constraints = [made.both(literal(), literal()) ^ 1 for _ in range(rng.choice([0, 0, 1, 2]))]
    # Some states are bad, and now and then a literal.
    bads = [
        made.all([leaf + rng.randrange(2) for leaf in states])
        for _ in range(rng.choice([1, 1, 2, 3]))
    ]
    bads += [literal() for _ in range(rng.choice([0] * 7 + [1]))]
    return named(
        rng, Machine(leaves[:inputs], latches, bads=bads, constraints=constraints, gates=made),
        NAMES, "ilb",
    )


def deep_machine(rng):
    """A machine of random gates: few that are bad in a first state or the next, and not too many
    that never are."""
    while True:
        machine = random_machine(rng)
        if rng.random() < {0: 0.05, 1: 0.2, None: 0.3}.get(machine.first_bad(), 1):
            return machine


def random_clauses(rng):
    """A count of variables, and clauses of three literals, most often without a solution."""
    count = rng.randint(4, 9)

    def some():
        return [
            variable * rng.choice([-1, 1]) for variable in rng.sample(range(1, count + 1), 3)
        ]

    return count, [some() for _ in range(round(count * rng.uniform(5, 7)))]


def machine_of_clauses(count, clauses, spare=0):
    """A machine without latches that is bad where clauses over its first inputs are all true, with
    spare ones."""
    gates = Gates(count + spare)
    bad = gates.all(
        [gates.all([2 * abs(number) + (number > 0) for number in clause]) ^ 1 for clause in clauses]
    )
    return Machine(list(range(2, gates.first, 2)), bads=[bad], gates=gates)
