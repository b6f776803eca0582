"""Witness circuits of a model, made and mangled, and what the five conditions of a certificate say
of one, by a search over all values.

A certificate is one of the hardware model checking competition: a witness circuit that simulates
the model on the leaves that both share, and whose property is inductive. Which leaves are shared
its names say, `= ` and a literal of the model, or else the order."""
import collections
import dataclasses
import itertools
import re

from aiger import Machine
from lasso_search import Steps, reachable
from machines import NAMES, random_machine, renumbered

from aigprove.circuits.gates import Gates, literals_of

CONDITIONS = ["reset", "transition", "property", "base", "step"]
# How many inputs and latches both have at most, where each leaf that is shared counts once.
INPUTS, LATCHES = 3, 4


def leaves_of(machine):
    """The literals of the inputs, and those of the latches."""
    return list(machine.inputs), [latch[0] for latch in machine.latches]


def greatest(machine):
    """The greatest variable that is defined."""
    return max([0, *itertools.chain(*leaves_of(machine)), *(row[0] for row in machine.gates)]) // 2


@dataclasses.dataclass
class Witness:
    """A witness circuit, and the names of its leaves by their literals."""

    machine: Machine
    names: dict

    def text(self):
        places = {
            f"{letter}{i}": leaf
            for letter, leaves in zip("il", leaves_of(self.machine))
            for i, leaf in enumerate(leaves)
        }
        names = {place: self.names[leaf] for place, leaf in places.items() if leaf in self.names}
        return dataclasses.replace(self.machine, names=names).text()

    def changed(self, **lists):
        return dataclasses.replace(self, machine=dataclasses.replace(self.machine, **lists))


# ---- which leaves are shared


class Untold(Exception):
    """Why it isn't told which leaves are shared: what is wrong of a name, and the leaf that has
    it."""


def literal_of(name):
    """The literal in the name of a leaf that stands for another; None where it is no such name, and
    -1 where no number follows."""
    number = re.fullmatch("= (.*)", name, re.DOTALL)
    return number and (int(number[1]) if re.fullmatch("[0-9]+", number[1]) else -1)


def shared(model, witness):
    """The leaf of the model for which each shared leaf of a witness circuit stands."""
    found, kinds = {}, list(zip(leaves_of(model), leaves_of(witness.machine)))
    for given, own in kinds:
        for leaf in own:
            literal = literal_of(witness.names.get(leaf, ""))
            if literal is None:
                continue
            if literal not in given:
                raise Untold("its name has no literal of such a leaf of the model", leaf)
            if literal in found.values():
                raise Untold("its name has the literal of another", leaf)
            found[leaf] = literal
    return found or {leaf: literal for given, own in kinds for literal, leaf in zip(given, own)}


# ---- the conditions


def points(machine):
    """The values of all literals, for all values of the leaves."""

    def every(leaves):
        return itertools.product([False, True], repeat=len(leaves))

    return [
        machine.values(state, inputs)
        for state in every(machine.latches)
        for inputs in every(machine.inputs)
    ]


def grouped(values, key):
    """Lists of these by their keys."""
    found = collections.defaultdict(list)
    for one in values:
        found[key(one)].append(one)
    return found


def starts(latches, values):
    """Whether latches have the values of their resets."""
    return all(values[latch] == values[reset] for latch, _, reset in latches)


class Search:
    """The conditions, said of all values x of a model's literals and y of a witness circuit's, and
    of those after them: a step later they are `after` and z."""

    def __init__(self, model, witness):
        self.model, self.witness, self.leaves = model, witness.machine, shared(model, witness)
        self.own = [latch for latch in self.witness.latches if latch[0] not in self.leaves]
        self.of_model, self.of_witness = points(model), points(self.witness)
        self.beside = grouped(self.of_witness, self.shared_in)
        self.moved = grouped(
            self.of_witness, lambda z: (self.shared_in(z), tuple(z[latch[0]] for latch in self.own))
        )

    def goes_round(self):
        """Whether resets of own latches go round in a circle: whichever of them are found, some
        rest on others that aren't."""
        below = {0: set(), **{leaf: {leaf} for leaf in itertools.chain(*leaves_of(self.witness))}}
        for gate, left, right in self.witness.gates:
            below[gate] = below[left & ~1] | below[right & ~1]
        waiting = {latch: below[reset & ~1] for latch, _, reset in self.own if reset != latch}
        while found := [latch for latch, leaves in waiting.items() if not leaves & waiting.keys()]:
            for latch in found:
                del waiting[latch]
        return bool(waiting)

    def shared_in(self, y):
        return tuple(y[leaf] for leaf in self.leaves)

    def agreeing(self, x):
        """What the shared leaves of the witness circuit are beside values of the model's."""
        return tuple(x[leaf] for leaf in self.leaves.values())

    def state(self, machine, values):
        return tuple(values[latch[0]] for latch in machine.latches)

    def is_good(self, y):
        """Whether the witness circuit's property holds, where its constraints do."""
        return self.witness.is_allowed(y) and not self.witness.is_bad(y)

    def reset(self):
        """Where the model is in an initial state, and the own latches start, so does the witness
        circuit."""
        first = [
            x for x in self.of_model if starts(self.model.latches, x) and self.model.is_allowed(x)
        ]
        both = (y for x in first for y in self.beside[self.agreeing(x)] if starts(self.own, y))
        return all(starts(self.witness.latches, y) and self.witness.is_allowed(y) for y in both)

    def transition(self):
        """Where the model makes a step, and the own latches do, so does the witness circuit."""
        return all(self.moves(y, z) for y, z in self.steps_beside())

    def moves(self, y, z):
        return self.state(self.witness, z) == self.witness.following(y) and self.witness.is_allowed(
            z
        )

    def steps_beside(self):
        """What the witness circuit has before and after a step of the model's and of the own
        latches."""
        allowed = list(filter(self.model.is_allowed, self.of_model))
        nexts = grouped(allowed, lambda x: self.state(self.model, x))
        for x in allowed:
            for y in filter(self.witness.is_allowed, self.beside[self.agreeing(x)]):
                own = tuple(y[latch[1]] for latch in self.own)
                for after in nexts[self.model.following(x)]:
                    yield from ((y, z) for z in self.moved[self.agreeing(after), own])

    def property(self):
        """Where the witness circuit's property holds, the model's does."""
        allowed = filter(self.model.is_allowed, self.of_model)
        return not any(
            self.model.is_bad(x) and any(map(self.is_good, self.beside[self.agreeing(x)]))
            for x in allowed
        )

    def base(self):
        """Each initial state of the witness circuit is good."""
        first = (
            y
            for y in self.of_witness
            if starts(self.witness.latches, y) and self.witness.is_allowed(y)
        )
        return not any(map(self.witness.is_bad, first))

    def step(self):
        """A step of the witness circuit from a good state leads to a good one."""
        allowed = grouped(
            filter(self.witness.is_allowed, self.of_witness), lambda z: self.state(self.witness, z)
        )
        after = (
            z
            for y in self.of_witness
            if self.is_good(y)
            for z in allowed[self.witness.following(y)]
        )
        return not any(map(self.witness.is_bad, after))

    def broken(self):
        """The names of the conditions that don't hold."""
        return [name for name in CONDITIONS if not getattr(self, name)()]


# ---- witness circuits


class Copy:
    """A witness circuit that begins as a copy of a model, with so many inputs and latches of its
    own behind those of the model."""

    def __init__(self, model, inputs=0, latches=0):
        self.model, given = model, leaves_of(model)
        counts = [len(given[0]), inputs, len(given[1]), latches]
        ends = [2 * (1 + sum(counts[:i])) for i in range(5)]
        self.inputs, self.own_inputs, self.state, self.own = (
            [*range(*pair, 2)] for pair in zip(ends, ends[1:])
        )
        self.gates = Gates(ends[-1])
        self.leaves = dict(zip([*given[0], *given[1]], [*self.inputs, *self.state]))
        self.literal = literals_of(model, self.gates, self.leaves)
        self.latches = [
            [leaf, self.literal(row[1]), self.reset(leaf, row)]
            for leaf, row in zip(self.state, model.latches)
        ]
        self.constraints, self.bads = (
            list(map(self.literal, literals)) for literals in (model.constraints, model.bads)
        )

    def reset(self, leaf, row):
        return row[2] if row[2] < 2 else leaf

    def any_literal(self, rng):
        return rng.randrange(self.gates.next)

    def equal(self, left, right):
        return self.gates.choice(left, right, right ^ 1)

    def is_number(self, bits, number):
        """The literal that is true where bits, of which the first is the lowest, spell a number."""
        return self.gates.all(bit ^ 1 ^ (number >> i & 1) for i, bit in enumerate(bits))

    def first_state(self, state):
        """The literal that is true where the model can start in a state."""
        return self.gates.all(
            leaf ^ (row[2] == 0) for leaf, row in zip(state, self.model.latches) if row[2] < 2
        )

    def machine(self):
        inputs, latches = [*self.inputs, *self.own_inputs], list(self.latches)
        return Machine(
            inputs, latches, bads=self.bads, constraints=self.constraints, gates=self.gates.rows
        )

    def in_order(self):
        """Its leaves stand for the model's by order."""
        return Witness(self.machine(), {})

    def by_names(self, rng):
        """Its leaves stand in any order, and their names say for which of the model's."""
        made = self.machine()
        rng.shuffle(made.inputs)
        rng.shuffle(made.latches)
        return Witness(
            made, {own: f"= {'0' * rng.randint(-5, 2)}{leaf}" for leaf, own in self.leaves.items()}
        )


def by_invariant(made, excluded):
    """Has the states of a copy be bad that are bad in a machine with the model's leaves."""
    leaves = dict(zip(itertools.chain(*leaves_of(excluded)), [*made.inputs, *made.state]))
    made.bads.append(made.gates.any(map(literals_of(excluded, made.gates, leaves), excluded.bads)))
    return made


def by_steps(model, k):
    """The model, and latches that keep the k states before with their inputs, and count how many of
    these there are: bad where they are no good steps that lead here, or there are fewer, and the
    first isn't an initial one."""
    inputs, width = len(model.inputs), k.bit_length()
    size = inputs + len(model.latches)
    made = Copy(model, latches=width + k * size)
    count, frames = made.own[:width], [
        made.own[i:i + size] for i in range(width, len(made.own), size)
    ]
    is_at = [made.is_number(count, number) for number in range(k + 1)]
    now = [*made.inputs, *made.state]
    for i, frame in enumerate(frames):
        literal = literals_of(
            model, made.gates, dict(zip(itertools.chain(*leaves_of(model)), frame))
        )
        moves = [
            made.equal(literal(row[1]), leaf) for row, leaf in zip(model.latches, now[inputs:])
        ]
        good = [*moves, *map(literal, model.constraints), *(literal(bad) ^ 1 for bad in model.bads)]
        made.bads += [made.gates.both(is_at[i], made.first_state(now[inputs:]) ^ 1)]
        made.bads += [made.gates.both(made.gates.any(is_at[i + 1:]), made.gates.all(good) ^ 1)]
        # What is kept of no state may be anything: here it is what the state after it is.
        made.latches += [[leaf, before, before] for leaf, before in zip(frame, now)]
        now = frame
    made.bads.append(made.gates.any(is_at) ^ 1)
    carry = is_at[k] ^ 1
    for bit in count:
        made.latches.append([bit, made.equal(bit, carry) ^ 1, 0])
        carry = made.gates.both(bit, carry)
    return made


def with_own(rng, made):
    """Gives the input and the three latches that are a copy's own a use: where the first latch is
    true, the model can start in the state, and by a constraint the second never is true. The resets
    of the last two are functions of other leaves and the first."""
    (free,), (first, never, odd) = made.own_inputs, made.own
    made.latches += [
        [first, 0, 1],
        [never, never, first ^ 1],
        [odd, made.equal(free, made.any_literal(rng)), made.equal(free, never)],
    ]
    made.bads.append(made.gates.both(first, made.first_state(made.state) ^ 1))
    made.constraints.append(never ^ 1)
    return made


# ---- random ones


def random_model(rng):
    """A small machine that most often is never bad."""
    while True:
        machine = random_machine(rng)
        is_small = len(machine.inputs) <= INPUTS and len(machine.latches) <= LATCHES
        if is_small and (machine.first_bad() is None or rng.random() < 0.05):
            return machine


def exclude(made, states):
    """Has all other states of a copy be bad."""
    leaves = [row[0] for row in made.latches]

    def bits(state):
        return made.gates.all(leaf ^ 1 ^ bit for leaf, bit in zip(leaves, state))

    made.bads.append(made.gates.any(map(bits, states)) ^ 1)


def random_copy(rng, model):
    """A witness circuit that meets the first three conditions, and has the states as bad that no
    run of its own reaches. Where the model's constraints fail, its latches may move as they like,
    and its constraints may hold; its latches may start as they like; and some constraints are of
    latches of its own that always meet them."""
    made = Copy(
        model,
        *(
            rng.randint(0, most - len(leaves))
            for most, leaves in zip((INPUTS, LATCHES), leaves_of(model))
        )
    )
    allowed = made.gates.all(made.constraints)
    for row in made.latches:
        if made.constraints and rng.random() < 0.3:
            row[1] = made.gates.choice(allowed, row[1], made.any_literal(rng))
        if rng.random() < 0.1:
            row[2] = row[0]
    made.constraints = [
        made.gates.any([it, made.any_literal(rng)]) if rng.random() < 0.3 else it
        for it in made.constraints
    ]
    for leaf in made.own:
        is_kept = rng.random() < 0.2
        resets = [0, 1, leaf, made.any_literal(rng), made.any_literal(rng)]
        made.latches.append(
            [leaf, leaf, 0] if is_kept else [leaf, made.any_literal(rng), rng.choice(resets)]
        )
        made.constraints += [leaf ^ 1] * is_kept
    exclude(made, reachable(Steps(made.machine(), [])))
    return made


def with_spare(rng, model, is_last):
    """The model with an input or a latch more that nothing else reads, the last one or any."""
    leaf = 2 * (greatest(model) + 1)
    next = rng.choice(
        [0, *itertools.chain(*leaves_of(model)), *(row[0] for row in model.gates), leaf]
    ) ^ rng.randrange(2)
    name, one = rng.choice([("inputs", leaf), ("latches", [leaf, next, rng.choice([0, 1, leaf])])])
    given = list(getattr(model, name))
    given.insert(len(given) if is_last else rng.randint(0, len(given)), one)
    return dataclasses.replace(model, **{name: given})


def random_claim(rng):
    """A model, whose variables may have gaps and gates below leaves; a witness circuit; and whether
    it is right by construction."""
    model = random_model(rng)
    if rng.random() < 0.5:
        model, _ = renumbered(rng, model)
    made, is_named = random_copy(rng, model), rng.random() < 0.7
    witness = made.by_names(rng) if is_named else made.in_order()
    # Names that say nothing.
    others = [
        leaf
        for leaf in itertools.chain(*leaves_of(witness.machine))
        if leaf not in witness.names and rng.random() < 0.5
    ]
    witness.names.update((leaf, rng.choice([*NAMES, "=2", " = 2", "2"])) for leaf in others)
    is_right = witness.machine.first_bad() is None
    # By order a leaf of its own would stand for the spare one.
    is_apart = is_named or not made.own_inputs + made.own
    fits = is_apart and all(
        len(leaves) < most for leaves, most in zip(leaves_of(witness.machine), (INPUTS, LATCHES))
    )
    return (
        with_spare(rng, model, not is_named) if fits and rng.random() < 0.5 else model, witness,
        is_right,
    )


# ---- mangled ones


def turned(rng, literals):
    """The list with a literal turned, left out, or another one behind it."""
    made = list(literals)
    if not made or rng.random() < 0.2:
        return [*made, rng.randrange(4)]
    place = rng.randrange(len(made))
    made[place:place + 1] = rng.choice([[made[place] ^ 1], []])
    return made


def one_of(rng, rows):
    """One of these, where there is any."""
    return rng.sample(rows, min(1, len(rows)))


def with_other(rng, witness, place, others):
    """Another number at this place in the row of a latch."""
    rows = list(map(list, witness.machine.latches))
    for row in one_of(rng, rows):
        row[place] = rng.choice(others(row))
    return witness.changed(latches=rows)


def other_gate(rng, witness):
    rows = list(map(list, witness.machine.gates))
    for row in one_of(rng, rows):
        row[rng.choice([1, 2])] ^= 1
    return witness.changed(gates=rows)


def other_reset(rng, witness):
    made = [row[0] for row in [*witness.machine.latches, *witness.machine.gates]]
    return with_other(
        rng, witness, 2,
        lambda row: sorted({0, 1, row[0], rng.choice(made), rng.choice(made) ^ 1} - {row[2]}),
    )


def has_functions(machine):
    """Whether some reset is a function."""
    return any(row[0] != row[2] > 1 for row in machine.latches if len(row) > 2)


def going_round(rng, witness, own):
    """Resets of some of these latches go round in a circle."""
    leaves = rng.sample(own, rng.randint(1, min(3, len(own))))
    resets = {
        leaf: after ^ (leaf == after or rng.randrange(2))
        for leaf, after in zip(leaves, [*leaves[1:], leaves[0]])
    }
    return witness.changed(
        latches=[[*row[:2], resets.get(row[0], row[2])] for row in witness.machine.latches]
    )


def other_circle(rng, witness):
    """Resets of some latches, which may be shared, go round in a circle."""
    return (
        going_round(rng, witness, leaves_of(witness.machine)[1])
        if witness.machine.latches
        else witness
    )


def other_next(rng, witness):
    leaves = [
        literal
        for leaf in itertools.chain(*leaves_of(witness.machine))
        for literal in (leaf, leaf + 1)
    ]
    return with_other(rng, witness, 1, lambda row: [row[1] ^ 1, rng.choice(leaves)])


def other_bad(rng, witness):
    return witness.changed(bads=turned(rng, witness.machine.bads))


def other_constraint(rng, witness):
    return witness.changed(constraints=turned(rng, witness.machine.constraints))


def fewer_latches(rng, witness):
    """A latch becomes an input."""
    inputs, latches = leaves_of(witness.machine)
    gone = one_of(rng, latches)
    made = witness.changed(
        inputs=[*inputs, *gone],
        latches=[row for row in witness.machine.latches if row[0] not in gone],
    )
    return dataclasses.replace(
        made, names={leaf: name for leaf, name in witness.names.items() if leaf not in gone}
    )


def other_order(rng, witness):
    """Two inputs or latches change places."""
    lists = {name: list(getattr(witness.machine, name)) for name in ["inputs", "latches"]}
    rows = rng.choice(list(lists.values()))
    if len(rows) > 1:
        left, right = rng.sample(range(len(rows)), 2)
        rows[left], rows[right] = rows[right], rows[left]
    return witness.changed(**lists)


def other_names(rng, witness):
    """The names of two leaves change places, or one has another, or none."""
    leaves = rng.choice([it for it in leaves_of(witness.machine) if it])
    left, right = rng.choice(leaves), rng.choice(leaves)
    names = dict(witness.names)
    given = [name for leaf, name in names.items() if leaf in (left, right)]
    names.pop(left, None)
    kind = rng.randrange(3)
    if kind == 0 and len(given) == 2:
        names[left], names[right] = names[right], witness.names[left]
    if kind == 1:
        names[left] = rng.choice(
            [
                "= ", "= -2", "= 2 ", "= é", f"= {rng.randrange(30)}", f"= {2 * rng.randrange(15)}",
                *given,
            ]
        )
    return dataclasses.replace(witness, names=names)


MANGLES = [
    other_gate, other_reset, other_circle, other_next, other_bad, other_constraint, fewer_latches,
    other_order, other_names,
]
