"""Compares what `aigcheck run` says of witnesses of justice properties with simulation.

Of random files with justice, fairness and constraints a search over all states finds fair lassos: a
shortest run from a start to each state, and from there one that comes back, with each literal of
the property and of fairness true on the way. Each has to be taken as a witness. Then they are
mangled: a bit is flipped, a step cut or doubled, a value made unknown or left out, or another
property named. What is printed has to be what a simulation in three values here says: the loop from
the first step with the state after the last one, or the first fault. And of each witness that is
taken every run with its values has to be such a lasso.
"""
import itertools
import pathlib

import harness
import pytest
from harness import Checks
from hypothesis import given
from machines import live_machine
from strategies import cases, choices

# How many lassos of a property are looked at, and how many mangled ones of each.
LASSOS, MANGLED = 3, 5
# The most unknown values of which all fillings are tried.
MOST_FILLED = 6
BITS = {"0": False, "1": True, "x": None}


def stems(machine):
    """A shortest run to each state that a run which meets the constraints reaches: its first state
    and its inputs."""
    found = {state: (state, []) for state in machine.starts()}
    left = list(found)
    for state in left:
        for inputs, values in machine.steps(state):
            after = machine.following(values)
            if after not in found:
                found[after] = found[state][0], [*found[state][1], inputs]
                left.append(after)
    return found


def way_back(machine, asked, state):
    """The inputs of a shortest run from a state back to it, with each of the literals true on the
    way, if there is one."""
    left = [(state, frozenset(), [])]
    met = {(state, frozenset())}
    for now, seen, path in left:
        for inputs, values in machine.steps(now):
            step = machine.following(values), seen | {
                literal for literal in asked if values[literal]
            }
            if step == (state, frozenset(asked)):
                return [*path, inputs]
            if step not in met:
                met.add(step)
                left.append((*step, [*path, inputs]))
    return None


def lassos(machine, asked):
    """Fair lassos: the first state, and the inputs of each step."""
    for state, (start, inputs) in stems(machine).items():
        back = way_back(machine, asked, state)
        if back is not None:
            yield start, inputs + back


def value_of(values, left, right):
    """The value of a gate, where some may be unknown."""
    pair = values[left], values[right]
    return False if False in pair else None if None in pair else True


def known(machine, state, inputs):
    """What is known of all literals in a step."""
    values = {0: False, 1: True}
    leaves = [*machine.inputs, *(latch[0] for latch in machine.latches)]
    for literal, bit in zip(leaves, [*inputs, *state], strict=True):
        values[literal], values[literal + 1] = bit, None if bit is None else not bit
    for gate, left, right in machine.gates:
        bit = value_of(values, left, right)
        values[gate], values[gate + 1] = bit, None if bit is None else not bit
    return values


def first_fault(machine, j, state, rows):
    """What is wrong before the first step, if anything is."""
    if len(state) != len(machine.latches):
        return "the state has another number of values than there are latches"
    if not rows:
        return "no step"
    if j >= len(machine.justice):
        return "no such justice property"
    resets = [latch[2] if len(latch) > 2 else 0 for latch in machine.latches]
    is_start = all(reset > 1 or bit is bool(reset) for reset, bit in zip(resets, state))
    return None if is_start else "the state isn't known to be initial"


def unmet(literals, loop):
    """The place of the first literal that isn't known to be true in the loop, if there is one."""
    return next(
        (
            place
            for place, literal in enumerate(literals)
            if all(values[literal] is not True for values in loop)
        ),
        None,
    )


def said_of(machine, j, state, rows):
    """Whether a witness shows a lasso, and the line that says which, or what is wrong first."""
    fault = first_fault(machine, j, state, rows)
    if fault:
        return False, fault
    states, steps = [], []
    for t, row in enumerate(rows):
        if len(row) != len(machine.inputs):
            return False, f"step {t} has another number of values than there are inputs"
        values = known(machine, state, row)
        if any(values[literal] is not True for literal in machine.constraints):
            return False, f"a constraint is not known to hold at step {t}"
        states.append(state)
        steps.append(values)
        state = machine.following(values)
    if None in state or state not in states:
        return False, "no state is known to come again after the last step"
    begin = states.index(state)
    place = unmet(machine.justice[j], steps[begin:])
    if place is not None:
        return False, f"literal {place} of the justice property is not known to hold in the loop"
    place = unmet(machine.fairness, steps[begin:])
    if place is not None:
        return False, f"fairness literal {place} is not known to hold in the loop"
    return True, f"j{j} in a loop from step {begin} to {len(rows) - 1}"


def mangled(rng, j, start, rows):
    """The parts of a witness with one change."""
    rows = [list(row) for row in rows]
    lines = [list(start), *rows]
    line, step = rng.choice(lines), rng.randrange(len(rows))
    how = rng.choice(["flip", "x", "cut", "double", "short", "other", "x", "flip"])
    if how in ("flip", "x", "short") and line:
        place = rng.randrange(len(line))
        if how == "short":
            del line[place]
        else:
            line[place] = None if how == "x" or line[place] is None else not line[place]
    elif how == "cut":
        del lines[step + 1]
    elif how == "double":
        lines.insert(step + 1, lines[step + 1])
    else:
        j = rng.randint(0, 2)
    return j, tuple(lines[0]), [tuple(row) for row in lines[1:]]


def letters(row):
    return "".join("x" if bit is None else "01"[bit] for bit in row)


def fillings(rows):
    """The rows with both values for each that is unknown."""
    count = sum(row.count(None) for row in rows)
    for bits in itertools.product([False, True], repeat=count):
        left = iter(bits)
        yield [tuple(next(left) if bit is None else bit for bit in row) for row in rows]


class Runs:
    """A program, a folder, and what is counted."""

    def __init__(self, program: pathlib.Path, folder: pathlib.Path, checks: Checks) -> None:
        self.program, self.folder, self.checks = program, folder, checks

    def check(self, machine, j, start, rows):
        """Whether a witness was taken, after a check that this is told of it which the simulation
        says."""
        text = "".join(
            f"{line}\n" for line in ["1", f"j{j}", letters(start), *map(letters, rows), "."]
        )
        (self.folder / "witness").write_text(text)
        taken, said = said_of(machine, j, start, rows)
        status, out, told = harness.run([self.program, "run", "file", "witness"], cwd=self.folder)
        given = status, out.decode(), harness.alone(harness.unnamed(told)).decode()
        wanted = (0, f"{said}\n", "") if taken else (1, "", f"aigcheck: {said}\n")
        self.checks.wants(f"{text}{machine.text()}", wanted, given)
        lines = [start, *rows]
        if taken and sum(row.count(None) for row in lines) <= MOST_FILLED:
            filled = all(said_of(machine, j, first, more)[0] for first, *more in fillings(lines))
            self.checks.check(
                filled, f"some run with these values is no lasso: {text}{machine.text()}"
            )
        return taken


@pytest.fixture
def runs(aigcheck, folder, checks):
    """The program aigcheck, with a folder for files."""
    return Runs(aigcheck, folder, checks)


def some_lassos(runs, rng):
    """Writes a random machine, and returns it with a few lassos of each of its properties."""
    machine = live_machine(rng)
    (runs.folder / "file").write_text(machine.text())
    for j, own in enumerate(machine.justice):
        found = list(lassos(machine, own + machine.fairness))
        for start, rows in rng.sample(found, min(len(found), LASSOS)):
            yield machine, j, start, rows


@cases(100)
@given(rng=choices())
def test_lassos(runs, rng):
    """A lasso that a search finds is taken."""
    for machine, j, start, rows in some_lassos(runs, rng):
        runs.checks.check(
            runs.check(machine, j, start, rows), f"a lasso is taken: {machine.text()}"
        )


@cases(100)
@given(rng=choices())
def test_mangled_lassos(runs, rng):
    """Of a lasso with one change is said what a simulation says."""
    for machine, j, start, rows in some_lassos(runs, rng):
        for _ in range(MANGLED):
            runs.check(machine, *mangled(rng, j, start, rows))
