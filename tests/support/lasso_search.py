"""Fair lassos of small machines, by a search over all states, which knows nothing of the
programs."""
import dataclasses
import re

import harness
from harness import CHECK, Checks

# The last step that searches look at.
LAST = 6
# By which words aigcheck prints clauses.
CLAUSES = [
    ["clauses", "file", "2"],
    ["window", "file", "1", "distinct"],
    ["bounded", "file", "3", "raw"],
]
# A line of a name, in a text file; and names that signals are given, which are among those that the
# made files have.
NAME = re.compile("^([il][0-9]+) (.*)$", re.M)
NAMES = ["a", "a b", "", "save", "saved", "saved a", "seen 0", "met 0", "round 1"]


def with_endless(machine):
    """The machine with one more justice property, of no literals: runs without end that meet the
    fairness."""
    return dataclasses.replace(machine, justice=[*machine.justice, []])


class Steps:
    """What a machine does in each state: the next states, and which of some literals are true
    before each."""

    def __init__(self, machine, asked):
        self.machine, self.asked, self.known = machine, asked, {}

    def of(self, state):
        if state not in self.known:
            self.known[state] = {
                (
                    self.machine.following(values),
                    frozenset(literal for literal in self.asked if values[literal]),
                )
                for _, values in self.machine.steps(state)
            }
        return self.known[state]


def layers(steps, last):
    """The states in which a run that meets the constraints can be at each of the steps 0 to
    last."""
    found = [steps.machine.starts()]
    for _ in range(last):
        found.append({after for state in found[-1] for after, _ in steps.of(state)})
    return found


def lassos(machine, asked, last):
    """The k up to last for which there is a fair lasso of k + 1 steps."""
    steps, found = Steps(machine, asked), set()
    states = layers(steps, last)
    for start in set().union(*states):
        begins = [step for step, layer in enumerate(states) if start in layer]
        loops = {(start, frozenset())}
        for count in range(1, last + 2):
            loops = {(after, seen | now) for state, seen in loops for after, now in steps.of(state)}
            if (start, frozenset(asked)) in loops:
                found |= {begin + count - 1 for begin in begins if begin + count - 1 <= last}
    return found


def reachable(steps):
    """All states of runs that meet the constraints."""
    found = left = steps.machine.starts()
    while left:
        left = {after for state in left for after, _ in steps.of(state)} - found
        found = found | left
    return found


def has_lasso(machine, asked):
    """Whether there is a fair lasso of any length."""
    steps = Steps(machine, asked)
    for start in reachable(steps):
        found = left = {(start, frozenset())}
        while left:
            left = {(after, seen | now) for state, seen in left for after, now in steps.of(state)}
            if (start, frozenset(asked)) in left:
                return True
            left -= found
            found = found | left
    return False


def is_lasso(machine, asked, text, j):
    """Whether a text is a witness of justice property j, with any values for x."""
    status, name, start, *steps, end = text.split("\n")[:-1]
    return (status, name, end) == ("1", f"j{j}", ".") and all(
        is_filled(machine, asked, start, steps, bit) for bit in "01"
    )


def is_filled(machine, asked, start, steps, bit):
    """Whether a run, with this value for x, meets the constraints and is a fair lasso."""

    def bits(row):
        return tuple(it == "1" for it in row.replace("x", bit))

    states, seen = [bits(start)], []
    for row in steps:
        values = machine.values(states[-1], bits(row))
        seen.append(
            {literal for literal in asked if values[literal]}
            if machine.is_allowed(values)
            else None
        )
        states.append(machine.following(values))
    if states[0] not in machine.starts() or None in seen or states[-1] not in states[:-1]:
        return False
    return set().union(*seen[states.index(states[-1]):]) == set(asked)


def bad_steps(machine, last):
    """The steps up to last at which a run that meets the constraints has a bad literal."""
    steps = Steps(machine, machine.bads)
    return {
        step
        for step, layer in enumerate(layers(steps, last))
        if any(now for state in layer for _, now in steps.of(state))
    }


def check_clauses(checks: Checks, folder, options, made, what):
    """Checks that with these options aigcheck ends and prints of a file as without them of one with
    these bytes."""
    (folder / "made").mkdir(exist_ok=True)
    (folder / "made" / "file").write_bytes(made)
    for words in CLAUSES:
        wanted = harness.run([CHECK, *words], cwd=folder / "made")
        checks.wants(
            f"{options} {words}: {what}", wanted, harness.run([CHECK, *options, *words], cwd=folder)
        )
