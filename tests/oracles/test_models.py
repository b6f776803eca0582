"""Holds what aig_script prints against plain programs that know nothing of the library.

Clauses against runs of a file: for all values of the leaves, what the clauses fix is what the
file's own lines say, step by step, and the further clauses of a query hold exactly on the runs to a
bad state. The simulator knows the lines alone, and the solver the clauses. Hashing against trees:
the nodes of a hashed circuit are the trees of the old one that differ, up to exchange. And circuits
of a hundred thousand gates, each on the one before, which no call may take for a deep stack. And
sinks and formatters with room for a part of what is written.
"""
from __future__ import annotations

import itertools
import pathlib
import random
import re
from collections.abc import Callable, Iterable
from typing import Any

import harness
import pytest
import scripts
from aiger import AND, BINARY_AND, Machine, joined, machine_of


def answers(program: pathlib.Path, steps: list[str], files: dict[str, str] = {}) -> list[list[str]]:
    """The lines that the program prints for each of the steps, with files that they name."""
    with harness.new_folder() as folder:
        harness.write_files(
            folder,
            {
                "steps": joined(steps).encode(),
                **{name: text.encode() for name, text in files.items()},
            },
        )
        status, out, error = harness.run([program, "steps"], cwd=folder)
    assert status == 0, f"{program} ended with {status}: {error}"
    return scripts.answers(out.decode())


# ---- circuits, as they are printed


def edge(word: str) -> tuple[int, bool]:
    """An edge: its node's number, and whether it is inverted."""
    return int(word.lstrip("!")), word.startswith("!")


def sections(lines: list[str]) -> dict[str, list[str]]:
    """What stands behind each title of a circuit."""
    return {title: words for title, *words in map(str.split, lines)}


def nodes(words: list[str]) -> list[str | tuple[tuple[int, bool], tuple[int, bool]]]:
    """The operands of each gate, and the kind of each other node."""
    return [tuple(map(edge, word.split("&"))) if "&" in word else word for word in words]


def sets(words: list[str]) -> list[list[tuple[int, bool]]]:
    """The sets of edges that stand in brackets."""
    return [
        [edge(it) for it in inner.split()] for inner in re.findall(r"\[([^]]*)\]", " ".join(words))
    ]


# ---- the simulator


def run_of(machine: Machine, k: int, number: int) -> list[dict[int, bool]]:
    """The values of the steps 0 to k of a run, whose first state and inputs are the bits of a
    number, the lowest first."""
    bits = (bool(number >> i & 1) for i in itertools.count())
    state, steps = [next(bits) for _ in machine.latches], []
    for _ in range(k + 1):
        steps.append(machine.values(state, [next(bits) for _ in machine.inputs]))
        state = machine.following(steps[-1])
    return steps


def is_witness(machine: Machine, steps: list[dict[int, bool]]) -> bool:
    """Whether a run begins with the initial values, meets all constraints, and ends in a bad
    state."""
    start = tuple(steps[0][latch[0]] for latch in machine.latches)
    return (
        start in machine.starts()
        and all(map(machine.is_allowed, steps))
        and any(steps[-1][literal] for literal in machine.bads)
    )


# ---- the solver


def value(values: dict[int, bool], literal: int) -> bool:
    """The value of a literal, by those of variables."""
    return values[literal // 2] != bool(literal % 2)


def fixed(clauses: list[list[int]], values: dict[int, bool]) -> dict[int, bool]:
    """All values that the clauses and the given values leave no choice about."""
    values, grown = dict(values), True
    while grown:
        grown = False
        for clause in clauses:
            opened = [
                literal
                for literal in clause
                if literal // 2 not in values or value(values, literal)
            ]
            if len(opened) == 1 and opened[0] // 2 not in values:
                values[opened[0] // 2] = not opened[0] % 2
                grown = True
    return values


def holds(values: dict[int, bool], clauses: list[list[int]]) -> bool:
    return all(
        any(literal // 2 in values and value(values, literal) for literal in clause)
        for clause in clauses
    )


# ---- both


def clauses_of(lines: list[str]) -> list[list[int]]:
    """The clauses among printed lines."""
    return [list(map(int, re.findall(r"\d+", line))) for line in lines if line.startswith("clause")]


def query(
    program: pathlib.Path, text: str, k: int, name: str
) -> tuple[dict[str, list[str]], list[list[int]], list[list[int]]]:
    """The circuit with k further steps, its clauses, and the further ones, as the program prints
    them."""
    (lines,) = answers(program, [f"{name} file {k}"], {"file": text})
    end = lines.index("extra")
    circuit = [line for line in lines[:end] if not line.startswith(("clause", "variable"))][:-1]
    return sections(circuit), clauses_of(lines[:end]), clauses_of(lines[end:])


def leaves(
    machine: Machine, circuit: dict[str, list[str]], steps: list[dict[int, bool]]
) -> dict[int, bool]:
    """The values that a run gives to the leaves of the circuit: at the first step the file's own,
    and then the inputs that were added."""
    values = {latch[0] // 2: steps[0][latch[0]] for latch in machine.latches}
    places = [literal // 2 for literal in machine.inputs] + [
        int(word) for word in circuit["inputs"][len(machine.inputs):]
    ]
    given = [step[literal] for step in steps for literal in machine.inputs]
    return {**values, **dict(zip(places, given, strict=True))}


def agree(
    machine: Machine,
    circuit: dict[str, list[str]],
    steps: list[dict[int, bool]],
    values: dict[int, bool],
) -> bool:
    """Whether all properties of the circuit, and its next edges, have the values of the run."""

    def are(
        edges: Iterable[Any] | list[tuple[int, bool]],
        part: list[dict[int, bool]],
        literals: list[int],
    ) -> bool:
        found = [values[id] != inverted for id, inverted in edges]
        return found == [step[literal] for step in part for literal in literals]

    lists = ("outputs", "bads", "constraints", "fairness")
    justice = sets(circuit["justice"])
    wanted = [(step, one) for step in steps for one in machine.justice]
    latches = [edge(word.split(":")[1]) for word in circuit["latches"]]
    return (
        all(are(map(edge, circuit[name]), steps, getattr(machine, name)) for name in lists)
        and len(justice) == len(wanted)
        and all(are(it, [step], one) for it, (step, one) in zip(justice, wanted))
        and are(latches, steps[-1:], [latch[1] for latch in machine.latches])
    )


def check_runs(
    checks: harness.Checks, program: pathlib.Path, row: tuple[str, int, int, int], name: str
) -> None:
    """Checks that clauses hold on each run of a file as it goes, and how many runs are
    witnesses."""
    text, k, runs, witnesses = row
    machine, what = machine_of(text), f"{name} of {text.splitlines()[0]} with {k} steps"
    machine.inputs.sort()
    circuit, clauses, extra = query(program, text, k, name)
    found = []
    for number in range(runs):
        steps = run_of(machine, k, number)
        values = fixed(clauses, leaves(machine, circuit, steps))
        found.append(is_witness(machine, steps))
        right = (
            holds(values, clauses)
            and agree(machine, circuit, steps, values)
            and holds(values, extra) == found[-1]
        )
        checks.check(right, f"{what}: run {number}")
    checks.wants(what, witnesses, sum(found))


# A counter of two bits, which begins odd, has to count at each step, and is bad where both bits are
# set. It has two exclusive ors, and an inner gate of the first is an operand of the second.
COUNTER = (
    "aag 10 1 2 1 7 1 1\n2\n4 12 1\n6 18 6\n18\n20\n2\n8 4 2\n10 5 3\n12 11 9\n14 8 6\n16 9 7\n18"
    " 17 15\n20 6 4\n"
)
# A bit that takes the value of the second input where the first is set, by a choice, and is bad
# where it is set. While it is set the first input has to be, too. The lines of the inputs stand in
# falling order.
BIT = "aag 6 2 1 1 3 2 1 1 1\n4\n2\n6 13\n12\n6\n0\n11\n2\n6\n13\n3\n8 4 2\n10 6 3\n12 11 9\n"
# A file, the steps, how many runs it has, and how many of these end in a bad state.
RUNS = [
    (COUNTER, 0, 8, 1),
    (COUNTER, 1, 16, 0),
    (COUNTER, 2, 32, 1),
    (BIT, 0, 8, 0),
    (BIT, 1, 32, 2),
    (BIT, 2, 128, 8),
]

# ---- hashing


def random_gates(seed: int, gates: int) -> list[tuple[int, int]]:
    """The literals of random gates over two inputs and over one another."""
    rng = random.Random(seed)
    return [(rng.randrange(2 * size), rng.randrange(2 * size)) for size in range(3, 3 + gates)]


def hashed(
    circuit: list[str | tuple[tuple[int, bool], tuple[int, bool]]]
) -> list[str | tuple[tuple[int, bool], tuple[int, bool]]]:
    """The nodes of a circuit in which each tree stands once, with the lesser operand first."""
    trees, numbers, made = {}, [], []
    for id, node in enumerate(circuit):
        if isinstance(node, tuple):
            node = tuple(sorted((numbers[it], inverted) for it, inverted in node))
        tree = node if isinstance(node, tuple) else (id,)
        if tree not in trees:
            trees[tree] = len(made)
            made.append(node)
        numbers.append(trees[tree])
    return made


def hashes(program: pathlib.Path, seed: int, gates: int) -> bool:
    """Whether hashing a circuit once and twice gives the nodes whose trees differ."""
    steps = [
        "input", "input", *(f"trivial_and {a} {b}" for a, b in random_gates(seed, gates)), "show",
        "strash", "show", "strash", "show",
    ]
    before, once, twice = (
        nodes(sections(it)["nodes"]) for it in answers(program, steps) if len(it) > 1
    )
    return len(before) == 3 + gates and once == twice == hashed(before)


# ---- circuits that are deep

DEEP = 100_000


def refines_deep(program: pathlib.Path) -> bool:
    """Whether a chain of gates, each the and of the one before, inverted, and of the input, is kept
    whole by all that walks it."""
    gates = (f"trivial_and {literal} 2" for literal in [3, *range(5, 2 * DEEP + 2, 2)])
    steps = [
        "input", *gates, f"push outputs {2 * DEEP + 2}", f"fanin_logic_cone {2 * DEEP + 2}",
        "strash", "show", "coi_refine", "show",
    ]
    *_, cone, _, hashed, mapped, refined = answers(program, steps)
    kept = [len(sections(it)["nodes"]) for it in (hashed, refined)]
    return (
        len(cone[0].split()) == DEEP + 1
        and mapped[-1] == f"{DEEP + 2} mapped"
        and kept == [DEEP + 2] * 2
    )


def reads_falling(program: pathlib.Path) -> bool:
    """Whether a text is read in which each gate stands on the next line's."""
    lines = (f"{literal + 2} {literal} {literal}\n" for literal in range(2 * DEEP, 0, -2))
    text = f"aag {DEEP + 1} 1 0 1 {DEEP}\n2\n{2 * DEEP + 2}\n" + "".join(lines)
    _, circuit = answers(program, ["read file 4096 16777216", "show"], {"file": text})
    circuit = sections(circuit)
    return len(circuit["nodes"]) == DEEP + 2 and circuit["outputs"] == [str(DEEP + 1)]


# ---- what is written where there is no room for all of it

# A file that doesn't fit into a buffer: three hundred inputs, the last of which has a long name.
LONG = (
    b"aag 300 300 0 0 0\n"
    + b"".join(b"%d\n" % (2 * i) for i in range(1, 301))
    + b"i299 "
    + b"a" * 5000
    + b"\n"
)
# Two nodes with names: what is printed has 32 bytes.
NAMED = b"aag 2 1 1 0 0\n2\n4 2 4\ni0 x\nl0 s\n"
PIECES = (1, 7, 4096)


def put(program: pathlib.Path, text: bytes, steps: list[str]) -> list[list[str]]:
    """What the program prints for each step on the circuit of a text."""
    return answers(program, ["read file 4096 16777216", *steps], {"file": text.decode()})[1:]


def held(data: bytes) -> str:
    return " ".join(map(str, data))


def leaves_beginnings(program: pathlib.Path) -> bool:
    """Whether a sink without room for all of a file holds the beginning for which it has room, and
    the answer is that it failed."""
    forms = ("put_text", AND), ("put_binary", BINARY_AND)
    cases = [
        (name, data, most, room)
        for name, data in forms
        for most in PIECES
        for room in range(len(data) + 1)
    ]
    found = put(program, AND, [f"{name} {most} {room}" for name, _, most, room in cases])
    return found == [
        ["Stream"] * (room < len(data)) + [held(data[:room])] for _, data, _, room in cases
    ]


def writes_long(program: pathlib.Path) -> bool:
    """Whether more than a buffer is written whole, in pieces of each length."""
    return put(program, LONG, [f"put_text {most} {len(LONG)}" for most in PIECES]) == [
        [held(LONG)]
    ] * len(PIECES)


def displays_whole(program: pathlib.Path) -> bool:
    """Whether a circuit is printed where there is room for all of it, and only there."""
    *cut, whole = put(program, NAMED, [f"display {room}" for room in range(len(NAMED) + 1)])
    return all(line.startswith("refused after ") for (line,) in cut) and whole == [
        '"' + NAMED.decode().replace("\n", "\\n") + '"'
    ]


@pytest.mark.parametrize("name", ["query", "query_raw"])
@pytest.mark.parametrize(
    "row", RUNS, ids=lambda row: f"{row[0].partition(chr(10))[0]} with {row[1]} steps"
)
def test_clauses_hold_on_runs(
    aig_script: pathlib.Path, checks: harness.Checks, row: tuple[str, int, int, int], name: str
) -> None:
    """What the clauses fix is what the lines of the file say, on each run of it."""
    check_runs(checks, aig_script, row, name)


@pytest.mark.parametrize("seed", range(40))
def test_strash(aig_script: pathlib.Path, seed: int) -> None:
    """Hashing a circuit once and twice gives the nodes whose trees differ."""
    assert hashes(aig_script, seed, 14)


@pytest.mark.parametrize(
    "holds", [refines_deep, reads_falling, leaves_beginnings, writes_long, displays_whole]
)
def test_large_circuits_and_little_room(
    aig_script: pathlib.Path, holds: Callable[..., Any]
) -> None:
    """Deep circuits take no deep stack, and what is written where there is little room is a
    beginning."""
    assert holds(aig_script), holds.__doc__
