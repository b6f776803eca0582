"""Translates between a file and ABC: the model that every model checker reads, counterexamples
(write_cex), and invariants in PLA format.

In that model all latches are 0 initially, its outputs are true in bad states, and there are no
constraints. A latch that is 1 initially is inverted. An uninitialised latch has the value of an
input at step 0, while the latch `began` is 0. The latch `broken` is 1 once a constraint was
violated. A model without latches gets an unused one. The names of inputs and latches are their
places in the file (i0, l0), and the input for an uninitialised latch l0 is r0."""
import re
from collections.abc import Mapping, Sequence

from aigprove.circuits.aiger import Circuit, Fault, binary, decoded, text_form
from aigprove.circuits.gates import Gates, literals_of

# A value in ABC's counterexample: the name of an input or latch, the step and the value. OWN are
# ABC's own names.
NAMED = re.compile(r"(.+)@([0-9]{1,9})=([01])", re.DOTALL)
OWN = re.compile("pi[0-9]{1,9}")
LENGTH = re.compile("^# COUNTEREXAMPLE LENGTH: ([0-9]{1,9})$", re.MULTILINE)
# The greatest number of steps of a counterexample.
LONGEST = 1 << 20
# The output that a counterexample is about; and a line of an invariant.
FOUND = re.compile(r"^# CEX for output ([0-9]{1,9})$", re.MULTILINE)
PLA = re.compile(r"^\.ilb ", re.MULTILINE)
# The additional latches of a normalised model, and their values from step 1 on in a run that meets
# the constraints.
BEGAN, BROKEN, SPARE = "began", "broken", "spare"
FIXED = {BEGAN: "1", BROKEN: "0", SPARE: "0"}


class Named:
    """The values that ABC's command `write_cex -n` writes, by step and name, and the number of
    steps."""

    def __init__(self, text: str) -> None:
        self.values: dict[tuple[int, str], str] = {}
        for line in text.split("\n"):
            if named := NAMED.fullmatch(line):
                self.values[int(named[2]), named[1]] = named[3]
        said = LENGTH.search(text)
        last = max((t for t, _ in self.values), default=-1)
        self.length = int(said[1]) if said else 1 + last

    def rows(self, names: Sequence[str]) -> list[str]:
        """Returns a value for each of these names in each step; 0 for a missing one. Raises Fault
        if there are too many steps."""
        # A complete counterexample has a line for each name and step.
        if self.length > LONGEST or self.length * len(names) > 2 * len(self.values):
            raise Fault.of("long_counterexample")
        return ["".join(self.values.get((t, name), "0") for name in names)
                for t in range(self.length)]


def parted(found: str) -> list[tuple[int, str]]:
    """Returns the output and the text of each counterexample. If there is only one, it may be
    without an output, and the output is 0."""
    first, *others = FOUND.split(found)
    if not others:
        return [(0, first)] if "@0=" in first else []
    return [(int(place), text) for place, text in zip(others[::2], others[1::2])]


def of_abc(text: str, circuit: Circuit) -> tuple[str, list[str]] | None:
    """Returns the initial state and the inputs of each step in a counterexample of ABC, in either
    of its formats; None if it has none.

    Values behind the file's inputs are those of uninitialised latches, as ABC's `undc` creates
    them."""
    if "@0=" in text:
        rows = named_rows(text, circuit)
    else:
        # That is the format of `write_cex -a`, whose first line is the state.
        lines = text.replace("# DONE", "").split("\n")[1:]
        rows = [line for line in lines if re.fullmatch("[01]+", line)]
    count = len(circuit.inputs)
    if not rows or any(len(row) < count for row in rows):
        return None
    start = ["1" if reset == 1 else "0" for reset in circuit.resets]
    for i, given in zip(circuit.uninitialised(), rows[0][count:]):
        start[i] = given
    return "".join(start), [row[:count] for row in rows]


def named_rows(text: str, circuit: Circuit) -> list[str]:
    """Returns the inputs of each step in a counterexample of `write_cex -n`.

    Inputs have their own names or those of ABC (pi0, pi1). At step 0, inputs that ABC added follow
    the others."""
    named = Named(text)
    numbered = {int(name[2:]): name for t, name in named.values if t == 0 and OWN.fullmatch(name)}
    names = [circuit.name("i", i).decode("utf-8", "replace") for i in range(len(circuit.inputs))]
    rows = named.rows([name if (0, name) in named.values else numbered.get(i, name)
                       for i, name in enumerate(names)])
    others = "".join(named.values[0, numbered[i]] for i in sorted(numbered) if i >= len(names))
    return [rows[0] + others, *rows[1:]] if rows else []


def excluded_by(pla: str, places: Mapping[str, int]) -> list[list[int]] | None:
    """Returns the cubes of an invariant in PLA format, as lists of literals.

    `places` has the literal of each latch's name. Additional latches have their fixed values.
    Returns None if the format is another one, or a name isn't known."""
    names, excluded = None, []
    for words in filter(None, map(str.split, pla.splitlines())):
        if words[0] == ".ilb":
            # A name may have spaces.
            names = list(places) if words[1:] == " ".join(places).split() else words[1:]
        elif words[0][0] in "01-":
            if names is None or len(words[0]) != len(names):
                return None
            cube = [(name, bit) for name, bit in zip(names, words[0]) if bit != "-"]
            if all(FIXED.get(name, bit) == bit for name, bit in cube):
                excluded.append([(name, bit) for name, bit in cube if name not in FIXED])
    if names is None or any(name not in places for cube in excluded for name, _ in cube):
        return None
    return [[places[name] ^ (bit == "1") for name, bit in cube] for cube in excluded]


class NormalisedModel:
    """The normalised model of a circuit.

    It has one output for all bad state properties or, if `is_apart`, one for each."""

    def __init__(self, circuit: Circuit, is_apart: bool = False) -> None:
        self.circuit = circuit
        self.uninitialised = circuit.uninitialised()
        count = len(circuit.inputs)
        self.inputs = [f"i{i}" for i in range(count)] + [f"r{i}" for i in self.uninitialised]
        self.latches = [f"l{i}" for i in range(len(circuit.latches))]
        self.latches += [BEGAN] * bool(self.uninitialised) + [BROKEN] * bool(circuit.constraints)
        self.latches = self.latches or [SPARE]
        first = 2 * (len(self.inputs) + 1)
        self.places = {name: first + 2 * i for i, name in enumerate(self.latches)}
        self.gates = Gates(first + 2 * len(self.latches))
        literal = literals_of(circuit, self.gates, self.leaves())
        allowed = self.gates.all(map(literal, circuit.constraints))
        broken = self.places.get(BROKEN, 0)
        bads = list(map(literal, circuit.bads))
        self.bads = [self.gates.all([bad, allowed, broken ^ 1])
                     for bad in (bads if is_apart else [self.gates.any(bads)])]
        self.nexts = [literal(next) ^ (reset == 1)
                      for next, reset in zip(circuit.nexts, circuit.resets)]
        self.nexts += [1] * bool(self.uninitialised)
        self.nexts += [self.gates.both(broken ^ 1, allowed) ^ 1] * bool(circuit.constraints)
        self.nexts = self.nexts or [0]

    def leaves(self) -> dict[int, int]:
        """Returns the literals of the circuit's inputs and latches in the model."""
        leaves = {literal: 2 * (i + 1) for i, literal in enumerate(self.circuit.inputs)}
        free = {i: 2 * (len(self.circuit.inputs) + 1 + n) for n, i in enumerate(self.uninitialised)}
        for i, (literal, reset) in enumerate(zip(self.circuit.latches, self.circuit.resets)):
            place = self.places[f"l{i}"]
            leaves[literal] = place ^ (reset == 1)
            if i in free:
                leaves[literal] = self.gates.choice(self.places[BEGAN], place, free[i])
        return leaves

    def binary(self) -> bytes:
        """Returns the model in binary format."""
        lists = [("i", self.inputs), ("l", self.latches)]
        names = [f"{letter}{i} {name}\n" for letter, own in lists for i, name in enumerate(own)]
        return binary(len(self.inputs), self.nexts, self.bads, self.gates) + "".join(names).encode()

    def run(self, text: str) -> tuple[str, list[str]]:
        """Returns the initial state and the inputs of each step of the circuit, given a
        counterexample of the model. Raises Fault if it is too long."""
        named = Named(text)
        resets = enumerate(self.circuit.resets)
        start = "".join(str(reset) if reset < 2 else named.values.get((0, f"r{i}"), "0")
                        for i, reset in resets)
        return start, named.rows(self.inputs[: len(self.circuit.inputs)])

    def of_abc(self) -> list[str]:
        """Returns the names that ABC gives to the latches of the circuit's own file."""
        width = len(str(max(len(self.circuit.latches) - 1, 0)))
        named = (self.circuit.names.get(("l", i)) for i in range(len(self.circuit.latches)))
        return [decoded(name) if name else f"lo{i:0{width}}" for i, name in enumerate(named)]

    def certificate(self, pla: str, names: Sequence[str] | None = None) -> bytes | None:
        """Returns the certificate of an invariant of the model, or None if it isn't one.

        It has the circuit's inputs and latches, and one bad state property: the states that the
        invariant excludes. If latches are uninitialised, initial states aren't excluded. `names`
        are the latches' names in the invariant, if they aren't the model's."""
        inputs, resets = len(self.circuit.inputs), self.circuit.resets
        latches = range(2 * (inputs + 1), 2 * (inputs + len(resets) + 1), 2)
        gates = Gates(latches.stop)
        sides = [latch ^ (reset != 1) for latch, reset in zip(latches, resets)]
        excluded = excluded_by(pla, dict(zip(names or self.latches, sides)))
        if excluded is None:
            return None
        bad = gates.any(map(gates.all, excluded))
        if self.uninitialised:
            bad = gates.both(bad, gates.all(
                latch ^ (reset == 0) for latch, reset in zip(latches, resets) if reset < 2) ^ 1)
        states = [(latch, latch, reset if reset < 2 else latch)
                  for latch, reset in zip(latches, resets)]
        counts = [gates.next // 2 - 1, inputs, len(latches), 0, len(gates.rows), 1]
        return text_form(counts, [*range(2, latches.start, 2), *states, bad, *gates.rows])
