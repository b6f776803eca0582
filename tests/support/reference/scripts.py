"""Random scripts of calls on circuits in memory, each line with what it has to print."""
from __future__ import annotations

import dataclasses
import itertools
import random
from collections.abc import Callable, Sequence
from typing import TypeVar

from reference import files
from reference.calls import CALLS, Told
from reference.circuit import PROPERTIES, Circuit
from reference.handles import AnyHandle, Handle, Handles, Refused, Running, Stepping
from reference.header import Call, Parameter
from reference.unrolling import REFUSALS

# How often a call is made, where it isn't once.
WEIGHTS = {
    "circuit_from_aiger": 5,
    "circuit_clone": 4,
    "circuit_new_leaf_node": 3,
    "circuit_new_input": 5,
    "circuit_add_input": 2,
    "circuit_new_latch": 4,
    "circuit_add_latch": 3,
    "circuit_set_init": 2,
    "circuit_trivial_new_and_node": 3,
    "circuit_new_and_node": 8,
    "circuit_new_eq_node": 2,
    "circuit_set_node": 2,
    "circuit_push_edge": 6,
    "circuit_set_edges": 2,
    "circuit_push_justice": 2,
    "circuit_set_symbol": 4,
    "circuit_coi_refine": 2,
    "circuit_merge": 2,
    "circuit_aig_move": 2,
    "circuit_gate_init_to_constraint": 2,
    "circuit_unroll": 4,
    "circuit_unroll_to": 2,
    "circuit_cnf": 3,
    "circuit_simulate": 3,
    "circuit_new": 0.5,
    "circuit_free": 0.3,
    "simulation_new": 8,
    "simulation_simulate": 8,
    "simulation_simulate_all": 5,
    "simulation_value": 5,
    "simulation_free": 0.3,
    "unrolling_new": 5,
    "unrolling_add_step": 9,
    "unrolling_step_clauses": 3,
    "unrolling_bads": 2,
    "unrolling_added_inputs": 3,
    "unrolling_check_refuted": 6,
    "unrolling_check_inductive": 8,
    "unrolling_free": 0.3,
}
# Calls that need no circuit.
BEGINNINGS = ["circuit_new", "circuit_from_aiger"]
# Calls that aren't made where a circuit has more nodes than this, and how many steps are added.
MOST_NODES = {"circuit_merge": 150, "circuit_unroll": 150, "circuit_unroll_to": 150}
MOST_NODES |= {"unrolling_new": 40}
MOST_STEPS = 3
# How many variables' values a proof goes through.
MOST_VARIABLES = 5
GREATEST_EDGE, GREATEST_NUMBER = 2**32 - 1, 2**64 - 1
NAMES = [b"", b"a", b"a b", b"i0 x", "é".encode(), b"\0", b"a\nb", b"\xff", b"\xed\xa0\x80"]
# How many entries the list has of which a call is given entry `i`.
PLACES: dict[str, Callable[[Circuit, int], int]] = {
    "circuit_set_next": lambda circuit, _: len(circuit.latches),
    "circuit_set_init": lambda circuit, _: len(circuit.latches),
    "circuit_justice": lambda circuit, _: len(circuit.justice),
    "circuit_set_edge": lambda circuit, number: len(circuit.properties(PROPERTIES[number % 4])),
}
# What a call is given for a parameter.
Word = AnyHandle | int | bytes | list[int]
_Kind = TypeVar("_Kind", Handle, Running, Stepping)


def said(word: Word) -> str:
    """Returns a word as the driver reads it."""
    if isinstance(word, (Handle, Running, Stepping)):
        return str(word.place)
    if isinstance(word, int):
        return str(word)
    return (word.hex() if isinstance(word, bytes) else ",".join(map(str, word))) or "-"


@dataclasses.dataclass
class Line:
    """A line of a script, and what it has to print."""

    text: str
    wanted: str


# What ends a script: all memory is given back.
END = Line("script", "script 0")


class Script:
    """The lines of a script, and what the handles hold after them."""

    def __init__(self, statuses: dict[str, int]) -> None:
        self.statuses = statuses
        self.handles = Handles()
        self.lines: list[Line] = []

    def add(self, call: Call, words: list[Word]) -> Told:
        """Adds a line with a call, and returns what it tells."""
        told: Told = None
        try:
            told = CALLS[call.name](*words)
            answers, status = [] if told is None else [str(told)], "DONE"
        except Refused as refusal:
            answers, status = [*map(str, refusal.told)], refusal.status
        for word in words:
            if isinstance(word, (Handle, Running, Stepping)):
                self.handles.note(word)
        wanted = " ".join([str(self.statuses[status]), *answers, f"#{self.handles.sum():08x}"])
        self.lines.append(Line(" ".join([call.name, *map(said, words)]), wanted))
        return told


class Writer:
    """What writes a script: a source of numbers, the calls, and a source of files."""

    def __init__(
        self,
        rng: random.Random,
        calls: dict[str, Call],
        script: Script,
        new_file: Callable[[random.Random], bytes],
    ) -> None:
        self.rng, self.calls, self.script, self.new_file = rng, calls, script, new_file
        self.handles = script.handles
        # The circuit that the next call is about, also with the steps that were added to it, the
        # numbers that it is given so far, and of how many steps it is.
        self.circuit = self.unrolled = Circuit()
        self.numbers: dict[str, int] = {}
        self.steps = 1

    # ---- what a call is given

    def is_rare(self) -> bool:
        return self.rng.random() < 0.05

    def edge(self) -> int:
        """Returns an edge of the circuit, or now and then one that isn't there."""
        end = 2 * len(self.circuit.nodes)
        if self.is_rare():
            return self.rng.choice([end, end + 1, end + 7, GREATEST_EDGE])
        return self.rng.randrange(end)

    def below(self, end: int) -> int:
        """Returns a place below this end, or now and then one that isn't."""
        if end == 0 or self.is_rare():
            return self.rng.choice([end, end + 1, GREATEST_NUMBER])
        return self.rng.randrange(end)

    def node(self, call: Call) -> int:
        """Returns a node, most often of the kind that the call takes."""
        circuit, found = self.circuit, list[int]()
        if call.name in ("circuit_add_input", "circuit_add_latch"):
            found = [node for node in range(len(circuit.nodes)) if circuit.is_free_leaf(node)]
        elif call.name == "circuit_set_node":
            found = [node for node, gate in enumerate(circuit.nodes) if gate]
        elif call.name == "circuit_get_symbol":
            found = sorted(circuit.names)
        if found and not self.is_rare():
            return self.rng.choice(found)
        return self.below(len(circuit.nodes))

    def number(self, call: Call, parameter: Parameter) -> int:
        rng, name = self.rng, parameter.name
        if parameter.type == "bool":
            return rng.randrange(2)
        if name == "k":
            is_step = call.name.startswith("unrolling")
            return self.below(self.steps - 1) if is_step else rng.randrange(4)
        if name == "list":
            return rng.choice([4, GREATEST_EDGE]) if self.is_rare() else rng.randrange(4)
        if name == "step":
            return self.below(self.steps)
        if name == "steps":
            # So many steps of a circuit without inputs would be made.
            most = GREATEST_NUMBER if self.circuit.inputs else 7
            return rng.choice([0, 7, most]) if self.is_rare() else self.steps
        if name == "limit":
            return rng.choice([0, 1, 2, 5, 8, 12, 2**31 + 1, *[300] * 40])
        if name == "i":
            return self.below(PLACES[call.name](self.circuit, self.numbers.get("list", 0)))
        return self.node(call) if name == "node" else self.edge()

    def values(self, count: int) -> bytes:
        """Returns so many values, or now and then more or fewer, or others."""
        count = max(0, count + self.rng.choice([-1, 1])) if self.is_rare() else count
        values = [0, 1, 2, 3, 255] if self.is_rare() else [0, 1, 2]
        return bytes(self.rng.choices(values, k=count))

    def file(self) -> bytes:
        """Returns a file: a new one, or a form of a circuit that a handle holds."""
        held = self.handles.held()
        try:
            if held and self.rng.random() < 0.3:
                write = self.rng.choice([files.text, files.binary])
                return write(self.rng.choice(held).circuit())
        except files.Refusal:
            pass
        return self.new_file(self.rng)

    def slice(self, name: str) -> bytes | list[int]:
        count = self.rng.choice([0, 1, 1, 2, 2, 3, 5])
        if name == "edges":
            return [self.edge() for _ in range(count)]
        if name == "roots":
            return [self.below(len(self.circuit.nodes)) for _ in range(count)]
        if name == "inputs":
            return self.values(self.steps * len(self.circuit.inputs))
        if name in ("latchs", "state"):
            return self.values(len(self.circuit.latches))
        if name == "proof":
            return self.rng.choice([*REFUSALS, self.proof(), self.proof(), self.proof()])
        return self.file() if name == "file" else self.rng.choice(NAMES)

    def proof(self) -> bytes:
        """Returns a proof that goes through the values of leaves, of which there may be more."""
        nodes = enumerate(self.unrolled.nodes)
        leaves = [node + 1 for node, gate in nodes if node and not gate][:MOST_VARIABLES]
        self.rng.shuffle(leaves)
        lines = [" ".join(str(leaf * sign) for leaf, sign in zip(leaves, signs))
                 for count in range(len(leaves), -1, -1)
                 for signs in itertools.product((1, -1), repeat=count)]
        return "".join(f"{line} 0\n" for line in lines).encode()

    def handle(self, handles: Sequence[_Kind], but: AnyHandle | None = None) -> _Kind:
        """Returns a handle, or another than one: most often one that holds something."""
        others = [handle for handle in handles if handle is not but]
        held = [handle for handle in others if handle.held]
        return self.rng.choice(held if held and not self.is_rare() else others)

    def first(self, call: Call) -> AnyHandle:
        """Returns a call's first handle, and notes the circuit that it is about."""
        self.steps = 1
        if call.parameters[0].role == "simulation":
            running = self.handle(self.handles.simulations)
            self.circuit = running.held.circuit if running.held else Circuit()
            return running
        if call.parameters[0].role == "unrolling":
            stepping = self.handle(self.handles.unrollings)
            self.circuit = self.unrolled = Circuit()
            if stepping.held:
                self.circuit, self.unrolled = stepping.held.circuit, stepping.held.unrolled
                self.steps = len(stepping.held.steps)
            return stepping
        handle = self.handle(self.handles.all)
        self.circuit = handle.held or Circuit()
        return handle

    def second(self, name: str, first: AnyHandle) -> Handle:
        """Returns a call's second handle: for `from` most often one with whose circuit the first
        one's begins."""
        if name == "from" and not self.is_rare():
            for handle in self.handles.held():
                if handle is not first and self.circuit.begins_with(handle.circuit()):
                    return handle
        return self.handle(self.handles.all, first)

    def room(self, call: Call, words: list[Word]) -> int:
        """Returns room for an answer: as much as it takes, a little more, or too little."""
        needed = 0
        try:
            CALLS[call.name](*words, 0)
        except Refused as refusal:
            needed = refusal.told[0] if refusal.told else 0
        return max(0, needed + self.rng.choice([-1, 0, 0, 0, 1, 5, -needed]))

    def word(self, call: Call, parameter: Parameter, first: AnyHandle) -> Word:
        """Returns the word of a parameter but for handles and room that come first and last."""
        if parameter.role == "circuit":
            return self.second(parameter.name, first)
        if parameter.role == "simulation":
            return self.handle(self.handles.simulations, first)
        if parameter.role == "unrolling":
            return self.handle(self.handles.unrollings, first)
        if parameter.role != "number":
            return self.slice(parameter.name)
        number = self.numbers[parameter.name] = self.number(call, parameter)
        return number

    def words(self, call: Call) -> list[Word]:
        """Returns what a call is given."""
        first = self.first(call)
        words: list[Word] = [first]
        self.numbers = {}
        if call.name == "simulation_simulate_all":
            self.steps = self.rng.randrange(4)
        for parameter in call.words()[1:]:
            is_room = parameter.role == "out"
            words.append(self.room(call, words) if is_room else self.word(call, parameter, first))
        return words

    # ---- gates that random ones seldom make

    def gate(self, handle: Handle, left: int, right: int) -> int:
        """Adds a line with a gate, and returns its edge."""
        told = self.script.add(self.calls["circuit_trivial_new_and_node"], [handle, left, right])
        return told if isinstance(told, int) else 0

    def choose(self, handle: Handle, a: int, b: int, c: int) -> None:
        """Adds an output that is a choice by an edge, or an exclusive or, of others."""
        arms = [self.gate(handle, a, b), self.gate(handle, a ^ 1, self.rng.choice([c, b ^ 1]))]
        self.rng.shuffle(arms)
        output = self.gate(handle, arms[0] ^ 1, arms[1] ^ 1)
        self.script.add(self.calls["circuit_push_edge"], [handle, 0, output])

    def repeat(self, handle: Handle, a: int, b: int, c: int) -> None:
        """Adds gates whose trees are equal up to exchange, by operands that change their order."""
        first, between, second = (self.gate(handle, *it) for it in ((a, b), (b, c), (b, a)))
        self.gate(handle, self.gate(handle, first, between), self.gate(handle, second, between))

    def add_gates(self) -> None:
        """Adds lines that make such gates on a circuit."""
        held = self.handles.held()
        if held:
            handle = self.rng.choice(held)
            a, b, c = self.rng.choices(range(2 * len(handle.circuit().nodes)), k=3)
            self.rng.choice([self.choose, self.repeat])(handle, a, b, c)

    # ---- lines

    def is_small(self, call: Call) -> bool:
        """Returns whether nothing is too large for a call."""
        sizes = [len(handle.circuit().nodes) for handle in self.handles.held()]
        steps = [len(it.held.steps) for it in self.handles.unrollings if it.held]
        if call.name == "unrolling_add_step":
            return max(steps, default=0) <= MOST_STEPS
        return max(sizes, default=0) <= MOST_NODES.get(call.name, max(sizes, default=0))

    def is_wanted(self, call: Call) -> bool:
        """Returns whether there is something to make a call on, which isn't too large for it."""
        held = {
            "circuit": len(self.handles.held()),
            "simulation": sum(bool(handle.held) for handle in self.handles.simulations),
            "unrolling": sum(bool(handle.held) for handle in self.handles.unrollings),
        }
        role = call.parameters[0].role
        least = sum(it.role == role and it.name != "to" for it in call.parameters)
        is_made = held[role] >= least
        return call.name in BEGINNINGS or ((is_made or self.is_rare()) and self.is_small(call))

    def fill(self, count: int) -> Script:
        """Adds so many lines, or a few more."""
        weights = [WEIGHTS.get(name, 1) for name in self.calls]
        while len(self.script.lines) < count:
            call = self.rng.choices([*self.calls.values()], weights)[0]
            if self.is_rare():
                self.add_gates()
            elif self.is_wanted(call):
                self.script.add(call, self.words(call))
        return self.script
