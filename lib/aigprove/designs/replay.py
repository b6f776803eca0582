"""Simulates a trace in yosys, and finds out which signals of the design the failing assertion
reads."""
from __future__ import annotations

import collections
import re
from collections.abc import Container, Iterable, Iterator, Mapping, Sequence
from typing import TYPE_CHECKING, NamedTuple

from aigprove.circuits import simulation
from aigprove.circuits.aiger import Circuit, Fault
from aigprove.circuits.simulation import SIMULATED
from aigprove.circuits.witness import Witness
from aigprove.designs.netlist import STORED, Bit, Json
from aigprove.output.signals import number, word

if TYPE_CHECKING:
    from aigprove.designs.verilog import Design

# The time units of a step in yosys's dumps.
STEP = 10
# The greatest number of signals that are reported for an assertion.
MOST = 40
BIT = re.compile(r"(.+)\[([0-9]+)\]")
CLOCKED = re.compile(r"\$[a-z]*ff|\$_[A-Z]*FF")


class Read(NamedTuple):
    """A signal that an assertion reads.

    `back` is how many steps earlier, and `is_direct` whether no other named signal is between."""

    name: str
    back: int
    is_direct: bool


def values_of(text: str, wanted: Container[str]) -> list[dict[str, str]]:
    """Returns the values of the `wanted` signals in each step, highest bit first. `text` is a value
    change dump written by yosys."""
    scopes: list[str] = []
    codes = collections.defaultdict[str, list[str]](list)
    now: dict[str, str] = {}
    steps: list[dict[str, str]] = []
    time: int | None = None
    for words in map(str.split, text.splitlines()):
        if words[:1] == ["$scope"]:
            scopes.append(words[2])
        elif words[:1] == ["$upscope"]:
            scopes.pop()
        elif words[:1] == ["$var"]:
            name = ".".join([*scopes[1:], " ".join(words[4:-1])])
            if name in wanted:
                codes[words[3]].append(name)
        elif words and words[0][0] == "#":
            if time is not None and time % STEP == 0:
                steps.append(dict(now))
            time = int(words[0][1:])
        elif len(words) == 2 and words[0][0] == "b":
            now.update(dict.fromkeys(codes.get(words[1], []), words[0][1:]))
    return steps


def marked(text: str, sampled: int, last: int) -> str:
    """Returns a value change dump up to the step `last`, with a signal that is 1 in the step
    `sampled`."""
    head, begins, body = text.partition("$enddefinitions")
    for t, value in {0: 0, sampled + 1: 0, sampled: 1}.items():
        if t <= last:
            body = re.sub(f"^#{STEP * t}$", f"#{STEP * t}\nb{value} sampled", body, 1, re.MULTILINE)
    scope = "$scope module run $end\n$var wire 1 sampled sampled $end\n$upscope $end\n"
    return head + scope + begins + body


class Module:
    """A flat module that yosys wrote as JSON, with the name and the driving cell of each bit."""

    def __init__(self, module: Json) -> None:
        self.module = module
        self.names: dict[Bit, str] = {}
        self.makers: dict[Bit, Json] = {}
        nets = {name: net for name, net in module["netnames"].items() if not net["hide_name"]}
        # Of several names, the one of the outermost module counts, and of those the shortest.
        for name in sorted(nets, key=lambda it: (-it.count("."), -len(it), it)):
            self.names.update(dict.fromkeys(nets[name]["bits"], name))
        for cell in module["cells"].values():
            for port, bits in cell["connections"].items():
                if cell["port_directions"].get(port) == "output":
                    self.makers.update(dict.fromkeys(bits, cell))

    def place(self, name: str, index: int) -> int:
        """Returns the position of the bit with this index in a signal, from the lowest on."""
        net = self.module["netnames"][name]
        return -1 if net.get("upto") else index - int(net.get("offset", 0))

    def width(self, name: str) -> int:
        """Returns the number of bits of a signal."""
        return len(self.module["netnames"][name]["bits"])

    def read_by(self, name: str) -> list[Read]:
        """Returns the signals that an assertion reads, up to registers and inputs, the nearest
        first.

        Yosys adds unnamed registers to an assertion at a clock edge, which sample the values of the
        step before. With several clocks each register has further ones for its last value; each is
        passed only once, as they form cycles."""
        cell = self.module["cells"].get(name)
        ports = cell["connections"] if cell else {}
        left = collections.deque((bit, 0, True) for port in ("A", "EN")
                                 for bit in ports.get(port, []) if not isinstance(bit, str))
        seen, passed = set(left), set[tuple[Bit, bool]]()
        found: dict[tuple[str, int], Read] = {}
        while left and len(found) < MOST:
            bit, back, is_direct = left.popleft()
            own, maker = self.names.get(bit), self.makers.get(bit)
            if own:
                found.setdefault((own, back), Read(own, back, is_direct))
            is_clocked = maker is not None and bool(CLOCKED.match(maker["type"]))
            if maker is None or is_clocked and (own or (bit, is_direct) in passed):
                continue
            passed.update([(bit, is_direct)] * is_clocked)
            for port, bits in maker["connections"].items():
                if maker["port_directions"].get(port) != "output" and port != "CLK":
                    for it in ((bit, back + is_clocked, is_direct and not own)
                               for bit in bits if not isinstance(bit, str)):
                        if it not in seen:
                            seen.add(it)
                            left.append(it)
        return list(found.values())


def read_as(name: str) -> str:
    """Returns the name by which the design reads a signal, also if the signal is the stored value
    of a register."""
    return BIT.sub(r"\1", name).removesuffix(STORED) if STORED in name else name


class Replay:
    """A simulation of a trace in yosys. Raises Fault if the trace is too long, or yosys fails."""

    def __init__(self, design: Design, circuit: Circuit, trace: Witness) -> None:
        if len(trace.steps) * len(circuit.gates) > SIMULATED:
            raise Fault.of("long_run", steps=len(trace.steps))
        failed, dump = design.run(trace)
        self.module, self.trace = design.module, trace
        name, last = design.assertions[trace.bad][0], len(trace.steps) - 1
        reads = self.module.read_by(name)
        held = {f"l{i}": circuit.name("l", i).decode("utf-8", "replace")
                for i in range(len(circuit.latches))}
        bits = {place: BIT.fullmatch(name) for place, name in held.items()}
        words = {place: found[1] if found else held[place] for place, found in bits.items()}
        inputs = {BIT.sub(r"\1", circuit.name("i", i).decode("utf-8", "replace"))
                  for i in range(len(circuit.inputs))}
        # The stored value of a register is the value of another signal in the step before.
        names = list(dict.fromkeys(it.name for it in reads))
        seen = [name for name in names
                if name not in inputs and read_as(name) not in set(names) - {name}]
        self.values = values_of(dump, {*names, *words.values()})
        # An assertion at a clock edge is about the step that the edge ends.
        is_at_edge = any(it.back for it in reads if it.is_direct)
        self.dump = marked(dump, last - is_at_edge, last)
        self.latches = {int(place[1:]) for place, name in words.items() if name in names}
        at_first = {words[f"l{i}"] for i in self.latches}
        self.changes = {t: self.changed(t, seen, at_first) for t in range(last + 1)}
        self.direct = [it for it in reads if it.is_direct and it.name not in inputs]
        self.trouble = self.differing(circuit, held, words) or self.other(design, failed,
                                                                          f"{design.top}.{name} (")

    def shown(self, name: str, t: int) -> str:
        """Returns the printed form of a signal's value in step `t`."""
        bits = self.values[t][name] if t < len(self.values) else "x"
        return f"{word(name)}={number(list(reversed(bits.rjust(self.module.width(name), '0'))))}"

    def changed(self, t: int, names: Iterable[str], at_first: Container[str]) -> list[str]:
        """Returns the signals whose values differ from the step before; in step 0 those that aren't
        in `at_first`."""
        return [self.shown(name, t) for name in names
                if (self.shown(name, t) != self.shown(name, t - 1) if t else name not in at_first)]

    def read(self, last: int) -> Iterator[str]:
        """Yields a line for each step in which the assertion read signals, with their values. The
        assertion fails in the step `last`."""
        for back in sorted({it.back for it in self.direct}):
            values = [self.shown(it.name, last - back)
                      for it in self.direct if it.back == back and back <= last]
            if values:
                yield f"in step {last - back} it reads {' '.join(values)}"

    def other(self, design: Design, failed: Sequence[str], name: str) -> str | None:
        """Returns which other assertions fail in yosys, or None if the expected one fails. `name`
        is how its line begins."""
        if any(it.startswith(name) for it in failed):
            return None
        return f"{design.yosys.readable(' and '.join(failed)) or 'none'} fails"

    def differing(self, circuit: Circuit,
                  held: Mapping[str, str], words: Mapping[str, str]) -> str | None:
        """Returns a description of a register whose value in yosys differs from that in the file,
        or None."""
        run = self.trace.filled()
        for t, values in enumerate(simulation.run(circuit, run.start, run.steps)):
            for i, latch in enumerate(circuit.latches):
                name, found = words[f"l{i}"], BIT.fullmatch(held[f"l{i}"])
                if t < len(self.values) and name in self.values[t]:
                    own = self.values[t][name].rjust(self.module.width(name), "0")
                    is_bit = found and found[1] == name
                    place = self.module.place(name, int(found[2])) if found and is_bit else 0
                    if 0 <= place < len(own) and own[-1 - place] not in ("x", values[latch]):
                        found_value = own[-1 - place]
                        return f"{held[f'l{i}']} is {found_value} in step {t}, " \
                            f"and {values[latch]} by the file"
        return None
