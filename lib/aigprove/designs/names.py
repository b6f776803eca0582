"""Finds out what undeclared names of a design mean.

Yosys treats each undeclared name as a one-bit net. So a design is first read with options that make
yosys refuse undeclared names. If it has some, it is read again, with its syntax trees. A path to a
signal in an instance is then declared as a net of the same range and sign, which yosys connects
with that signal. An implicit net of Verilog is declared as a one-bit net. Any other name is
refused. Finally the design is read with these declarations, and yosys again refuses what isn't
declared."""
from __future__ import annotations

import collections
import re
from collections.abc import Iterator, Mapping, Sequence
from typing import NamedTuple

from aigprove.circuits.aiger import Fault, encoded
from aigprove.data import message
from aigprove.designs.front_ends import DECLARED, DECLARED_LATER
from aigprove.designs.modules import (INTERFACE, JOINED, check_names, dots_in, source_of,
                                      width_of)
from aigprove.designs.rtlil import Statement, modules_of
from aigprove.designs.texts import Text
from aigprove.designs.yosys import REFUSED, WARNED, Yosys

# A node of a syntax tree, as yosys prints it.
NODE = re.compile(r"^( *)AST_(\w+) <(.*):(\d+)\.\d+-\d+\.\d+> \[0x[0-9a-f]+\]"
                  r"(?: str='(\S*?)'(?= |$))?(?: bits='([01xz]*)')?", re.MULTILINE)
GENERATED = {"GENBLOCK", "GENFOR", "GENIF", "GENCASE"}
# LINE takes the line from a source location. UNKNOWN is the attribute of a net that stands for no
# signal. MADE are the attributes of the nets declared here. OUTPUTS are the output ports of yosys's
# own cells.
LINE = re.compile(r"(.*:[0-9]+)\..*")
UNKNOWN = "aigprove_unknown"
MADE = {JOINED, f"\\{UNKNOWN}"}
OUTPUTS = {f"\\{port}" for port in ["Y", "Q", "X", "CO", "LO", "O", "DATA", "RD_DATA"]}
INDEX = re.compile(r"(.*)\[[0-9]+\]")
# The attributes of a net that may get lost when yosys connects the net with another one.
HARMLESS = re.compile(r"\\(src|wiretype|enum_\w+|hdlname|hierconn|aigprove_unknown)")


class Shape(NamedTuple):
    """The range and the sign of a signal, as its declaration gives them."""

    width: int
    offset: int
    is_upto: bool
    is_signed: bool

    @classmethod
    def of(cls, wire: Statement) -> Shape:
        """Returns the shape of a wire."""
        words = wire.words()[:-1]
        offset = int(words[words.index("offset") + 1]) if "offset" in words else 0
        return cls(width_of(wire), offset, "upto" in words, "signed" in words)

    def __str__(self) -> str:
        """Returns the range and the sign as Verilog writes them in a declaration."""
        ends = [self.offset + self.width - 1, self.offset]
        left, right = reversed(ends) if self.is_upto else ends
        return f"{'signed ' * self.is_signed}[{left}:{right}] "


class Net(NamedTuple):
    """A net of a module: its name, shape, direction, source location and attributes."""

    name: str
    shape: Shape
    is_input: bool
    place: str
    attributes: frozenset[str]

    @classmethod
    def of(cls, wire: Statement) -> Net:
        """Returns the net that a wire statement declares."""
        place = LINE.fullmatch(wire.source)
        return cls(wire.name, Shape.of(wire), "input" in wire.words()[:-1],
                   place[1] if place else "", frozenset(wire.attributes))


class Node(NamedTuple):
    """A node of a syntax tree, with its children."""

    depth: int
    kind: str
    name: str
    bits: str
    place: str
    line: int
    children: list[Node]


class Use(NamedTuple):
    """A use of a name: its source location, and whether it may declare an implicit net, and is in a
    generate block."""

    place: str
    is_declaring: bool
    is_local: bool


class Module:
    """The nets, cells, memories and parameters of a module that have a name in the design."""

    def __init__(self, module: Statement) -> None:
        self.module = module
        named = [it for it in module.of("wire", "cell", "memory", "parameter")
                 if it.name.startswith("\\")]
        self.nets = {it.name: Net.of(it) for it in named if it.kind == "wire"}
        self.cells = {it.name: it.type for it in named if it.kind == "cell"}
        self.others = {it.name: it.kind for it in named if it.kind in ("memory", "parameter")}

    def is_used(self, name: str) -> bool:
        """Returns whether a net is named anywhere else than in its declaration."""
        return sum(it.words().count(name) for it in self.module.all()) > 1

    def drop(self, name: str) -> None:
        """Removes a net."""
        self.module.body = [it for it in self.module.body if it.kind != "wire" or it.name != name]

    def is_output(self, port: str) -> bool:
        """Returns whether the module may drive a port: whether the port isn't an input."""
        net = self.nets.get(port)
        return net is None or not net.is_input

    def driven(self, modules: Mapping[str, Module]) -> set[str]:
        """Returns the names of the nets that the module drives. `modules` are all modules by their
        names."""
        assigned = [own for it in self.module.of("process") for own in it.all()
                    if own.kind in ("assign", "update", "memwr")]
        signals = [it.signals()[0] for it in [*self.module.of("connect"), *assigned]]
        for cell in self.module.of("cell"):
            own = modules.get(cell.type)
            ports = [(port[0].name, signal) for port, signal in
                     (it.signals() for it in cell.of("connect"))]
            signals += [signal for port, signal in ports
                        if (own.is_output(port) if own else port in OUTPUTS)]
        return {part.name for signal in signals for part in signal}


def warned(said: str) -> set[tuple[str, str]]:
    """Returns the source locations and names of the implicit nets that yosys reports."""
    return set(WARNED.findall(said))


def nodes(said: str) -> Iterator[tuple[Node, list[Node]]]:
    """Yields each node of the syntax trees that yosys printed, with the list of its ancestors."""
    above: list[Node] = []
    for depth, kind, path, line, name, bits in NODE.findall(said):
        while above and above[-1].depth >= len(depth):
            above.pop()
        node = Node(len(depth), kind, name, bits, f"{path}:{line}", int(line), [])
        if above:
            above[-1].children.append(node)
        above.append(node)
        yield node, above[:-1]


def use_of(node: Node, above: list[Node]) -> Use:
    """Returns the use of a name that an identifier's node stands for.

    A name may declare an implicit net as a port connection of an instance or a gate, and on the
    left side of a continuous assignment."""
    kinds = [it.kind for it in above]
    inner = kinds[len(kinds) - kinds[::-1].index("ASSIGN"):] if "ASSIGN" in kinds else None
    is_left = inner is not None and set(inner) <= {"CONCAT"} \
        and is_first([*above, node], len(above) - len(inner) - 1)
    is_port = any(pair in zip(kinds, kinds[1:])
                  for pair in [("CELL", "ARGUMENT"), ("PRIMITIVE", "ARGUMENT")])
    return Use(node.place, is_left or is_port and node.line > 0, bool(GENERATED & set(kinds)))


def is_first(path: Sequence[Node], place: int) -> bool:
    """Returns whether a path of nodes continues, behind the node at `place`, with that node's first
    child."""
    return path[place].children[0] is path[place + 1]


class Trees:
    """The uses of names in the syntax trees of all modules, as yosys prints them before it changes
    them."""

    def __init__(self, said: str) -> None:
        # By module and name: the uses of the name, in order. Then pairs of a module and a name:
        # names with an index or a range behind them, and arrays of instances whose last index isn't
        # 0.
        self.uses, self.selected, self.arrays = collections.defaultdict(list), set(), set()
        for node, above in nodes(said):
            module = next((it.name[1:] for it in above if it.kind == "MODULE"), None)
            if node.kind == "IDENTIFIER":
                self.uses[module, node.name].append(use_of(node, above))
            if node.kind == "RANGE" and above[-1].kind == "IDENTIFIER":
                self.selected.add((module, above[-1].name))
            is_array = node.kind == "CELL" and above[-1].kind == "CELLARRAY"
            if is_array and not ends_with_0(above[-1].children[0]):
                self.arrays.add((module, node.name[1:]))

    def check_net(self, module: str, name: str) -> None:
        """Raises Fault if an undeclared name isn't an implicit net of Verilog.

        Its first use in the module has to be one that declares a net, outside of generate
        blocks."""
        uses = self.uses[module, name]
        if not any(use.is_declaring for use in uses):
            raise Fault.of("unknown_name")
        if (module, name) in self.selected:
            raise Fault.of("implicit_range")
        if not uses[0].is_declaring:
            raise Fault.of("used_before")
        if uses[0].is_local:
            raise Fault.of("implicit_in_block")


def ends_with_0(bounds: Node) -> bool:
    """Returns whether the last bound of an array's range is the constant 0."""
    last = bounds.children[-1]
    return len(bounds.children) == 2 and last.kind == "CONSTANT" and not last.bits.strip("0")


class Hierarchy:
    """Looks up names in the modules of a design.

    `places` are the source locations and names of the nets that yosys declared implicitly."""

    def __init__(self, design: Statement, trees: Trees, places: set[tuple[str, str]]) -> None:
        self.modules = {name: Module(own) for name, own in modules_of(design).items()}
        self.trees, self.places = trees, places

    def found(self, kind: str, path: str) -> Iterator[tuple[str, str]]:
        """Yields the signals that a path from the module `kind` down may mean, as pairs of a module
        and a name in it."""
        module = self.modules.get(kind)
        if module is None:
            return
        name = f"\\{path}"
        if name in module.others or self.is_declared(module.nets.get(name)):
            yield kind, name
        for end in dots_in(path):
            if cell := module.cells.get(f"\\{path[:end]}"):
                self.check_array(kind, path[:end])
                yield from self.found(cell, path[end + 1:])

    def is_declared(self, net: Net | None) -> bool:
        """Returns whether the design itself declares a net, as opposed to yosys or this module."""
        is_path = net is not None and "." in net.name and (net.place, net.name) in self.places
        return net is not None and not is_path and not MADE & net.attributes

    def implicit(self, kind: str) -> list[Net]:
        """Returns the nets of a module that yosys declared implicitly."""
        return [net
                for net in self.modules[kind].nets.values() if (net.place, net.name) in self.places]

    def is_of_interface(self, kind: str, net: Net) -> bool:
        """Returns whether a net belongs to an interface, which yosys declares once it knows the
        interface."""
        module, first = self.modules[kind], net.name.partition(".")[0]
        inner = self.modules.get(module.cells.get(first, ""))
        return (first in module.nets and INTERFACE in module.nets[first].attributes
                or inner is not None and INTERFACE in inner.module.attributes)

    def check_array(self, kind: str, cell: str) -> None:
        """Raises Fault if an instance belongs to an array whose indices yosys doesn't keep."""
        last = cell.rpartition(".")[2]
        found = INDEX.fullmatch(last)
        if found and (source_of(kind), found[1]) in self.trees.arrays:
            raise Fault.of("array", cell=cell)

    def signal(self, kind: str, path: str) -> Shape:
        """Returns the shape of the net that a path from the module `kind` down means.

        Raises Fault if there is no such net, or more than one, or if it can't be read by its
        path."""
        found = list(self.found(kind, path))
        if not found:
            raise Fault.of("not_found", rule=message("below"))
        if len(found) > 1:
            raise Fault.of("several_signals", count=len(found))
        (owner, name), = found
        module = self.modules[owner]
        if name in module.others:
            raise Fault.of("not_net", kind=module.others[name], module=source_of(owner))
        net = module.nets[name]
        if lost := sorted(it for it in net.attributes if not HARMLESS.fullmatch(it)):
            raise Fault.of("attribute", name=lost[0][1:])
        return net.shape


class Names:
    """The declarations of all undeclared names of a design, by module and name.

    Raises Fault if the meaning of a name isn't clear."""

    def __init__(self, yosys: Yosys, texts: Mapping[str, bytes], said: str) -> None:
        self.yosys, self.texts = yosys, {path: Text(text) for path, text in texts.items()}
        self.places, self.trees = warned(said), Trees(said)
        self.declared = collections.defaultdict[str, dict[str, str]](dict)
        self.known: dict[tuple[str, str], Net] = {}
        self.forbidding = {name for text in self.texts.values()
                           for name, *_, is_allowed in text.spans() if not is_allowed}
        self.design = yosys.design("below.il")
        below, every = (Hierarchy(design, self.trees, self.places)
                        for design in [self.design, yosys.design("all.il")])
        for kind, net in ((kind, net) for kind in below.modules for net in below.implicit(kind)):
            self.declare(below, kind, net)
        # The design also has modules that it doesn't use, or doesn't use in this way: a name in
        # these stands for no signal.
        others = [(kind, net) for kind in every.modules
                  for net in every.implicit(kind) if (source_of(kind), net.name) not in self.known]
        of_interfaces = {(kind, net) for kind, net in others if every.is_of_interface(kind, net)}
        for kind, net in others:
            if (kind, net) not in of_interfaces:
                self.declared[source_of(kind)][net.name] = f"(* {UNKNOWN} *) wire "
        # Yosys first treats the nets of interfaces as undeclared names.
        self.way = DECLARED_LATER if of_interfaces else DECLARED

    def fault(self, net: Net, why: object) -> Fault:
        """Returns the exception that says that a name isn't declared or, for a path, can't be
        read."""
        kind = "not_read" if "." in net.name else "not_declared"
        line = message(kind, place=net.place, name=net.name[1:], why=why)
        return Fault(self.yosys.readable(line))

    def declare(self, hierarchy: Hierarchy, kind: str, net: Net) -> None:
        """Declares an undeclared net of a module. Raises Fault if its meaning isn't clear."""
        base, name = source_of(kind), net.name[1:]
        self.known[base, net.name] = net
        if "." not in name:
            self.check_net(base, net)
            self.declared[base][net.name] = "wire "
            return
        # A path may begin with the name of the module that contains it.
        is_own = name.startswith(f"{base}.") and not list(hierarchy.found(kind, name))
        own = name.partition(".")[2] if is_own else name
        try:
            line = f"(* hierconn *) wire {hierarchy.signal(kind, own)}"
        except Fault as why:
            raise self.fault(net, why) from None
        if self.declared[base].setdefault(f"\\{own}", line) != line:
            raise self.fault(net, message("different_shapes", module=base))
        self.known[base, f"\\{own}"] = net

    def check_net(self, base: str, net: Net) -> None:
        """Raises Fault if a name without dots isn't an implicit net of Verilog."""
        if net.name.startswith("\\$"):
            raise self.fault(net, message("system_function"))
        try:
            self.trees.check_net(base, net.name)
        except Fault as why:
            raise self.fault(net, why) from None
        if base in self.forbidding:
            raise self.fault(net, message("nettype_none"))

    def unknown(self, said: str) -> Fault | None:
        """Returns the exception for a name that yosys refuses in the text `said` although it hadn't
        reported it as an implicit net; None if there is no such name."""
        found = REFUSED.search(said)
        if not found:
            return None
        place, name = found.groups()
        is_later = any(it.text.endswith(name) for it in self.design.all())
        why = "later_block" if is_later else "below" if "." in name else "unknown_name"
        net = Net(name, Shape(1, 0, False, False), False, place, frozenset())
        return self.fault(net, message(why))

    def declaring(self) -> dict[str, bytes]:
        """Returns the texts of the Verilog files with the declarations added, by their paths."""
        lines = {module: encoded("".join(f"{line}{name} ; " for name, line in own.items()))
                 for module, own in self.declared.items()}
        return {path: text.with_lines(lines) for path, text in self.texts.items()}

    def checked(self, design: Statement, said: str) -> Statement:
        """Returns the design that yosys read with the declarations, without unused ones. `said` is
        what yosys printed.

        Raises Fault if a declared net isn't what it is connected with, or is written."""
        hierarchy = Hierarchy(design, self.trees, warned(said))
        for kind, module in hierarchy.modules.items():
            for net in hierarchy.implicit(kind):
                if net.name not in self.declared[source_of(kind)] or "." in net.name:
                    raise self.fault(net, message("in_script"))
            for net in [it for it in module.nets.values() if MADE & it.attributes]:
                if module.is_used(net.name):
                    self.check(hierarchy, kind, net)
                else:
                    module.drop(net.name)
        check_names(modules_of(design), passed=JOINED)
        return design

    def check(self, hierarchy: Hierarchy, kind: str, net: Net) -> None:
        """Raises Fault if a declared net differs from the signal that it is connected with, or is
        written."""
        first = self.known.get((source_of(kind), net.name), net)
        try:
            is_same = f"\\{UNKNOWN}" not in net.attributes \
                and hierarchy.signal(kind, net.name[1:]) == net.shape
        except Fault as why:
            raise self.fault(first, why) from None
        if not is_same:
            raise self.fault(first, message("ambiguous"))
        if net.name in hierarchy.modules[kind].driven(hierarchy.modules):
            raise self.fault(first, message("written"))
