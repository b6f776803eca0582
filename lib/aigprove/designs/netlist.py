"""The netlist that yosys writes as JSON: names, drivers and clocks of its signals."""
import collections
import re
from collections.abc import Iterator, Mapping
from typing import Any

from aigprove.circuits.aiger import Fault
from aigprove.data import message
from aigprove.designs.internal import COMPUTED

# Json is an object of such a file. Bit is a bit of a net: a number, or "0", "1", "x" or "z". Clock
# is the name of a clock, and whether its rising edges are active.
Json = dict[str, Any]
Bit = int | str
Clock = tuple[str, bool]

CLOCKS = {"CLK", "RD_CLK", "WR_CLK"}
# Cells that store a value, so that their outputs don't depend on their inputs in the same step.
HOLDING = re.compile(r"ff|latch|sr$|_sr_|mem|any", re.IGNORECASE)

# The suffix of the name of a register's stored value, and the index of a bit at the end of a name.
STORED, INDEX = ".stored", re.compile(r"(\[[0-9]+\])?$")
PART = re.compile(r"(.+)\$\[([0-9]+):([0-9]+)\]")


def identifier(module: Json, name: str) -> str:
    """Returns a net's name as RTLIL has it, which never begins with `#`: in a script, that would
    begin a comment."""
    return name if module["netnames"][name]["hide_name"] else f"\\{name}"


def pattern_of(name: str) -> str:
    """Returns a pattern by which yosys selects exactly the object of this name."""
    return re.sub(r"(\W)", r"\\\1", name)


def names_of(module: Json) -> dict[Bit, str]:
    """Returns a name for each bit of a module: preferably that of a port, then that of a net that
    the design names."""
    ranked = sorted(module["netnames"].items(),
                    key=lambda it: (it[0] in module["ports"], not it[1]["hide_name"]))
    return {bit: name for name, net in ranked for bit in net["bits"]}


def spelled(module: Json, bit: Bit) -> str:
    """Returns how messages name a bit.

    That is its name or, if only the name of a later signal comes from the design, a description by
    that signal. A name that contains a source location is used as it is."""
    names, left, seen = names_of(module), [bit], {bit}
    readers = collections.defaultdict[Bit, list[Json]](list)
    for cell in module["cells"].values():
        for it in inputs_of(cell):
            readers[it].append(cell)
    for own in left if not isinstance(bit, str) else []:
        name = names.get(own)
        if name and not module["netnames"][name]["hide_name"]:
            return name if own == bit else f"what {name} depends on"
        if name and own == bit and COMPUTED.search(name):
            return name
        new = {it for cell in readers[own] for it in outputs(cell)} - seen
        seen |= new
        left += new
    return "a constant" if isinstance(bit, str) else "a net without a name"


def bits_of(module: Json) -> Iterator[tuple[Bit, str]]:
    """Yields each bit of the nets that the design names, with its name in the AIGER file."""
    for name, net in module["netnames"].items():
        if not net["hide_name"]:
            is_one = len(net["bits"]) == 1
            yield from ((bit, name if is_one else f"{name}[{i}]")
                        for i, bit in enumerate(net["bits"]) if not isinstance(bit, str))


def aliases(module: Json) -> dict[str, list[str]]:
    """Returns all names of each bit, by each of these names."""
    names = collections.defaultdict(list)
    for bit, name in bits_of(module):
        names[bit].append(name)
    return {name: own for own in names.values() for name in own}


def cells_like(module: Json, kind: str) -> list[Json]:
    """Returns the cells of the type `kind`."""
    return [cell for cell in module["cells"].values() if cell["type"] == kind]


def types(module: Json) -> set[str]:
    """Returns the types of a module's cells."""
    return {cell["type"] for cell in module["cells"].values()}


def constants(module: Json) -> set[str | None]:
    """Returns the names of the values that are arbitrary, but the same in each step."""
    names = names_of(module)
    return {names.get(bit)
            for cell in cells_like(module, "$anyconst") for bit in cell["connections"]["Y"]}


def outputs(cell: Json) -> list[Bit]:
    """Returns the bits that a cell drives."""
    return [bit for port, bits in cell["connections"].items()
            if cell["port_directions"].get(port) == "output" for bit in bits]


def inputs_of(cell: Json) -> list[Bit]:
    """Returns the bits that a cell reads."""
    return [bit for port, bits in cell["connections"].items()
            if cell["port_directions"].get(port) != "output" for bit in bits]


def needed(module: Json) -> set[Bit]:
    """Returns the bits on which the ports depend, and the cells without outputs."""
    makers = collections.defaultdict[Bit, list[Json]](list)
    left = [bit for port in module["ports"].values() for bit in port["bits"]]
    for cell in module["cells"].values():
        driven = outputs(cell)
        left += inputs_of(cell) if not driven else []
        for bit in driven:
            makers[bit].append(cell)
    found = set(left)
    while left:
        for cell in makers.pop(left.pop(), []):
            new = set(inputs_of(cell)) - found
            found |= new
            left += new
    return found


def loop_in(module: Json) -> list[str]:
    """Returns the names of the signals of a combinational cycle, sorted, or none.

    Every output of a cell is assumed to depend on all its inputs."""
    names, done, path = names_of(module), set[Bit](), dict[Bit, None]()
    makers = {bit: cell for cell in module["cells"].values() if not HOLDING.search(cell["type"])
              for bit in outputs(cell)}
    left: list[tuple[Bit, bool]] = [(bit, False) for bit in makers]
    while left:
        bit, is_left = left.pop()
        if is_left:
            del path[bit]
            done.add(bit)
        elif bit in path:
            cycle = list(path)[list(path).index(bit):]
            return sorted({names[it] for it in cycle if it in names and names[it][0] != "$"})
        elif bit in makers and bit not in done:
            path[bit] = None
            left.append((bit, True))
            left += [(it, False) for it in inputs_of(makers[bit])]
    return []


def check_drivers(top: str, module: Json) -> None:
    """Raises Fault if a net has several drivers, constants included, or may be `z`. `top` is the
    module's name for messages."""
    driven = set[Bit]()
    valued = [cell for cell in module["cells"].values() if cell["type"] not in ("$eqx", "$nex")]
    open_bits = [spelled(module, bit) for cell in valued for bit in outputs(cell) or [""]
                 if any("z" in bits for bits in cell["connections"].values())]
    for name in open_bits + [name
                             for name, net in module["netnames"].items() if "z" in net["bits"]]:
        raise Fault.of("tristate", top=top, net=name)
    inputs = [bit for port in module["ports"].values() if port["direction"] == "input"
              for bit in port["bits"]]
    read = needed(module)
    for bit in inputs + [bit for cell in valued for bit in outputs(cell)]:
        # A net on which nothing depends may be a loop variable.
        if isinstance(bit, str) or bit in driven and bit in read:
            raise Fault.of("several_drivers", top=top, net=spelled(module, bit))
        driven.add(bit)


def clock_of(top: str, module: Json) -> Clock | None:
    """Returns the name of the module's clock, and whether its rising edges are active; None if it
    has no registers.

    Raises Fault if it has several clocks, if the clock isn't an input, or if it is also read as a
    value."""
    names = names_of(module)
    clocks: dict[Clock, Bit] = {}
    read: set[str | None] = set()
    for cell in module["cells"].values():
        for port, bits in cell["connections"].items():
            if port in CLOCKS:
                edge = cell["parameters"].get(f"{port}_POLARITY", "1")
                clocks.update(((names.get(bit, str(bit)), "1" in edge), bit) for bit in bits)
            elif cell["port_directions"].get(port) != "output":
                read.update(names.get(bit) for bit in bits)
    hint = message("multiclock")
    if len(clocks) > 1:
        shown = " and ".join(
            f"{spelled(module, clocks[clock])} ({'rising' if clock[1] else 'falling'})"
            for clock in sorted(clocks))
        raise Fault.of("several_clocks", top=top, clocks=shown, hint=hint)
    for (clock, _), bit in clocks.items():
        if clock in read:
            raise Fault.of("clock_as_value", top=top, clock=clock, hint=hint)
        if module["ports"].get(clock, {"direction": ""})["direction"] != "input":
            raise Fault.of("own_clock", top=top, clock=spelled(module, bit), hint=hint)
        if clock.endswith(";"):
            raise Fault.of("clock_name", top=top, clock=clock)
    return next(iter(clocks), None)


def stored(module: Json) -> Iterator[tuple[str, str]]:
    """Yields pairs of an old and a new name for the stored values of registers with an asynchronous
    reset.

    The design's own name stands for the value after the reset."""
    ranked = sorted(module["netnames"].items(),
                    key=lambda it: (not it[1]["hide_name"], -it[0].count(".")))
    nets = {tuple(net["bits"]): (name, net["hide_name"]) for name, net in ranked}
    named: dict[tuple[Bit, ...], str] = {(bit,): name for bit, name in bits_of(module)}
    named |= {bits: name for bits, (name, is_hidden) in nets.items() if not is_hidden}
    held = {tuple(cell["connections"]["Q"])
            for cell in module["cells"].values() if "Q" in cell["connections"]}
    taken = set(module["netnames"])
    for bits, result in changed(module):
        old, new = nets.get(bits), named.get(result)
        if bits in held and old and old[1] and new and stored_name(new) not in taken:
            taken.add(stored_name(new))
            yield old[0], stored_name(new)


def changed(module: Json) -> Iterator[tuple[tuple[Bit, ...], tuple[Bit, ...]]]:
    """Yields bits that a reset may change, and the result: by a choice, or by a set and a clear."""
    ports = [(cell["type"], {port: tuple(bits) for port, bits in cell["connections"].items()})
             for cell in module["cells"].values()]
    set_by = {own["Y"]: own for kind, own in ports if kind == "$or"}
    for kind, own in ports:
        for bits in [own[port] for port in "AB" if kind in ("$mux", "$and")]:
            inner = set_by.get(bits, {}) if kind == "$and" else {"A": bits}
            yield from ((inner[port], own["Y"]) for port in inner if port != "Y")


def stored_name(name: str) -> str:
    """Returns the name of a register's stored value. `name` is that of the value after the reset;
    the index of a bit stays at the end."""
    return INDEX.sub(f"{STORED}\\1", name, count=1)


def all_names(name: str, known: Mapping[str, list[str]]) -> list[str]:
    """Returns all names of a register. `known` has all names of a signal by each of them, as
    `aliases` returns them."""
    if STORED not in name:
        return known.get(name, [name])
    own = name.replace(STORED, "")
    return list(map(stored_name, known.get(own, [own])))


def free_names(module: Json) -> Iterator[tuple[str, str]]:
    """Yields pairs of an old and a new name for the inputs that stand for free values.

    The new name is that of the net and its bits, or x0, x1 and so on for a value without a name."""
    taken, count = set(module["netnames"]), 0
    for name, port in module["ports"].items():
        part = PART.fullmatch(name)
        if part:
            bits = [int(part[2]) - 1, int(part[3])]
            new = f"{part[1]}[{':'.join(map(str, dict.fromkeys(bits)))}]"
            if new not in taken:
                yield name, new
        elif module["netnames"][name]["hide_name"]:
            while f"x{count}" in taken:
                count += 1
            taken.add(f"x{count}")
            yield name, f"x{count}"
