"""Prepares the modules of a design for translation.

Each `x` is replaced by an undriven wire before a pass of yosys could choose its value, or different
values for different readers. Designs that yosys would silently read in one of several ways are
refused."""
import collections
import itertools
import re
from collections.abc import Iterator, Mapping, Sequence
from typing import Any, NamedTuple

from aigprove.circuits.aiger import Fault
from aigprove.designs.rtlil import Part, Signal, Statement, constant, modules_of, spelled

# The nets that hold the values of assertions, assumptions and memory writes that aren't enabled,
# and the end of the names of their enable nets.
UNREACHED, ENABLE = re.compile(r"\$[0-9]+\$(?:formal|memwr)\$\S+"), "_EN"
PARALLEL = "\\parallel_case"
# The types of cells that are properties.
ASSERTIONS = {"$assert", "$assume", "$cover", "$live", "$fair"}
# COMPARING are cells that compare with `x`. MEMORY begins the types of memory cells, whose `x` are
# initial or default values.
COMPARING, MEMORY = {"$eqx", "$nex"}, "$mem"
# The statements of a process that assign values.
VALUED = {"assign", "switch", "update"}
# The sync rules of a process that aren't at a clock edge, and the attribute of initial values.
UNTIMED, INIT = {"always", "init", "global"}, "\\init"
INTERFACE, TOP, BOX = "\\is_interface", "\\top", "\\blackbox"
# The attribute of a net that yosys connects with the signal of an instance that has the net's name.
JOINED = "\\hierconn"
# Yosys's names for what is declared in a task, a function or an unnamed block: the scope, the
# number of the call or block, and the declared name.
CALL = re.compile(r"(?<=\\)([^\s\\]*?)\$func\$[^\s\\]*?:[0-9]+\$([0-9]+)(?=\.([^\s.[]+))")
BLOCK = re.compile(r"((?<=\\)[^\s\\]*?\.|(?<!\S))\$unnamed_block\$([0-9]+)(?=\.([^\s.[]+))")
UNNAMED = "unnamed_block"
# A net's path, with spaces between its parts, as the attribute `hdlname` has it.
PATH = re.compile(r'[^\s"\\]+( [^\s"\\]+)+')


def free_unknowns(design: Statement) -> None:
    """Replaces each `x` of a design by an undriven wire.

    The value of a disabled assertion or memory write becomes 0 first, and the attribute
    `parallel_case` is removed, so that the first matching item of a case is chosen."""
    for module in design.of("module"):
        for it in module.all():
            it.attributes.pop(PARALLEL, None)
            clear_disabled(it)
        drop_unknown_updates(module)
        free(module)


def clear_disabled(block: Statement) -> None:
    """Sets values that are `x` while their enable net is 0 to 0, in the statements of one block."""
    for it, *behind in zip(block.body, *(block.body[i:] + [block] * i for i in (1, 2))):
        if it.kind == "assign" and UNREACHED.match(it.text) and any(map(is_disabled, behind)):
            target, source = it.signals()
            bits = constant(source)
            if bits and not bits.strip("x"):
                it.put([target, [Part("", "0" * len(bits))]])


def is_disabled(statement: Statement) -> bool:
    """Returns whether a statement sets an enable net to the constant 0."""
    if statement.kind != "assign":
        return False
    target, source = statement.signals()
    bits = constant(source)
    return ENABLE in spelled(target) and bool(bits) and not bits.strip("0")


def drop_unknown_updates(module: Statement) -> None:
    """Removes assignments of `x` at every edge of a process, if nothing else in the module uses the
    net.

    Yosys writes these for variables of functions. Without a driver the net has any value, too, and
    yosys wants an asynchronous reset to have a constant value."""
    for process in module.of("process"):
        edges = [sync for sync in process.of("sync") if sync.text not in UNTIMED]
        written = [{it.text for it in sync.of("update") if is_x(it)} for sync in edges]
        texts = set.intersection(*written) if len(edges) > 1 else set()
        if texts:
            every, own = (collections.Counter(word for it in part.all() for word in it.words())
                          for part in [module, process])
            alone = {wire.name for wire in module.of("wire") if INIT not in wire.attributes
                     and every[wire.name] == own[wire.name] + 1}
            for sync in edges:
                sync.body = [it for it in sync.body
                             if it.text not in texts or it.words()[0] not in alone]


def is_x(update: Statement) -> bool:
    """Returns whether a statement assigns `x` to all bits of a net."""
    target, source = update.signals()
    bits = constant(source)
    return len(target) == 1 and target[0].high is None and bool(bits) and not bits.strip("x")


def valued(module: Statement) -> Iterator[Statement]:
    """Yields the statements of a module in which `x` is a value. Memories, initial values and
    comparisons with `x` are left out."""
    for it in module.body:
        if it.kind == "connect":
            yield it
        elif it.kind == "cell" and it.type not in COMPARING and not it.type.startswith(MEMORY):
            yield from it.of("connect")
        elif it.kind == "process" and not any(sync.text == "init" for sync in it.of("sync")):
            yield from (own for own in it.all() if own.kind in VALUED)


def has_unknown(part: Part) -> bool:
    """Returns whether a part of a signal has an `x` bit and no `z` bit."""
    return "x" in part.bits and "z" not in part.bits


def free(module: Statement) -> None:
    """Replaces each run of `x` bits in a module by a new, undriven wire."""
    wires: list[Statement] = []

    def freed(part: Part) -> Iterator[Part]:
        for is_x, run in itertools.groupby(part.bits, lambda bit: bit == "x"):
            bits = "".join(run)
            if is_x:
                wires.append(Statement("wire", f"width {len(bits)} $free${len(wires) + 1}"))
            yield Part(wires[-1].name) if is_x else Part("", bits)

    for it in valued(module):
        if "x" in it.text:
            signals = it.signals()
            made: list[Signal] = [[own for part in signal
                                   for own in (freed(part) if has_unknown(part) else [part])]
                                  for signal in signals]
            if made != signals:
                it.put(made)
    module.body[:0] = wires


class Cell(NamedTuple):
    """A cell or a module.

    `type` is None for a module. Names have yosys's prefix: a backslash for names of the design, and
    `$` for generated ones. `place` is the source location."""

    module: str
    type: str | None
    name: str
    place: str

    @property
    def label(self) -> str:
        """The module's name, followed by the cell's name if the design gives it one."""
        return base_of(self.module) + (f".{self.name[1:]}" if self.name.startswith("\\") else "")


def cells_of(design: Statement) -> Iterator[Cell]:
    """Yields every module of a design, followed by its cells."""
    for name, module in modules_of(design).items():
        yield Cell(name, None, name, module.source)
        for cell in module.of("cell"):
            yield Cell(name, cell.type, cell.name, cell.source)


def types_of(design: Statement) -> set[str]:
    """Returns the types of all cells of a design."""
    return {cell.type for module in design.of("module") for cell in module.of("cell")}


def are_alike(design: Statement) -> bool:
    """Returns whether two unnamed assertions of a module have the same source location."""
    places = [(module.name, cell.source) for module in design.of("module")
              for cell in module.of("cell")
              if cell.type in ASSERTIONS and not cell.name.startswith("\\")]
    return len(places) > len(set(places))


def dots_in(name: str) -> Iterator[int]:
    """Yields the positions of the dots in a name."""
    return (i for i, sign in enumerate(name) if sign == ".")


def check_names(modules: Mapping[str, Statement], passed: str = "") -> None:
    """Raises Fault if the name of a net with dots is also the path of another signal: yosys would
    confuse them.

    `modules` are the modules by their names. Nets with the attribute `passed` aren't checked."""
    for name, module in modules.items():
        dotted = [own for it in module.of("wire", "memory")
                  if passed not in it.attributes
                  and (own := it.name).startswith("\\") and "." in own[2:]]
        types = {it.name: it.type for it in module.of("cell")} if dotted else {}
        for own in dotted:
            for end in dots_in(own):
                other = modules.get(types.get(own[:end], ""))
                # The signals of an interface are declared by their paths.
                is_path = other and INTERFACE not in other.attributes
                if is_path and other and f"\\{own[end + 1:]}" in begins_of(other):
                    raise Fault.of("ambiguous_name", module=base_of(name), name=own[1:],
                                   cell=own[1:end], inner=own[end + 1:])


def begins_of(module: Statement) -> set[str]:
    """Returns the names of a module's nets, memories and cells, and each part of such a name up to
    a dot."""
    names = {it.name for it in module.of("wire", "memory", "cell")}
    return names | {name[:end] for name in names for end in dots_in(name)}


def check_constants(modules: Mapping[str, Statement]) -> None:
    """Raises Fault if a net gets several constants, for example from several initial blocks: yosys
    would choose one of them."""
    for name, module in modules.items():
        given, values = list(constants_in(module)), collections.defaultdict(set)
        widths = {it.name: width_of(it) for it in module.of("wire")} if given else {}
        for target, source in given:
            for i, bit in enumerate(bits_in(target, widths)):
                values[bit].add(source[i:i + 1] or source)
        for net in dict.fromkeys(net for (net, _), own in values.items() if len(own) > 1):
            # A net that only initial blocks write, and that nothing reads, may be a loop variable.
            uses = sum(it.words().count(net) for it in module.all())
            if uses > 1 + sum(net in {part.name for part in target} for target, _ in given):
                raise Fault.of("several_values", module=base_of(name), net=net[1:])


def width_of(wire: Statement) -> int:
    """Returns the number of bits of a net."""
    words = wire.words()
    return int(words[words.index("width") + 1]) if "width" in words[:-1] else 1


def constants_in(module: Statement) -> Iterator[tuple[Signal, str]]:
    """Yields the assignments of constants to nets that a module makes once.

    Each is a pair of the target and the constant's bits, lowest first. If the source isn't a
    constant, another text stands for it."""
    for it in module.of("connect"):
        target, source = it.signals()
        if bits := known_bits(source):
            yield target, bits[::-1]
    for process in module.of("process"):
        known = {} if process.of("switch") else {
            str(target[0]): known_bits(source)
            for target, source in (it.signals() for it in process.of("assign")) if len(target) == 1}
        syncs = process.of("sync")
        for sync, other in zip(syncs, syncs[1:]):
            if (sync.text, other.text) == ("always", "init"):
                for target, source in (it.signals() for it in sync.of("update")):
                    text = " ".join(map(str, source))
                    yield target, (known_bits(source) or known.get(text) or text)[::-1]


def known_bits(signal: Signal) -> str:
    """Returns the bits of a signal if it is a constant without `x` and `z`, and otherwise ""."""
    bits = constant(signal)
    return bits if not bits.strip("01") else ""


def bits_in(target: Signal, widths: Mapping[str, int]) -> Iterator[tuple[str, int]]:
    """Yields the bits of the nets in a signal, lowest first, as pairs of a net's name and a bit
    index.

    `widths` has the width of each net."""
    for part in reversed(target):
        low, high = part.low, part.high
        if low is None or high is None:
            low, high = 0, widths.get(part.name, 1) - 1
        yield from ((part.name, i) for i in range(low, high + 1))


def base_of(name: str) -> str:
    """Returns the name that a module has in the design, without parameter values."""
    return name.split("\\")[1]


def source_of(name: str) -> str:
    """Returns the name that a module has in the Verilog text, without parameter values and
    interfaces."""
    return base_of(name).partition("$interfaces$")[0]


def roots_of(cells: Sequence[Cell]) -> list[str]:
    """Returns the names of the modules that no other module instantiates, in order."""
    types = {cell.type for cell in cells}
    return [cell.module[1:] for cell in cells if cell.type is None and cell.module not in types]


def reached(cells: Sequence[Cell], root: str) -> set[str]:
    """Returns the names of a module and of all modules below it."""
    found, left = set(), [root]
    while left:
        found.add(left.pop())
        types = {cell.type for cell in cells if cell.type and cell.module[1:] in found}
        left += [name[1:] for name in types if name[0] == "\\" and name[1:] not in found]
    return found


def item_of_x(design: Statement) -> str | None:
    """Returns the source location of a case item with an `x` or `z`, or None if there is none."""
    for switch in (it for it in design.all() if it.kind == "switch"):
        items = [part for case in switch.of("case") for signal in case.signals() for part in signal]
        if any("x" in part.bits or "z" in part.bits for part in items):
            return switch.source
    return None


def renamed(module: Statement) -> None:
    """Renames what is declared in tasks, functions and unnamed blocks, so that the names depend
    only on these.

    With yosys's own names, which count calls, a register wouldn't have the same name in another
    version of the design."""
    for pattern, behind in (CALL, ""), (BLOCK, UNNAMED):
        statements = list(module.all())
        if any(pattern.search(it.text) for it in statements):
            names = renaming({word for it in statements for word in it.words()}, pattern, behind)
            for it in statements if names else []:
                it.text = " ".join(names.get(word, word) for word in it.words())


def renaming(words: set[str], pattern: re.Pattern[str], behind: str) -> dict[str, str]:
    """Returns the new name for each of the words that `pattern` finds, by the old one.

    A new name is the scope, `behind`, and the declared name. If several words would get the same
    name, each gets an index from 0. Returns nothing if a new name is already taken."""
    numbers = collections.defaultdict[tuple[str, str], set[int]](set)
    found = {word: pattern.findall(word) for word in words if "$" in word and pattern.search(word)}
    for scope, number, inner in (it for own in found.values() for it in own):
        numbers[scope, inner].add(int(number))

    def named(match: re.Match[str]) -> str:
        own = sorted(numbers[match[1], match[3]])
        index = f"[{own.index(int(match[2]))}]" if len(own) > 1 else ""
        return ("" if match[1] else "\\") + match[1] + behind + index

    names = {word: pattern.sub(named, word) for word in found}
    return names if len(words) == len({names.get(word, word) for word in words}) else {}


def paths_of(nets: Mapping[str, Any]) -> dict[str, str]:
    """Returns the path of each net below the top of a flat module, by the name that `renamed` gives
    the net."""
    module, paths = Statement("module"), {}
    module.body = [Statement("wire", f"\\{name}") for name in nets]
    renamed(module)
    for (name, net), line in zip(nets.items(), module.body):
        path, own = net["attributes"].get("hdlname", ""), line.text[1:]
        if PATH.fullmatch(path):
            above = path.rpartition(" ")[0]
            paths[own] = path if own == name else f"{above} {own[len(above) + 1:]}"
    return paths
