"""Translates designs into AIGER files by yosys. Assertions become bad state properties, and
assumptions constraints.

Whatever the design leaves undefined may have any value: an uninitialised register at step 0, and in
each step an undriven net and each `x`. Each becomes an input of the file, before a pass of yosys
could choose its value."""
import functools
import os
import re
from collections.abc import Container, Mapping, Sequence

from aigprove.circuits.aiger import Fault
from aigprove.circuits.witness import Witness
from aigprove.designs import netlist, scripts
from aigprove.designs.front_ends import ASSERT, COVER, LIVE, File, TranslationTimeout
from aigprove.designs.modules import paths_of
from aigprove.designs.netlist import Json
from aigprove.designs.ordering import Assertion, order_of, ordered
from aigprove.designs.reading import KINDS, WORD, ReadDesign
from aigprove.designs.replay import Module
from aigprove.designs.rtlil import Statement, write
from aigprove.options.options import DesignOptions
from aigprove.output.messages import escaped, plain
from aigprove.processes.files import path_of
from aigprove.processes.scheduler import Task

# How the message about a crash of yosys ends.
BROKEN = "was ended by SIGSEGV"
# The size in bytes of a small design.
SMALL = 1 << 17
# FEWER are the commands that reduce the number of gates by ABC. BRIEF is the size in bytes up to
# which two designs are compared faster without them.
FEWER, ABC, BRIEF = "abc -g AND\nopt_clean", "berkeley-abc", 1 << 20
# The attribute with a net's path, and the clock that is added to a design without one.
HDLNAME, CLOCKED = "\\hdlname", (scripts.SPARE, True)
# The greatest number of characters of an assertion's text that are printed.
SPELLED = 200
# The files of aigprove's own cells, in source locations. An included file doesn't have such a name.
MADE = re.compile(r"aigprove_[a-z]+\.v:")
# The types of cells that the line about a design counts.
COUNTED = {**dict.fromkeys([ASSERT, COVER], ["$assert", "$assume"]),
           LIVE: ["$live", "$fair", "$assume"]}
FAILED = re.compile(r"^Warning: Assert (\S+ \(.*\)) failed\.$", re.MULTILINE)


def place_of(source: str) -> str:
    """Returns the source location of a cell in a flat module, without those of the enclosing
    instances and of aigprove's own cells."""
    own = [place for place in source.split("|") if not MADE.match(place)]
    return own[-1] if own else ""


class Design(ReadDesign):
    """A design that has been translated into an AIGER file, and its properties.

    Raises Fault if the design is refused, and TranslationTimeout if the time is over."""

    def __init__(self, files: Sequence[File],
                 options: DesignOptions, folder: str, task: Task) -> None:
        super().__init__(files, options, folder, task)
        try:
            self.make()
        except Fault as why:
            # Some passes of yosys recurse without end in a combinational loop.
            loop = netlist.loop_in(self.top_of("drawn.json")[1]) if BROKEN in str(why) else []
            if not loop:
                raise type(why)(self.yosys.readable(str(why))) from None
            raise Fault.of("loop", top=self.top, names=", ".join(loop)) from None

    def make(self) -> None:
        """Translates the design."""
        options = self.options
        self.top, module, given = self.free()
        self.clock, self.constants = netlist.clock_of(self.top, module), netlist.constants(module)
        self.counts = {kind: len(netlist.cells_like(module, kind))
                       for kind in COUNTED[options.kind]}
        # With several clocks the cells of the reset are among the assumptions already.
        self.counts["$assume"] -= bool(self.reset and options.multiclock)
        self.assertions = self.write(module, given)
        self.file = self.yosys.place("design.aig")

    def free(self) -> tuple[str, Json, Container[str]]:
        """Turns undefined values into inputs.

        Returns the name of the top module, its netlist, and the names of the ports that the design
        itself has. If two designs are compared, all names of nets are written."""
        named = "json -o whole.json w:*" if self.options.is_compared else "write_rtlil whole.il"
        words = {"flat": self.flat, "partial": self.partial, "memories": self.memories,
                 "chosen": scripts.CHOSEN[self.options.kind], "named": named}
        with self.yosys.alongside(scripts.FREE, **words):
            self.read_on()
            top, drawn = self.top_of("drawn.json")
            self.check_reset(top, drawn)
            netlist.check_drivers(top, drawn)
        top, module = self.top_of("free.json")
        if not WORD.fullmatch(top):
            raise Fault.of("not_module", name=top)
        return top, module, drawn["ports"].keys()

    def top_of(self, name: str) -> tuple[str, Json]:
        """Returns the name and the netlist of the top module in a JSON file."""
        return next((name, it)
                    for name, it in self.yosys.modules(name).items() if "top" in it["attributes"])

    def write(self, module: Json, given: Container[str]) -> list[Assertion]:
        """Writes the AIGER file, and returns the assertion of each property."""
        self.check_reset(self.top, module, self.clock and self.clock[0])
        reset = "" if self.options.multiclock else self.resetting(scripts.LATE)
        clock = ""
        if self.clock:
            clock = f"delete w:{netlist.pattern_of(self.clock[0])}\nopt_clean -purge"
        names = dict(netlist.free_names(module))
        self.left_open = [names.get(port, port) for port in module["ports"] if port not in given]
        self.renames = "\n".join(f"rename {netlist.identifier(module, old)} \\{new}"
                                 for old, new in [*netlist.stored(module), *names.items()])
        equal, size = self.options.is_compared, os.path.getsize(self.yosys.place("free.il"))
        fewer = "" if equal and size <= BRIEF or not path_of(ABC) else FEWER
        mapped = netlist.types(module) - scripts.SIMPLE
        further = scripts.FURTHER * (not mapped <= scripts.MAPPED)
        by_maps = scripts.BY_MAPS.format(further=further) if mapped or reset else ""
        words = {"top": self.top, "renames": self.renames,
                 "clock": clock, "reset": reset, "by_maps": by_maps, "fewer": fewer}
        words["spare"] = self.spare()
        # A small design is also prepared for simulation in the same run of yosys, which saves time
        # if a trace is printed.
        both = scripts.WRITE + "design -reset\n" + scripts.REPLAY
        self.is_replayed = not equal and size <= SMALL and self.is_run(both, words)
        if not self.is_replayed:
            self.yosys.run(scripts.WRITE, **words)
        cells = self.yosys.modules("asserted.json").get(self.top, {"cells": {}})["cells"]
        return self.in_order([
            Assertion(name, place_of(cell["attributes"].get("src", "")), not cell["hide_name"])
            for name, cell in cells.items()])

    def in_order(self, given: Sequence[Assertion]) -> list[Assertion]:
        """Sorts the properties of the file by the design's text, and returns their assertions in
        that order."""
        readable = [it._replace(place=self.yosys.readable(it.place)) for it in given]
        paths = [plain(os.fsencode(file.path)) for file in self.files]
        # `order` has, for each property, its index in the file that yosys wrote.
        order = self.order = order_of(readable, paths)
        if order != sorted(order):
            path = self.yosys.place("design.aig")
            with open(path, "rb") as file:
                data = file.read()
            with open(path, "wb") as out:
                out.write(ordered(data, order, self.options.kind == LIVE))
        return [given[i] for i in order]

    def check_reset(self, top: str, module: Json, clock: str | None = None) -> None:
        """Raises Fault if the reset isn't a one-bit input, or is the clock."""
        if self.reset:
            signal = self.reset.signal
            port = module["ports"].get(signal, {"direction": ""})
            if port["direction"] != "input" or len(port["bits"]) > 1:
                raise Fault.of("no_reset", top=top, signal=signal)
            if signal == clock:
                raise Fault.of("clock_as_reset", top=top, signal=signal)

    @functools.cached_property
    def aliases(self) -> dict[str, list[str]]:
        """All names of each signal, by each of them."""
        return netlist.aliases(self.top_of("whole.json")[1])

    def about(self) -> str:
        """Returns the line that counts the assertions and assumptions."""
        counted = [f"{count} {KINDS[kind]}{'s' * (count != 1)}"
                   for kind, count in self.counts.items()]
        return f"{self.top}: {', '.join(counted)}" + (f", {self.reset}" if self.reset else "")

    def named(self) -> list[tuple[str, str]]:
        """Returns the name and the source location of each property's assertion."""
        return [(f"{self.top}.{it.path}" if it.path else "", self.location(it.place))
                for it in self.assertions]

    def assertion(self, number: int) -> tuple[str, str]:
        """Returns a line that names the assertion of a property, and the assertion's text."""
        it = self.assertions[number]
        own, place = f".{it.path}" if it.path else "", self.location(it.place)
        said = f" ({place})" if place else ""
        return f"{KINDS[self.options.kind]} {self.top}{own}{said}", \
            self.spelled(self.yosys.readable(it.place))

    def spelled(self, place: str) -> str:
        """Returns the text at a source location as one line, or "" if the location isn't in a file
        of the design.

        Columns are ignored: yosys counts them in preprocessed text."""
        path, _, lines = place.rpartition(":")
        found = re.fullmatch(r"([0-9]+)\.[0-9]+-([0-9]+)\.[0-9]+", lines)
        data = next((file.data for file in self.files if plain(os.fsencode(file.path)) == path),
                    None)
        if not found or data is None:
            return ""
        first, last = map(int, found.groups())
        own = data.decode("utf-8", "replace").split("\n")[first - 1:last]
        return " ".join(escaped(line.strip()) for line in own)[:SPELLED]

    def run(self, trace: Witness) -> tuple[list[str], str]:
        """Simulates a trace in yosys, with 0 for each `x`.

        Returns the names of the assertions that fail in the last step, and the value change dump.
        Raises Fault if yosys fails."""
        self.replayed()
        filled = trace.filled()
        lines = [line + "0" for line in [filled.start, *filled.steps]]
        # Yosys ignores an empty line, and needs a clock.
        self.yosys.put("witness.aiw", "\n".join(["1", f"b{trace.bad}", *lines, ".", ""]))
        clock, rising = self.clock or CLOCKED
        printed = self.yosys.run(scripts.SIMULATE,
                                 clock=f"-clock{'' if rising else 'n'} \\{clock}", top=self.top)
        failed = FAILED.findall(printed.rpartition("Simulating cycle ")[2])
        return list(dict.fromkeys(failed)), self.yosys.text("run.vcd")

    def is_run(self, script: str, words: Mapping[str, str]) -> bool:
        """Returns whether yosys completes a script. Raises TranslationTimeout if the time is
        over."""
        try:
            self.yosys.run(script, **words)
        except TranslationTimeout:
            raise
        except Fault:
            return False
        return True

    def spare(self) -> str:
        """Returns the command that adds a clock to a design without one."""
        return "" if self.clock else f"add -input {scripts.SPARE} 1"

    def replayed(self) -> None:
        """Prepares the module that yosys simulates, with all signals of the design."""
        if not self.is_replayed:
            self.yosys.run(scripts.REPLAY, top=self.top, renames=self.renames, spare=self.spare())
        paths = paths_of(self.top_of("drawn.json")[1]["netnames"])
        design, (clock, rising) = self.yosys.design("replayed.il"), self.clock or CLOCKED
        for it in (it for module in design.of("module") for it in module.body):
            path = paths.get(it.name[1:]) if it.name.startswith("\\") else None
            if it.kind == "wire" and path:
                it.attributes[HDLNAME] = f'"{path}"'
            elif it.kind == "cell" and it.type == "$ff":
                # Yosys initialises only registers that have a clock.
                it.text = f"$dff {it.name}"
                it.body[:0] = [Statement("parameter", f"\\CLK_POLARITY 1'{rising:d}"),
                               Statement("connect", f"\\CLK \\{clock}")]
        self.yosys.put("replayed.il", write(design))

    @functools.cached_property
    def module(self) -> Module:
        """The netlist of the module that yosys simulates."""
        return Module(self.top_of("replayed.json")[1])
