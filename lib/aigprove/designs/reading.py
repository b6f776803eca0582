"""Reads a design by yosys, up to its elaborated hierarchy, and reports which properties in it
aren't checked."""
import collections
import functools
import itertools
import re
from collections.abc import Container, Iterable, Iterator, Mapping, Sequence

from aigprove import data
from aigprove.circuits.aiger import Fault
from aigprove.data import message
from aigprove.designs import modules, scripts
from aigprove.designs.front_ends import (AGAIN, ASSERT, COVER, DECLARED, EXPANDING, FAIR, FRONTS,
                                         LIVE, LOOKING, STRICT, VERILOG, File, TranslationTimeout,
                                         Way)
from aigprove.designs.modules import (BOX, JOINED, TOP, Cell, base_of, free_unknowns, source_of,
                                      types_of)
from aigprove.designs.registers import widened
from aigprove.designs.rtlil import Statement, modules_of, write
from aigprove.designs.sensitivity import lacking
from aigprove.designs.texts import BIND, Text, bound, expanded, moved, read_again, unread
from aigprove.designs.yosys import REFUSED, WARNED, Run, Yosys
from aigprove.options.options import DesignOptions
from aigprove.processes.scheduler import Task

KINDS = {"$assert": "assertion", "$assume": "assumption",
         "$cover": "cover", "$live": "liveness assertion", "$fair": "fairness assumption"}
CHECKED = ("$assert", "$assume")
WORD = re.compile(r"[A-Za-z_][A-Za-z0-9_$]*")
# The lines and columns at the end of a source location.
COLUMNS = re.compile(r":([0-9]+)\.[0-9]+-[0-9]+\.[0-9]+$")
# The greatest number of blocks of a text that are reported for incomplete sensitivity lists.
MOST_NOTES = 20
# Errors about constructs that yosys doesn't read, and that may be rewritten.
UNREAD = re.compile("ERROR: (?:syntax error|System task|Can't resolve task name)")
# The error about two assertions with one label in a module, as generate blocks have them.
UNNAMED = "Cannot add procedural assertion"
# What to do, by a part of yosys's message.
HINTS = {
    "is not part of the design": "give its file too, or its ports alone, as an empty module",
    "open include file": "-I FOLDER says where it is",
    "syntax error": "what yosys doesn't read another front end may: it is taken as an .il file, "
    "or by a script of yosys, .ys",
}


def assertions_below(cells: Iterable[Cell], modules: Container[str]) -> int:
    """Returns how many assertions and liveness assertions are in these modules."""
    return sum(cell.type in (ASSERT, LIVE) and cell.module[1:] in modules for cell in cells)


class ReadDesign:
    """A design that yosys has read in a folder.

    Raises Fault if the design is refused, and TranslationTimeout if the time is over."""

    def __init__(self, files: Sequence[File],
                 options: DesignOptions, folder: str, task: Task) -> None:
        if options.top and not WORD.fullmatch(options.top):
            raise Fault.of("not_module", name=options.top)
        self.files, self.options, self.reset = files, options, options.reset
        self.yosys = Yosys(files, folder, task, options.deadline)
        self.yosys.put("defines.v",
                       "".join(f"`define {name} {value}\n" for name, value in options.define))
        for name in scripts.MAPS:
            self.yosys.put(f"aigprove_{name}.v", data.text(f"designs/{name}.v"))
        self.yosys.put("aigprove_cover.v", scripts.COVERED)
        if self.reset:
            self.put_reset()
        self.reading: Run | None = None
        # The rewritten texts of the Verilog files, and the descriptors of the folders that occur in
        # them.
        self.rewritten: dict[str, bytes] = {}
        self.rewritten_in: Sequence[int] = ()
        self.unmarked: dict[str, bytes] | None
        # Notes about incomplete sensitivity lists; whether assertions in generate blocks are marked
        # (see `labels`); and the texts as they were before that.
        self.notes: list[str] = []
        self.is_marked, self.unmarked = False, None
        try:
            self.unchecked = self.read(options.top)
        except Fault:
            # If yosys itself has failed, its error is more helpful.
            if self.reading:
                self.reading.printed()
            raise

    def read(self, top: str | None) -> list[tuple[str, str]]:
        """Reads the design below its top module, and returns lines about what isn't checked, each
        with the type of cell if another query checks it."""
        every, below = self.read_below(top and f"-top {top}" or "-auto-top")
        others = [] if top else [name for name in modules.roots_of(every) if name not in below]
        # If the top module that yosys chooses has no assertion below it, the one with most
        # assertions is chosen, the last of several.
        counts = {name: assertions_below(every, modules.reached(every, name)) for name in others}
        better = max(reversed(others), key=counts.__getitem__, default="")
        is_better = counts.get(better) and WORD.fullmatch(better)
        if not assertions_below(every, below) and is_better:
            others = [name for name in modules.roots_of(every) if name != better]
            self.read_on()
            every, below = self.read_below(f"-top {better}")
        if self.options.parameter:
            # Yosys sets parameters only of a top module that is named.
            self.read_on()
            every, below = self.read_below(f"-top {self.top}{self.parameters()}")
        lines = [("", message("other_top", name=name)) for name in others]
        return lines + [line for cell in every
                        for line in self.lines_of_unchecked(cell, cell.module[1:] in below)]

    def script(self, top: str, way: Way, made: str,
               is_ready: str, copies: Mapping[str, str], folders: Iterable[str]) -> str:
        """Returns the script that reads the design.

        `top` are the options that select the top module. `made` is the path of the folder,
        `is_ready` that of the file to which yosys writes when it is ready, `copies` has the paths
        of the files' copies, and `folders` are the include folders."""
        words = {"include": " ".join(f"-I {folder}" for folder in folders),
                 "words": way.words, "inner": way.inner}
        files = self.verilog() if way is EXPANDING else self.files
        fronts = [FRONTS[file.kind].format(file=copies[file.path], **words) for file in files]
        if self.options.define:
            fronts.insert(0, VERILOG.format(file=f"{made}/defines.v", include="", words=""))
        if way is EXPANDING:
            return "\n".join(fronts)
        # A black box whose outputs may have any values becomes an empty module.
        fronts += [f"setattr -mod -unset blackbox ={name}" for name in self.options.black_box]
        script = scripts.LOOK if way in (LOOKING, AGAIN) else scripts.READ
        return script.format(fronts="\n".join(fronts), top=top, made=made, is_ready=is_ready)

    def edges(self) -> str:
        """Returns the commands that replace registers of any clocks by registers that are updated
        in each step, if `--multiclock` is given."""
        if not self.options.multiclock:
            return ""
        return scripts.EDGES.format(reset=self.resetting(scripts.AT_EDGES))

    def read_below(self, top: str) -> tuple[list[Cell], set[str]]:
        """Starts reading the design below a top module.

        Returns all cells, and the names of the top module and of those below it. Raises Fault if
        the design is refused."""
        try:
            design = self.declared(top)
        except Fault as why:
            readable = self.yosys.readable(str(why))
            hints = (hint for said, hint in HINTS.items() if said in readable)
            raise type(why)("; ".join([readable, *hints])) from None
        if place := modules.item_of_x(design):
            raise Fault.of("x_item", place=self.yosys.readable(place))
        found, types = modules_of(design), types_of(design)
        modules.check_constants(found)
        below = {base_of(name) for name in found}
        self.has_covers = COVER in types
        self.has_lives = LIVE in types and not self.options.multiclock
        self.partial = scripts.TOTAL if types & scripts.PARTIAL else ""
        has_memories = any(module.of("memory") for module in found.values()) \
            or any(kind.startswith(scripts.MEMORY) for kind in types)
        self.memories = (scripts.MEMORIES if has_memories else "{edges}").format(edges=self.edges())
        if not below:
            raise Fault.of("no_module", path=self.yosys.path)
        self.top = next((base_of(name) for name, own in found.items() if TOP in own.attributes), "")
        if not self.top:
            raise Fault.of("empty_modules", path=self.yosys.path)
        self.free_boxes(found, types)
        for module in found.values():
            modules.renamed(module)
        free_unknowns(design)
        widened(design)
        self.yosys.put("below.il", write(design))
        return list(modules.cells_of(self.every())), below

    def every(self) -> Statement:
        """Returns the design with all its modules, also those that aren't below the top module."""
        return self.yosys.design("all.il")

    def begin(self, top: str,
              way: Way, texts: Mapping[str, bytes], before: Sequence[int] = ()) -> Run:
        """Starts yosys, and returns the run once it is ready.

        `texts` are the texts of the Verilog files, and `before` the descriptors of folders that
        occur in them."""

        def texts_now(now: Sequence[int]) -> dict[str, bytes]:
            return {path: moved(text, before, now) + way.end for path, text in texts.items()}

        script = functools.partial(self.script, top, way)
        try:
            self.reading = self.yosys.read(script, self.options.include, texts_now)
        except Fault as why:
            # A text may compute the name of a file.
            if " open " not in str(why) or not self.yosys.link_all():
                raise
            self.reading = self.yosys.read(script, self.options.include, texts_now)
        return self.reading

    def read_on(self) -> str:
        """Waits until yosys has read the design, and returns what it printed."""
        assert self.reading
        return self.reading.printed()

    def given(self) -> dict[str, bytes]:
        """Returns the texts of the Verilog files, rewritten if yosys doesn't read them as they
        are."""
        return self.rewritten or {file.path: file.data for file in self.verilog()}

    def verilog(self) -> list[File]:
        """Returns the Verilog files."""
        return [file for file in self.files if FRONTS[file.kind] == VERILOG]

    def declared(self, top: str) -> Statement:
        """Returns the design below a top module, with all names declared and assertions in generate
        blocks named.

        Raises Fault if it is refused."""
        while True:
            try:
                design = self.as_given(top)
            except Fault as why:
                if not self.is_changed(str(why)):
                    raise
                continue
            if not self.is_marked and modules.are_alike(design):
                self.read_on()
                if self.is_changed(UNNAMED):
                    continue
            if self.is_marked:
                # Few designs need it.
                from aigprove.designs.labels import named

                named(design)
            return design

    def is_changed(self, why: str) -> bool:
        """Returns whether the texts were rewritten, so that yosys may read what it refused. `why`
        is its error."""
        is_unread, is_unnamed = UNREAD.search(why), UNNAMED in why
        if self.is_marked or not is_unnamed and (self.rewritten or not is_unread):
            # Assertions can be checked without names of their own.
            unmarked, self.unmarked = self.unmarked, None
            self.rewritten = self.rewritten if unmarked is None else unmarked
            return unmarked is not None
        # Few designs need it.
        from aigprove.designs.labels import marked
        from aigprove.designs.rewriting import rewritten

        texts = self.rewritten or self.expanded()
        made = {path: marked(text) if is_unnamed else rewritten(text, self.options.stops)
                for path, text in texts.items()}
        self.is_marked = bool(is_unnamed)
        if made != texts:
            self.rewritten_in = self.rewritten_in or self.yosys.descriptors
            self.unmarked = self.rewritten if is_unnamed else None
            self.rewritten = made
        return made != texts

    def expanded(self) -> dict[str, bytes]:
        """Returns the preprocessed texts of the Verilog files; none if yosys can't preprocess
        them."""
        given = self.given()
        try:
            reading = self.begin("", EXPANDING, {it: unread(text) for it, text in given.items()})
            reading.printed()
        except TranslationTimeout:
            raise
        except Fault:
            return {}
        return {path: read_again(text) for path, text in zip(given, expanded(reading.data()))}

    def as_given(self, top: str) -> Statement:
        """Returns the design as yosys reads the present texts, after looking up undeclared names if
        it has some."""
        way = DECLARED if self.rewritten else STRICT
        try:
            reading = self.begin(top, way, self.given(), self.rewritten_in)
            texts = list(map(Text, self.rewritten.values() or expanded(reading.data())))
            binds = any(BIND.search(text.words) for text in texts)
            if not WARNED.search(reading.said()) and not binds:
                whole = self.yosys.design("below.il")
                modules.check_names(self.check_texts(texts, whole))
                is_joined = any(JOINED in wire.attributes
                                for module in whole.of("module") for wire in module.of("wire"))
                self.flat = scripts.FLAT_FIRST if is_joined else scripts.FLAT
                return whole
            reading.printed()
        except Fault as why:
            if not REFUSED.search(str(why)):
                raise
        return self.looked_up(top)

    def check_texts(self, texts: Iterable[Text], whole: Statement) -> dict[str, Statement]:
        """Raises Fault if yosys silently misreads a text of the design.

        Notes incomplete sensitivity lists, and returns the modules of the design `whole`."""
        found, nets = modules_of(whole), collections.defaultdict[str, set[str]](set)
        for name, module in found.items():
            nets[source_of(name)] |= {it.name[1:] for it in module.of("wire")}
        self.notes = []
        for text in texts:
            text.check(nets)
            self.notes += [self.yosys.readable(str(text.fault(offset, why)))
                           for offset, why in itertools.islice(lacking(text, nets), MOST_NOTES)]
        return found

    def looked_up(self, top: str) -> Statement:
        """Returns the design after looking up undeclared names, and after inserting bound
        instances."""
        # The patterns of this module take long to compile.
        from aigprove.designs.names import Names

        way = AGAIN if self.rewritten else LOOKING
        reading = self.begin(top, way, self.given(), self.rewritten_in)
        said, before = reading.printed(), self.rewritten_in or self.yosys.descriptors
        texts = self.rewritten or dict(zip(self.given(), expanded(reading.data())))
        self.check_texts(map(Text, texts.values()), self.yosys.design("below.il"))
        if any(BIND.search(Text(text).words) for text in texts.values()):
            texts = bound(texts)
            said = self.begin(top, AGAIN, texts, before).printed()
        names = Names(self.yosys, texts, said)
        try:
            reading = self.begin(top, names.way, names.declaring(), before)
        except Fault as why:
            raise names.unknown(str(why)) or why from None
        self.flat = scripts.FLAT_FIRST
        return names.checked(self.yosys.design("below.il"), reading.said())

    def parameters(self) -> str:
        """Returns the options that set parameters of the top module.

        Raises Fault if it doesn't have one of them: yosys would ignore that."""
        module = modules_of(self.every()).get(f"\\{self.top}")
        known = [it.name[1:] for it in module.of("parameter")] if module else []
        for name, _ in self.options.parameter:
            if name not in known:
                kind = "other_parameters" if known else "no_parameter"
                raise Fault.of(kind, top=self.top, name=name, known=", ".join(known))
        return "".join(f" -chparam {name} {value}" for name, value in self.options.parameter)

    def free_boxes(self, found: Mapping[str, Statement], types: Container[str]) -> None:
        """Turns the black boxes of `--black-box` into modules. Raises Fault if the design has
        another black box."""
        known = set(map(base_of, found))
        for name in self.options.black_box:
            if name not in known:
                raise Fault.of("unknown_box", name=name)
        for name, own in found.items():
            if BOX in own.attributes and base_of(name) in self.options.black_box:
                del own.attributes[BOX]
            elif BOX in own.attributes and name in types:
                raise Fault.of("black_box", name=base_of(name))

    def location(self, place: str) -> str:
        """Returns a source location in the user's files. Columns are left out if the text was
        rewritten."""
        readable = self.yosys.readable(place)
        return COLUMNS.sub(r":\1", readable) if self.rewritten else readable

    def lines_of_unchecked(self, cell: Cell, is_below: bool) -> Iterator[tuple[str, str]]:
        """Yields a line about a property that isn't checked now, with its cell type if another
        query checks it.

        Checked are assertions and assumptions below the top module, later also covers and, with one
        clock, liveness."""
        if cell.type in KINDS and not (is_below and cell.type in CHECKED):
            is_later = is_below and (cell.type == COVER or self.has_lives)
            why = " with --multiclock" * (self.options.multiclock and cell.type in (LIVE, FAIR))
            what = f"{KINDS[cell.type]} {cell.label} ({self.location(cell.place)})"
            line = message("not_asked", what=what, option=why)
            yield cell.type if is_later else "", line

    def put_reset(self) -> None:
        """Writes the modules that count the steps of the reset, and hold it and disable assertions
        meanwhile."""
        assert self.reset
        value, steps = self.reset.value, self.reset.steps
        asked = {"kind": "$assert", "value": "A", "enabled": "EN & left == 0"}
        held = {"kind": "$assume", "value": f"A == {value}", "enabled": "left != 0"}
        cells = [("held", scripts.COUNTING, steps, held), ("asked", scripts.COUNTING, steps, asked)]
        cells.append(("late", scripts.SAMPLING, steps, {})
                     if self.options.multiclock else ("late", scripts.COUNTING, steps + 1, asked))
        for name, text, count, words in cells:
            self.yosys.put(f"aigprove_{name}.v",
                           text.format(steps=count, high=count.bit_length() - 1, **words))

    def resetting(self, late: str) -> str:
        """Returns the commands that insert these modules, or "" without a reset. `late` selects the
        assertions at clock edges."""
        return scripts.RESET.format(signal=self.reset.signal, late=late) if self.reset else ""
