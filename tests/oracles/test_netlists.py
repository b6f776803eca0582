"""Compares designs with the netlists that yosys makes of them, by bin/aigprove --equal.

Modules of the tests and examples in Debian's source package yosys, each beside its netlist, by the
scripts of FLOWS in turn, and beside a mutant of that: one cell has another function, or a constant
at an input. The package is fetched by apt-get; where that can't be had the test is skipped.

Yosys's own SAT solver says whether both can differ in the first steps, in models that it makes by
other passes: at first, registers of the same name, without initial value, have the same value in
both. `equal at every step` is wrong where it finds a difference, and a difference where it finds
none up to that step. Where it finds one between a design and its netlist, unchanged, one of them
has to have a register without initial value that the other hasn't, as two that are one in the
netlist, or the script one of the passes for state machines: there yosys chose what the design
leaves open. Else the answer is wrong. All else is counted: what aigprove refuses, as that the
design alone has a free value for an x; what is open after 20 seconds; what it says of files that
both have such values; and what yosys doesn't say.

The test fails where an answer is wrong, and prints, with -s, of the pairs that ABC answers, by
`dsec`, or by `cec` where there are no latches, those that take more than a second longer than that
takes on the files in AIGER form, each of TIMES times; and one line with the counts and the median
seconds. Who has RTL needs yosys before ABC. So the line also says how many pairs take at most a
second more than both: yosys makes the files by BITS. The tools are yosys, cadical and ABC.
"""
import collections
import itertools
import json
import pathlib
import random
import re
import shutil
import statistics
import tarfile
import time

import harness
import pytest
import strategies
from harness import PROVE, TOOL
from sources import sources

# Folders of plain Verilog, and what begins a module.
KINDS = [
    "simple", "asicworld", "hana", "various", "memories", "opt", "sat", "sim", "verilog", "svtypes",
    "arch/common",
]
FOLDERS = [*(f"tests/{kind}" for kind in KINDS), "examples"]
MODULE = re.compile(r"^\s*module\s+(?:automatic\s+)?([A-Za-z_]\w*)", re.MULTILINE)
# How many modules are drawn, and with --long.
FEW, MANY = 10, 60
# How many cells a netlist has at most, seconds for an answer, in how many steps a difference is
# looked for that nobody told, and the most.
MOST, SECONDS, STEPS, MOST_STEPS = 2000, 20, 6, 40
# How often a pair is timed at most: other work on the machine only makes it slower.
TIMES = 3
# How netlists are made in turn, and whether they are written as instances of cells, with a library
# of these, which has no initial values. The passes for state machines, which -nofsm leaves out,
# take it that these begin in a state that they know.
FLOWS = [
    ("synth -flatten -top {top}", False),
    ("synth -flatten -top {top}; abc -g AND,OR,XOR", True),
    ("synth -flatten -noabc -top {top}", False),
    ("synth -top {top}", False),
    ("synth -flatten -nofsm -top {top}", True),
    ("synth -flatten -lut 4 -top {top}", False),
    ("prep -flatten -top {top}", False),
    ("synth -flatten -nofsm -top {top}; dffunmap; abc -g NAND", True),
]
READ = "read_verilog -sv -formal {file}\nhierarchy -check {top}\n"
MAKE = READ + """select -assert-none t:$assert t:$assume t:$cover t:$live t:$fair
{flow}
select -assert-max {most} t:*
write_json {made}/ports.json
write_rtlil {made}/netlist.il
"""
WRITE = "read_rtlil {made}/{name}.il\nwrite_verilog -noattr {form} {made}/{name}.v\n"
# A design flat, before and behind what makes its registers such of one clock, where cells stay and
# what they hold may have no name.
FLAT = READ + """proc
flatten
memory_collect
memory_map
opt_clean
write_json {made}/{name}-before.json
async2sync
setundef -undriven -zero
write_json {made}/{name}-behind.json
design -reset
"""
CHECK = """read_json {made}/gold.json
read_json {made}/gate.json
miter -equiv -flatten gold gate miter
sat -timeout {seconds} -seq {steps} {alike} -prove trigger 0 miter
"""
ALIKE = "-set-at 1 gold.starts gate.starts"
# How a file in AIGER form is made without aigprove.
BITS = READ + """synth -flatten {top}
async2sync
dffunmap
abc -g AND
opt_clean
aigmap
write_aiger -symbols {made}/bits.aig
"""
# By the type of a cell: others with the same ports and another function.
SWAPS = {
    "$_AND_": ["$_OR_", "$_NAND_", "$_ANDNOT_"],
    "$_OR_": ["$_AND_", "$_NOR_", "$_ORNOT_"],
    "$_XOR_": ["$_XNOR_", "$_OR_"],
    "$_NAND_": ["$_AND_", "$_NOR_"],
    "$_NOR_": ["$_OR_", "$_NAND_"],
    "$_XNOR_": ["$_XOR_"],
    "$_ANDNOT_": ["$_AND_"],
    "$_ORNOT_": ["$_OR_"],
    "$_MUX_": ["$_NMUX_"],
    "$and": ["$or"],
    "$or": ["$and"],
    "$xor": ["$xnor", "$or"],
    "$not": ["$pos"],
    "$add": ["$sub"],
    "$sub": ["$add"],
    "$eq": ["$ne"],
    "$ne": ["$eq"],
    "$lt": ["$le"],
    "$ge": ["$gt"],
    "$logic_and": ["$logic_or"],
    "$logic_or": ["$logic_and"],
    "$reduce_or": ["$reduce_and"],
    "$reduce_and": ["$reduce_or"],
}
# A cell's name in Verilog, and each of yosys's library.
USED = re.compile(r"\\\$(_[A-Z0-9]+_(?:[A-Z0-9]+_)?) ")
LIBRARY = re.compile(r"^module \\\$(_\w+_) \(.*?^endmodule\n", re.MULTILINE | re.DOTALL)
NAMED = re.compile(r"^i[0-9]+ (.*)$", re.MULTILINE)
CELL = re.compile(r"^  cell (\$\S+) (.*)$")
INPUT = re.compile(r"^(    connect \\[ABDERS] )(\S+|\S+ \[[0-9]+\])$")
DIFFERENCE = re.compile(r"^a difference at step ([0-9]+)", re.MULTILINE)
ANSWERS = {20: "equal", 10: "different", 0: "open", 1: "refused"}


def fetched(folder):
    """Whether the folders of the source package are put into a folder, which they can't be where it
    can't be had."""
    path = sources("yosys", folder)
    if path is None:
        return False
    with tarfile.open(path) as archive:
        for member in archive.getmembers():
            path = member.name.partition("/")[2]
            if member.isfile() and path.startswith(tuple(f"{it}/" for it in FOLDERS)):
                (folder / path).parent.mkdir(parents=True, exist_ok=True)
                (folder / path).write_bytes(archive.extractfile(member).read())
    return True


def modules(folder):
    """Each file of the folders, and each module in it."""
    for place in FOLDERS:
        for file in sorted((folder / place).rglob("*.*v")):
            for name in dict.fromkeys(
                MODULE.findall(file.read_text(encoding="utf-8", errors="replace"))
            ):
                yield file, name


def yosys(script, folder):
    """What yosys prints where it runs a script in a folder; None where it fails."""
    status, printed, _ = harness.run(
        ["yosys", "-p", script.replace("\n", "; ")], cwd=folder, timeout=3 * SECONDS
    )
    return printed.decode("utf-8", "replace") if status == 0 else None


def mutants(text):
    """All changes of one line of a netlist in yosys's language: the number of the line, and the new
    one."""
    kind = ""
    for i, line in enumerate(text.split("\n")):
        if cell := CELL.match(line):
            kind = cell[1]
            yield from ((i, f"  cell {other} {cell[2]}") for other in SWAPS.get(kind, []))
        elif kind.startswith("$_") and (found := INPUT.match(line)):
            yield from ((i, f"{found[1]}1'{value}") for value in "01")


def top_of(path):
    """The top module of a design in JSON."""
    return next(
        it for it in json.loads(path.read_text())["modules"].values() if "top" in it["attributes"]
    )


def bit_names(module):
    """The public names of each bit of a module."""
    names = collections.defaultdict(list)
    for name, net in module["netnames"].items():
        if not net["hide_name"]:
            places = range(net.get("offset", 0), net.get("offset", 0) + len(net["bits"]))
            for place, bit in zip(reversed(places) if net.get("upto") else places, net["bits"]):
                names[bit].append(f"{name}[{place}]")
    return names


def opened(before, behind):
    """What holds the values of registers without initial value, by all names that the registers
    have, and the number of such bits."""
    names, initial = bit_names(before), {}
    for net in behind["netnames"].values():
        values = reversed(net["attributes"].get("init", "").rjust(len(net["bits"]), "x"))
        initial.update((bit, value) for bit, value in zip(net["bits"], values) if value in "01")
    found, count = {}, 0
    for name, cell in before["cells"].items():
        later = behind["cells"].get(name, {"connections": {}})["connections"].get("Q", [])
        for bit, held in zip(cell["connections"].get("Q", []), later):
            if held not in initial:
                count += 1
                found.update((it, held) for it in names[bit])
    return found, count


class Pair:
    """A module of a file, and a netlist of it in a folder, which was made by a script, and perhaps
    changed."""

    def __init__(self, file, top, folder, flow, name):
        self.file, self.top, self.folder, self.flow, self.name, self.is_changed = (
            file, top, folder, flow, name, name == "mutant",
        )
        self.netlist, self.kept = folder / f"{name}.v", folder / f"{name}-kept"

    def __str__(self):
        return f"{'/'.join(self.file.parts[-2:])}, {self.top}, {self.flow}, {self.name}"

    def asked(self, *words):
        """What aigprove ends with, prints and says, and the seconds that it takes."""
        begun = time.monotonic()
        words = [
            "--equal", self.netlist, self.file, "--top", self.top, "--timeout", str(SECONDS),
            *words,
        ]
        return *harness.run([PROVE, *words]), time.monotonic() - begun

    def ask(self):
        """Asks aigprove: what it answers."""
        self.status, printed, said, self.seconds = self.asked("--keep", self.kept)
        self.printed = (printed + said).decode("utf-8", "replace")
        step = DIFFERENCE.search(self.printed)
        self.steps = int(step[1]) + 1 if step else STEPS
        return ANSWERS.get(self.status, "broken")

    def sides(self):
        """Both, each with its name, its file and the words that say which module is at its top."""
        return [("gold", self.file, f"-top {self.top}"), ("gate", self.netlist, "-auto-top")]

    def flatten(self, answer):
        """Makes flat models of both, in which a signal has what the registers hold that both have;
        whether yosys does. To refute `equal` these are all of the same name, and to refute a
        difference those alone that have the names of no two registers of the other."""
        scripts = (
            FLAT.format(file=file, top=top, made=self.folder, name=name)
            for name, file, top in self.sides()
        )
        if yosys("".join(scripts), self.file.parent) is None:
            return False
        before, behind = (
            [top_of(self.folder / f"{name}-{when}.json") for name, *_ in self.sides()]
            for when in ["before", "behind"]
        )
        (gold, ours), (gate, theirs) = map(opened, before, behind)
        pairs = {(gold[name], gate[name]) for name in gold.keys() & gate.keys()}
        times = collections.Counter(("gold", bit) for bit, _ in pairs) + collections.Counter(
            ("gate", bit) for _, bit in pairs
        )
        single = {it for it in pairs if times["gold", it[0]] == times["gate", it[1]] == 1}
        self.alone = ours + theirs - 2 * len(single)
        self.shared = sorted(pairs if answer == "equal" else single)
        for i, (name, module) in enumerate(zip(["gold", "gate"], behind)):
            if self.shared:
                module["netnames"]["starts"] = {
                    "hide_name": 0,
                    "bits": [it[i] for it in self.shared],
                    "attributes": {},
                }
            (self.folder / f"{name}.json").write_text(json.dumps({"modules": {name: module}}))
        self.ports = behind[0]["ports"]
        return True

    def differs(self):
        """Whether both can differ in the steps up to that of the difference, as yosys's solver
        says; None where it doesn't say that."""
        words = {
            "made": self.folder,
            "seconds": SECONDS,
            "steps": self.steps,
            "alike": ALIKE if self.shared else "",
        }
        printed = (self.steps <= MOST_STEPS and yosys(CHECK.format(**words), self.folder)) or ""
        return (
            True
            if "- model found: FAIL!" in printed
            else False if "no model found: SUCCESS!" in printed else None
        )

    def has_free(self):
        """Whether a file that was compared has an input beside those of the design, for a free
        value."""
        texts = (
            harness.output([TOOL, "text", next(self.kept.glob(f"{name}.a[ai]g"))])
            for name in ["file", "other"]
        )
        names = (name for text in texts for name in NAMED.findall(text))
        return any(
            not any(part.partition("[")[0] in self.ports for part in name.split(" "))
            for name in names
        )

    def is_chosen(self):
        """Whether yosys may have chosen what the design leaves open of a register's value at
        first."""
        return (
            self.alone
            or self.shared
            and self.flow.startswith("synth")
            and "-nofsm" not in self.flow
        )

    def judged(self):
        """What is to be counted of the answer, and whether it is wrong."""
        answer = self.ask()
        if answer not in ("equal", "different"):
            return answer, answer == "broken"
        if not self.flatten(answer):
            return f"{answer}, unchecked", not self.is_changed and answer == "different"
        if self.has_free():
            return f"{answer} with free values", False
        differs = self.differs()
        by_choice = (
            " by choice"
            if answer == "different" and not self.is_changed and self.is_chosen()
            else ""
        )
        is_wrong = (
            differs
            if answer == "equal"
            else differs is False or not self.is_changed and not by_choice
        )
        return answer + by_choice + ", unchecked" * (differs is None), is_wrong

    def by_abc(self):
        """The seconds of ABC's dsec on the same files, or of cec, where they have no latches; None
        where it has no answer."""
        made = []
        for name in ["file", "other"]:
            file = next(self.kept.glob(f"{name}.a[ai]g"))
            made.append(self.folder / f"{name}-abc.aig")
            harness.output([TOOL, "binary", file, made[-1]])
        for command in ["dsec", "cec"]:
            begun = time.monotonic()
            _, printed, _ = harness.run(
                ["berkeley-abc", "-q", f"{command} -n {made[0]} {made[1]}"], timeout=SECONDS
            )
            if b"EQUIVALENT" in printed.upper():
                return time.monotonic() - begun
        return None

    def timed(self):
        """The least seconds of the same answer and of ABC's; None where ABC has none."""
        ours, by_abc = self.seconds, self.by_abc()
        for i in range(1, TIMES):
            if by_abc is not None and ours > by_abc + 1:
                status, *_, seconds = self.asked("--keep", f"{self.kept}-{i}")
                ours, by_abc = min(ours, seconds if status == self.status else ours), min(
                    by_abc, self.by_abc() or by_abc
                )
        return by_abc and (ours, by_abc)

    def by_yosys(self):
        """The seconds in which yosys makes files in AIGER form of both, one after the other; None
        where it doesn't."""
        begun = time.monotonic()
        for _, file, top in self.sides():
            if yosys(BITS.format(file=file, top=top, made=self.folder), self.file.parent) is None:
                return None
        return time.monotonic() - begun


def written(folder, name, has_cells):
    """Whether yosys writes a netlist in Verilog."""
    form = "-noexpr" if has_cells else ""
    if yosys(WRITE.format(made=folder, name=name, form=form), folder) is None:
        return False
    if has_cells:
        file, cells = folder / f"{name}.v", library()
        text = file.read_text()
        used = [cells[it] for it in sorted(set(USED.findall(text))) if it in cells]
        file.write_text(USED.sub(r"cell\1 ", "".join([text, *used])))
    return True


def library():
    """The text of each cell of yosys's library."""
    yosys = pathlib.Path(shutil.which("yosys")).resolve()
    return {
        found[1]: found[0]
        for found in LIBRARY.finditer(
            (yosys.parent.parent / "share" / "yosys" / "simcells.v").read_text()
        )
    }


def takes(file, top, folder, flow, has_cells, rng):
    """Whether a module is taken: whether yosys makes a netlist of it, and a mutant is drawn, in a
    folder."""
    folder.mkdir(parents=True)
    words = {
        "file": file,
        "top": f"-top {top}",
        "made": folder,
        "most": MOST,
        "flow": flow.format(top=top),
    }
    if yosys(MAKE.format(**words), file.parent) is None:
        return False
    ports = top_of(folder / "ports.json")["ports"].values()
    kinds = {port["direction"] for port in ports if port["bits"]}
    text = (folder / "netlist.il").read_text()
    changes = list(mutants(text))
    if not changes or "'z" in text or kinds not in ({"input", "output"}, {"output"}):
        return False
    lines, (i, line) = text.split("\n"), rng.choice(changes)
    lines[i] = line
    (folder / "mutant.il").write_text("\n".join(lines))
    has_cells = has_cells and "attribute \\init" not in text
    return all(written(folder, name, has_cells) for name in ["netlist", "mutant"])


def taken(folder, count, seed):
    """So many modules that are taken, each with its file, its own folder and the script of its
    netlist."""
    found, flows = list(modules(folder)), itertools.cycle(FLOWS)
    random.Random(seed).shuffle(found)
    flow, has_cells = next(flows)
    for i, (file, top) in enumerate(found):
        made = folder / "made" / str(i)
        if count and takes(file, top, made, flow, has_cells, random.Random(f"{seed} {i}")):
            yield file, top, made, flow
            count -= 1
            flow, has_cells = next(flows)


@pytest.fixture(scope="module")
def place(tmp_path_factory):
    """A folder with the tests of yosys."""
    folder = tmp_path_factory.mktemp("yosys")
    if not fetched(folder):
        pytest.skip("the tests of yosys can't be had")
    return folder


class Times:
    """Seconds of answers, and of ABC and yosys for the same pairs; and which answers took more than
    a second longer than ABC's."""

    def __init__(self):
        self.both, self.slow, self.making = [], [], []

    def add(self, pair):
        """Takes the times of a pair that ABC answers."""
        if pair.status not in (10, 20) or not (both := pair.timed()):
            return
        ours, by_abc = both
        self.both.append(both)
        self.slow += [f"{pair}: {ours:.2f} s"] * (ours > by_abc + 1)
        if (by_yosys := pair.by_yosys()) is not None:
            self.making.append((by_yosys, ours <= by_abc + by_yosys + 1))

    def print(self):
        medians = ", ".join(
            f"{statistics.median(it):.2f}"
            for it in [*zip(*self.both), [it for it, _ in self.making]]
            if it
        )
        within = (
            f"{len(self.both) - len(self.slow)} of {len(self.both)} that ABC answers within a"
            " second more than it"
        )
        within += (
            f", {sum(is_within for _, is_within in self.making)} of {len(self.making)} within a"
            " second more than it and yosys"
        )
        print(
            "".join(f"SLOW: {line}\n" for line in self.slow)
            + f"{within}; median seconds, and those of ABC and of yosys: {medians}"
        )


@pytest.mark.yosys
@pytest.mark.cadical
@pytest.mark.abc
@pytest.mark.network
def test_netlists(place, checks):
    """aigprove compares netlists with their modules as yosys does, and in about ABC's time."""
    harness.compile_aigprove()
    times, count = Times(), MANY if strategies.is_long else FEW
    for it in taken(place, count, strategies.seed):
        for name in ["netlist", "mutant"]:
            pair = Pair(*it, name)
            kind, is_wrong = pair.judged()
            checks.check(not is_wrong, f"{pair}: {kind}: {pair.printed}")
            times.add(pair)
    times.print()
    assert times.both
