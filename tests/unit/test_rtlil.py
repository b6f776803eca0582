"""Checks the parser of yosys's own language.

Each construct of the language stands in a row that was written by hand, with what it says; other
texts are refused. Random designs are written and read again, and have to be the same, statement for
statement and signal for signal. Where yosys is installed, what it writes of the designs of
tests/verilog is written again: it has to be the same lines, and yosys has to read them as the same
design. Each register and latch of one bit in yosys's library of cells becomes one of any width, of
which simplemap of yosys has to make the first one again."""
from __future__ import annotations

import pathlib
import random
import re
import shutil
import subprocess
from collections.abc import Iterator
from typing import Any

import harness
import pytest
from faults import is_refused
from harness import Checks
from hypothesis import given
from strategies import cases, choices

from aigprove.designs.registers import FINE, widened
from aigprove.designs.rtlil import Part, Statement, constant, parse, write

# A line in a module, what it is, its name, and its signals.
LINES = [
    ("wire \\a", "wire", "\\a"),
    ("wire width 2 offset 1 upto signed input 3 \\a", "wire", "\\a"),
    ("wire width 2 $0\\a[1:0]", "wire", "$0\\a[1:0]"),
    ("wire \\a?", "wire", "\\a?"),
    ("memory width 8 size 16 offset 2 \\m", "memory", "\\m"),
    ("parameter \\W", "parameter", "\\W"),
    ("parameter \\W 8", "parameter", "\\W"),
    ("parameter signed \\W 2'01", "parameter", "\\W"),
    ('parameter \\W "a \\"b\\" \\\\c 8"', "parameter", "\\W"),
    ("cell $add $add$t.v:3$1\n  end", "cell", "$add$t.v:3$1"),
    ("connect \\a \\b", "connect", None),
    ("process $p\n  end", "process", "$p"),
]
# The words of a statement, and its signals, the highest parts first.
SIGNALS = [
    ("\\a \\b", [[Part("\\a")], [Part("\\b")]]),
    ("\\a [3] \\b [4:2]", [[Part("\\a", "", 3, 3)], [Part("\\b", "", 4, 2)]]),
    ("\\a[3] 2'01", [[Part("\\a[3]")], [Part("", "01")]]),
    ("4'x 3'01x", [[Part("", "xxxx")], [Part("", "01x")]]),
    (
        "4'10 4'z1 2'-1 0'",
        [[Part("", "1110")], [Part("", "zzz1")], [Part("", "-1")], [Part("", "")]],
    ),
    (
        "{ \\a [1] 2'01 \\b } \\c",
        [[Part("\\a", "", 1, 1), Part("", "01"), Part("\\b")], [Part("\\c")]],
    ),
    ("{ \\a { \\b \\c } \\d }", [[Part("\\a"), Part("\\b"), Part("\\c"), Part("\\d")]]),
    ("{ }", [[]]),
    ("[3 \\a", [[Part("[3")], [Part("\\a")]]),
    ("2'01 , 2'1x , \\a", [[Part("", "01")], [Part("", "1x")], [Part("\\a")]]),
]
# Those of these words that have one spelling.
SPELLED = ["\\a \\b", "\\a [3] \\b [4:2]", "{ \\a [1] 2'01 \\b } \\c", "{ }"]
# Signals, and the bits of those that are constants.
CONSTANTS = [
    ([Part("", "01"), Part("", "x")], "01x"),
    ([Part("", "01"), Part("\\a")], ""),
    ([Part("\\a")], ""),
]
# A process, in which each kind of statement is in another, by their depths.
PROCESS = """module \\top
  process $p
    attribute \\src "t.v:1.1-2.2"
    assign $0\\q \\d
    attribute \\full_case 1
    attribute \\src "t.v:3.1-4.4"
    switch \\s
      case 1'0
        assign $0\\q 1'0
        switch \\r
          case 2'00 , 2'01
            assign $0\\q 1'1
          case
        end
      attribute \\src "t.v:4.1-4.4"
      case
    end
    sync posedge \\clk
      update \\q $0\\q
      memwr \\m \\address \\data \\enable 1'0
    sync init
      update \\q 1'x
    sync always
    sync global
  end
end
"""
DEPTHS = [
    (0, "module"),
    (1, "process"),
    (2, "assign"),
    (2, "switch"),
    (3, "case"),
    (4, "assign"),
    (4, "switch"),
    (5, "case"),
    (6, "assign"),
    (5, "case"),
    (3, "case"),
    (2, "sync"),
    (3, "update"),
    (3, "memwr"),
    (2, "sync"),
    (3, "update"),
    (2, "sync"),
    (2, "sync"),
]
EARLY, UNKNOWN = "what yosys writes ends too early", "yosys writes a line that isn't known: {}"
REFUSED = [
    ("module \\top\n", EARLY),
    ("module \\top\n  attribute \\a 1\n", EARLY),
    ("attribute \\a 1\n", EARLY),
    ("module \\top\n  process $p\n    sync init\n  end\n", EARLY),
    ("module \\top\n  wires \\a\nend\n", UNKNOWN.format("wires \\a")),
    ("end\n", UNKNOWN.format("end")),
    ("module \\top\n  cell \\a \\b\n    wire \\c\n  end\nend\n", UNKNOWN.format("wire \\c")),
    (
        "module \\top\n  process $p\n    sync init\n      assign \\a \\b\n  end\nend\n",
        UNKNOWN.format("assign \\a \\b"),
    ),
]
BODIES = {
    "module": ["wire", "memory", "parameter", "cell", "process", "connect"],
    "cell": ["parameter", "connect"],
    "process": ["assign", "switch", "sync"],
    "switch": ["case"],
    "case": ["assign", "switch"],
    "sync": ["update", "memwr"],
}
NAMES = [
    "\\a", "\\b.c", "$1\\d[1:0]", "\\e[3]", "$add$t.v:3$4_Y", "\\end", "\\case",
    "$paramod\\m\\W=s32'1",
]


def described(
    statement: Statement, depth: int = 0
) -> Iterator[tuple[int, str, str, list[tuple[str, str]]]]:
    """A statement and all that belongs to it, with what each has, by their depths."""
    yield depth, statement.kind, statement.text, list(statement.attributes.items())
    for it in statement.body:
        yield from described(it, depth + 1)


@pytest.mark.parametrize("line, kind, name", LINES)
def test_line(checks: Checks, line: str, kind: str, name: str | None) -> None:
    """A line of a module has its kind, its name, its attributes, and is written again as it was."""
    text = (
        'attribute \\src "t.v:1.1-9.9"\nmodule \\top\n  attribute \\src "t.v:2.1-3.3"\n  attribute'
        f" \\keep 1\n  {line}\nend\n"
    )
    [it] = parse(text).body[0].body
    found = (
        it.kind, it.name if name else None, it.source, it.attributes["\\keep"], write(parse(text)),
    )
    checks.wants(line, (kind, name, "t.v:2.1-3.3", "1", text), found)


@pytest.mark.parametrize("words, wanted", SIGNALS)
def test_signals(words: str, wanted: list[list[Part]]) -> None:
    """The words of a statement are signals."""
    assert Statement("connect", words).signals() == wanted


@pytest.mark.parametrize("words, signals", [row for row in SIGNALS if row[0] in SPELLED])
def test_spelled(words: str, signals: list[list[Part]]) -> None:
    """Signals become the words of a statement."""
    it = Statement("connect")
    it.put(signals)
    assert it.text == words


@pytest.mark.parametrize("signal, bits", CONSTANTS)
def test_constant(signal: list[Part], bits: str) -> None:
    """A signal that is constants alone has bits."""
    assert constant(signal) == bits


@pytest.mark.parametrize("text, why", REFUSED)
def test_refused(text: str, why: str) -> None:
    """A text that isn't in yosys's language is refused."""
    assert is_refused(parse, text) == why


def test_process(checks: Checks) -> None:
    """A process, with what is in it, and what statements say of themselves."""
    design = parse(f"# Generated by a test\nautoidx 7\n{PROCESS}")
    checks.wants(
        "a process", DEPTHS, [(depth - 1, kind) for depth, kind, *_ in described(design)][2:]
    )
    checks.wants("a process that is written", f"autoidx 7\n{PROCESS}", write(design))
    process = design.of("module")[0].of("process")[0]
    checks.wants(
        "places", ["t.v:1.1-2.2", "t.v:3.1-4.4", ""], [it.source for it in process.body[:3]]
    )
    checks.wants("words", ["\\W", '"a b"', "c"], Statement("parameter", '\\W "a b" c').words())
    checks.wants("no words", ("", {}), (Statement("connect").text, Statement("connect").attributes))
    checks.wants("a place", "t.v?", Statement("wire", "\\a", {"\\src": '"t.v?"'}).source)
    checks.wants(
        "a type", "$add", parse("module \\top\n  cell $add \\a\n  end\nend\n").body[0].body[0].type
    )


def random_part(rng: random.Random) -> Part:
    if rng.random() < 0.4:
        return Part("", "".join(rng.choice("01xz-") for _ in range(rng.randrange(1, 9))))
    high = rng.choice([None, rng.randrange(20)])
    return Part(rng.choice(NAMES), "", high, None if high is None else rng.randrange(high + 1))


def random_signal(rng: random.Random) -> list[Part]:
    return [random_part(rng) for _ in range(rng.choice([0, 1, 1, 2, 3]))]


def random_statement(rng: random.Random, kind: str, depth: int) -> Statement:
    """A statement, its signals, and what belongs to it."""
    it = Statement(kind, rng.choice(NAMES))
    for name in rng.sample(NAMES, rng.choice([0, 0, 1, 2])):
        it.attributes[name] = rng.choice(["1", '"t.v:1.1-2.2"', '"a \\"end\\" b"'])
    if kind in ("connect", "assign", "update", "switch", "case"):
        it.put([random_signal(rng) for _ in range(1 if kind == "switch" else 2)])
    if kind == "cell":
        it.text = f"{rng.choice(NAMES)} {it.text}"
    if depth < 7:
        it.body = [
            random_statement(rng, rng.choice(BODIES[kind]), depth + 1)
            for _ in range(rng.randrange(4) if kind in BODIES else 0)
        ]
        # Syncs stand behind all else.
        it.body.sort(key=lambda own: bool(own.kind == "sync"))
    return it


def random_design(rng: random.Random) -> Statement:
    """A design of a few modules."""
    design = Statement("design")
    design.body = [random_statement(rng, "module", 0) for _ in range(rng.randrange(3))]
    return design


@cases(300)
@given(rng=choices())
def test_random_design(checks: Checks, rng: random.Random) -> None:
    """A random design is the same once it was written and read again."""
    design = random_design(rng)
    again = parse(write(design))
    checks.wants("a design", list(described(design)), list(described(again)))


@cases(300)
@given(rng=choices())
def test_random_signal(checks: Checks, rng: random.Random) -> None:
    """A random signal is the same once it was put into a statement."""
    signal, it = random_signal(rng), Statement("connect")
    it.put([signal, random_signal(rng)])
    checks.wants("a signal", signal, it.signals()[0])


def plain(text: str) -> list[str]:
    """The lines of a text, without comments, blanks at their ends, and the numbers that yosys
    counts on with."""
    return [line.rstrip() for line in text.splitlines() if not re.match("#|autoidx", line)]


def unordered(row: tuple[int, str, str, list[tuple[str, str]]]) -> list[Any]:
    """A statement that is described, whatever the order of its attributes."""
    *own, attributes = row
    return [*own, sorted(attributes)]


def registers() -> Statement:
    """A module with each register and latch of one bit in yosys's library, whose ports have nets of
    their own."""
    library = (
        pathlib.Path(shutil.which("yosys") or "yosys").resolve().parent.parent
        / "share"
        / "yosys"
        / "simcells.v"
    )
    lines = ["module \\top"]
    for i, (kind, ports) in enumerate(
        re.findall(r"^module \\(\$_\S+?_) \((.*?)\);", library.read_text(), re.MULTILINE)
    ):
        if FINE.fullmatch(kind) and re.search("FF|LATCH|SR", kind):
            names = {port: f"\\n{i}_{port}" for port in ports.split(", ")}
            lines += [f"  wire {name}" for name in names.values()]
            lines += [
                f"  cell {kind} \\c{i}",
                *(f"    connect \\{port} {name}" for port, name in names.items()), "  end",
            ]
    return parse("\n".join([*lines, "end", ""]))


def by_output(design: Statement) -> dict[str, Any]:
    """The type and the ports of each cell of a design, by the net that its output drives."""
    cells = [
        (cell.type, dict(it.text.split(" ") for it in cell.of("connect")))
        for module in design.of("module")
        for cell in module.of("cell")
    ]
    return {ports["\\Q"]: (kind, ports) for kind, ports in cells}


@pytest.mark.yosys
def test_of_one_bit(checks: Checks, folder: pathlib.Path) -> None:
    """Registers and latches of one bit that become such of any width."""
    wide, fine = registers(), by_output(registers())
    widened(wide)
    checks.check(
        len(fine) > 100 and not any(FINE.fullmatch(kind) for kind, _ in by_output(wide).values()),
        f"{len(fine)} registers become wide",
    )
    (folder / "wide.il").write_text(write(wide))
    script = "read_rtlil wide.il; simplemap; write_rtlil fine.il"
    harness.output(["yosys", "-q", "-p", script], cwd=folder)
    again = by_output(parse((folder / "fine.il").read_text()))
    for net, cell in fine.items():
        checks.wants(net, cell, again.get(net))


PASSES = [
    "", "; hierarchy -auto-top; proc; opt", "; hierarchy -auto-top; proc; flatten; memory -nomap",
]
VERILOG = [
    *sorted((harness.TESTS / "verilog").glob("*.sv")),
    *sorted((harness.TESTS / "verilog").glob("*.v")),
]


@pytest.mark.yosys
@pytest.mark.parametrize("passes", PASSES)
@pytest.mark.parametrize("path", VERILOG, ids=[path.name for path in VERILOG])
def test_what_yosys_writes(
    checks: Checks, folder: pathlib.Path, path: pathlib.Path, passes: str
) -> None:
    """What yosys writes of a design, and reads again."""
    script = f"read_verilog -formal -sv {path}{passes}; write_rtlil {folder}/given.il"
    if (
        subprocess.run(
            ["yosys", "-q", "-p", script], capture_output=True, cwd=path.parent
        ).returncode
        == 0
    ):
        text = (folder / "given.il").read_text()
        (folder / "made.il").write_text(write(parse(text)))
        checks.wants("what is written", plain(text), plain((folder / "made.il").read_text()))
        script = f"read_rtlil {folder}/made.il; write_rtlil {folder}/again.il"
        harness.output(["yosys", "-q", "-p", script])
        # Yosys writes attributes in the order of its names.
        again = described(parse((folder / "again.il").read_text()))
        is_same = [*map(unordered, described(parse(text)))][2:] == [*map(unordered, again)][2:]
        checks.check(is_same, "what yosys reads")
