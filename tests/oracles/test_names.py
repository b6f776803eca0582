"""Asks bin/aigprove about designs that look into instances by names, beside a simulator that runs
the same text.

Icarus binds names into other modules itself. It is given each design as it is, but for assertions,
assumptions and covers: these tell a testbench that they fail or hold. The testbench puts each state
and each value of the inputs, and prints what is told, and the next state that an edge of the clock
makes. From this table a search finds the first step in which each assertion fails and each cover
holds, on runs that meet all assumptions. aigprove has to give the same step, or that there is none.

The designs are those of names/table.txt and names/silent.txt, which has what yosys alone would read
otherwise without a word, with a twin for Icarus where that doesn't read it; and random ones. A row
says by `refused` with which words aigprove is to refuse a design, by `illegal` that Icarus refuses
it, too. Of random designs that aigprove refuses no more than a sixth may be. The tools are yosys,
cadical, ABC and Icarus Verilog (iverilog, vvp).
"""
import collections
import dataclasses
import json
import re

import harness
import pytest
from harness import PROVE, TESTS
from hypothesis import given
from random_names import random_names
from strategies import cases, choices
from trials import fresh

TABLES = [TESTS / "names" / name for name in ["table.txt", "silent.txt"]]
# What Icarus is given in the place of a design that it doesn't read, line by line.
DESIGN, TWIN = "design.sv", "twin.sv"
PART = re.compile(r"(state|free|words|refused|illegal): ?(.*)")
FILE = re.compile(r"-- (\S+)\n")
SIGNAL = re.compile(r"(\S+?)(?:\[(\d+):0\])?")
PROPERTY = re.compile(r"(?:\b\w+ *: *)?\b(assert|assume|cover) *\(")
# How many random designs may be refused: one of so many.
REFUSED = 6
BENCH = """module tb;
  reg clk = 0, now = 0;
  reg [{free_end}:0] free = 0;
  integer state, value, phase = 0;
  reg [63:0] at_step, at_edge;
  task automatic note(input integer number);
    if (phase == 1) at_step[number] = 1;
    else if (phase == 2) at_edge[number] = 1;
  endtask
  {top} dut({ports});
  initial begin
    #1 $display("%b", {{{state}}});
    // Blocks that wait for a change run once.
    {{{state}}} = -1; free = -1; #1;
    for (state = 0; state < 2**{state_bits}; state = state + 1)
      for (value = 0; value < 2**{free_bits}; value = value + 1) begin
        {{{state}}} = state; free = value; now = 0; #1;
        at_step = 0; at_edge = 0; phase = 1; now = 1; #1;
        phase = 2; clk = 1; #0 phase = 0; #1;
        $display("%0d %0d %0d %0d", state, {{{state}}}, at_step, at_edge);
        clk = 0; #1;
      end
    $finish(0);
  end
endmodule
"""


def widths(words):
    """The widths of signals by their names."""
    return {
        name: int(end or 0) + 1
        for name, end in (SIGNAL.fullmatch(word).groups() for word in words.split())
    }


def closing(text, place):
    """Where the bracket is closed that is opened before this place."""
    depth = 1
    while depth:
        depth += {"(": 1, ")": -1}.get(text[place], 0)
        place += 1
    return place


def told(text, first):
    """A text in which properties, numbered from the first on, tell the testbench when they fail or
    are covered, and their kinds by number."""
    parts, last, kinds = [], 0, []
    for found in PROPERTY.finditer(text):
        end = closing(text, found.end())
        condition = "" if found[1] == "cover" else "!"
        what = (
            f"if ((tb.now | 1'b1) && {condition}({text[found.end():end - 1]}))"
            f" tb.note({first + len(kinds)})"
        )
        kinds.append((found[1], text.count("\n", 0, end) + 1))
        parts += [text[last:found.start()], what]
        last = end
    return "".join([*parts, text[last:]]), kinds


@dataclasses.dataclass
class Design:
    """A design: its name, its files by their names, and what is said of it."""

    name: str
    files: dict
    parts: dict
    twin: str = ""
    top: str = "top"

    def signals(self, part):
        return widths(self.parts.get(part, ""))

    def bits(self, part):
        return sum(self.signals(part).values())

    def bench(self):
        """The testbench."""
        free, place = [".clk(clk)"], 0
        for name, width in reversed(self.signals("free").items()):
            free.append(f".{name}(free[{place + width - 1}:{place}])")
            place += width
        state = ", ".join(f"dut.{name}" for name in self.signals("state"))
        bits = {
            "state_bits": self.bits("state"),
            "free_bits": self.bits("free"),
            "free_end": max(self.bits("free") - 1, 0),
        }
        return BENCH.format(top=self.top, ports=", ".join(free), state=state, **bits)

    def write(self, folder):
        """Writes the files, as they are and as Icarus takes them, and gives the kind and the place
        of each property by its number."""
        (folder / "icarus").mkdir()
        for name, text in self.files.items():
            (folder / name).write_text(text)
        properties = []
        for name, text in ({DESIGN: self.twin} if self.twin else self.files).items():
            changed, kinds = told(text, len(properties))
            properties += [(kind, f"{name}:{line}") for kind, line in kinds]
            (folder / "icarus" / name).write_text(changed)
        (folder / "icarus" / "tb.v").write_text(self.bench())
        return properties

    def simulated(self, folder):
        """The first state, where x is open, and rows of what Icarus finds; None where it refuses
        the design."""
        words = [
            "iverilog", "-g2012", "-s", "tb", "-o", "run", *([DESIGN] if self.twin else self.files),
            "tb.v",
        ]
        status, _, said = harness.run(words, cwd=folder / "icarus")
        if status != 0:
            return None, said.decode()
        _, printed, said = harness.run(["vvp", "-n", "run"], cwd=folder / "icarus")
        first, *rows = printed.decode().split("\n")
        return (first, rows[:-1]) if rows else (None, said.decode())

    def asked(self, folder, *how):
        """How aigprove ends, what it says, and its answers: pairs of a kind and a place with the
        step in which it is reached, or None."""
        words = [
            "--each", "-q", "--top", self.top, "--json", "out.json", "--timeout", "60", *how,
            *self.parts.get("words", "").split(),
        ]
        status, _, said = harness.run([PROVE, *words, *self.files], cwd=folder)
        answers = collections.defaultdict(list)
        if (folder / "out.json").exists():
            for it in json.loads((folder / "out.json").read_text())["properties"]:
                answers[it["kind"], ended(it["place"] or "")].append(it)
        return status, said.decode(), {key: first_of(its) for key, its in answers.items()}


def ended(place):
    """The file and the line in which a place ends."""
    path, _, lines = place.rpartition(":")
    return f"{path}:{lines.rpartition('-')[2].partition('.')[0]}"


def first_of(answers):
    """The first step of several answers about one property, None where it is never reached; or that
    it isn't known."""
    steps = [it["step"] for it in answers if it["answer"] in ("fails", "covered")]
    if not steps and any(it["answer"] == "undecided" for it in answers):
        return "undecided"
    return min(steps, default=None)


def starts(first):
    """The states that a pattern with x stands for."""
    found = [0]
    for bit in first:
        found = [
            2 * state + value
            for state in found
            for value in ((0, 1) if bit == "x" else (int(bit),))
        ]
    return found


def search(first, rows, properties):
    """The first step in which each property is reached on runs that meet all assumptions, by its
    number. What an edge tells counts in the step that it begins."""
    unmet = sum(1 << i for i, (kind, _) in enumerate(properties) if kind == "assume")
    moves, found = collections.defaultdict(set), {}
    for state, following, at_step, at_edge in (map(int, row.split()) for row in rows):
        moves[state].add((following, at_step, at_edge))
    here, seen, step = {(state, 0) for state in starts(first)}, set(), 0
    while here - seen:
        seen |= here
        there = set()
        for state, before in here:
            for following, at_step, at_edge in moves[state]:
                if not (at_step | before) & unmet:
                    there.add((following, at_edge))
                    for i in range(len(properties)):
                        if (at_step | before) >> i & 1:
                            found.setdefault(i, step)
        here, step = there, step + 1
    return found


def wanted_of(properties, found):
    """The first steps, or None, of assertions and covers by kind and place."""
    kinds = {"assert": "assertion", "cover": "cover"}
    wanted = {}
    for i, (kind, place) in enumerate(properties):
        if kind in kinds:
            wanted[kinds[kind], place] = found.get(i)
    return wanted


def judged(design, folder):
    """The cause of refusal of a design if aigprove refuses it, and what is wrong of aigprove's
    answers about it."""
    properties = design.write(folder)
    first, rows = design.simulated(folder)
    status, said, given = design.asked(folder, "--engine", "steps,windows,pdr")
    refused = said.strip().removeprefix("aigprove: ") if status == 1 and not given else None
    if "illegal" in design.parts or "refused" in design.parts:
        return refused, list(refusal_faults(design, first, rows, refused, given))
    if first is None:
        return refused, [f"Icarus refuses it: {rows}"]
    if refused:
        return refused, []
    wanted = wanted_of(properties, search(first, rows, properties))
    if longer := {
        it
        for it, step in given.items()
        if None not in (step, wanted.get(it)) and step != "undecided" and step > wanted[it]
    }:
        # Pdr found a longer run: that there is a shorter one is asked once more.
        again = design.asked(
            folder, "--engine", "steps", "--bound", str(max(wanted[it] for it in longer))
        )[2]
        given |= {it: again.get(it) for it in longer}
    return None, (
        []
        if wanted == given
        else [f"Icarus: {wanted}\n  aigprove: {given}, status {status}, {said}"]
    )


def refusal_faults(design, first, rows, refused, given):
    """What is wrong where a design is to be refused."""
    words = design.parts.get("illegal", design.parts.get("refused"))
    if ("illegal" in design.parts) != (first is None):
        yield f"Icarus {'refuses' if first is None else 'runs'} it: {rows if first is None else ''}"
    if refused is None or words not in refused:
        yield f"{words!r} is to be the cause, and aigprove gives {refused or given}"


def table(path):
    """The designs of a table."""
    for text in path.read_text(encoding="utf-8").split("\n== ")[1:]:
        name, _, body = text.partition("\n")
        lines = body.split("\n")
        parts = dict(found.groups() for found in map(PART.fullmatch, lines) if found)
        text = "\n".join(line for line in lines if not PART.fullmatch(line))
        first, *others = FILE.split(text)
        files = dict(zip(others[::2], others[1::2]))
        twin = files.pop(TWIN, "")
        yield Design(name, files or {DESIGN: first}, parts, twin)


TOOLS = [pytest.mark.yosys, pytest.mark.cadical, pytest.mark.abc, pytest.mark.iverilog]
DESIGNS = [pytest.param(it, id=it.name, marks=TOOLS) for path in TABLES for it in table(path)]


@pytest.mark.parametrize("design", DESIGNS)
def test_table(folder, checks, design):
    """aigprove says of a design what Icarus does, or refuses it as the table says."""
    refused, faults = judged(design, folder)
    if refused and not design.parts.keys() & {"refused", "illegal"}:
        faults = [refused]
    checks.wants(design.name, [], faults)


class Counted:
    """How many random designs were tried, and how many of these aigprove refused."""

    tried = refused = 0


@pytest.fixture
def counted():
    """Counts random designs; no more than a share of them may be refused."""
    found = Counted()
    yield found
    assert found.refused * REFUSED <= max(found.tried, REFUSED)


@pytest.mark.yosys
@pytest.mark.cadical
@pytest.mark.abc
@pytest.mark.iverilog
@cases(10, 30)
@given(rng=choices())
def test_random_design(folder, checks, counted, rng):
    """aigprove says of a random design what Icarus does."""
    text, parts = random_names(rng)
    refused, faults = judged(Design(text, {DESIGN: text}, parts), fresh(folder))
    counted.tried += 1
    counted.refused += refused is not None
    checks.wants(text, [], faults)
