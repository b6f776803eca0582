"""Asks bin/aigprove about liveness of designs in Verilog, and a search over lassos about each.

The designs are those of fair/table.txt. Icarus runs each, without its assertions, in all states
that its runs come to, with all inputs. In what it prints a search finds whether there is a run on
which an assertion's signal is never true again from some step on, and on which what is assumed to
come again and again does so; and the fewest steps of such a run that comes back to a state.
aigprove --each and --justice have to say the same, the shortest run by the engine that asks about
one step after the other, and the run that is written has to be one of the design, as Icarus has it.
Which assertions fail the table says too, by hand.

Then the small designs of fair/small.txt, whose answers are known by hand, with what is printed of
them: what is again and again, and not once; conditions, clocks and resets. What is kept is shown
again. Last, where yosys is late for the file of a design's liveness, the last line says that
nothing was shown of liveness, behind the answer about its assertions. The tools are yosys, cadical,
ABC and Icarus Verilog (iverilog, vvp).
"""
import json
import re
import sys

import harness
import pytest
from fair_designs import FAIR, inputs_of, table
from harness import PROVE, TOP

# What Python runs: aigprove, with a yosys that is late for the file of a design's liveness,
# whatever the time is.
LATE = """import sys
sys.path.insert(0, sys.argv.pop(1))
from aigprove import command
from aigprove.designs.front_ends import TranslationTimeout
from aigprove.questions import justice
def late(*_):
    raise TranslationTimeout("yosys is late")
justice.lives = late
command.main()
"""
BOTH = """module top(input clk); reg q = 0; always @(posedge clk) q <= !q;
  safe: assert property (q || !q);
  live: assert property (s_eventually q);
endmodule
"""


def faults(design, folder):
    """What is wrong of what is said of a design."""
    graph, names = design.graph(folder), list(design.asked()[0])
    wanted = {name: graph.shortest(i) for i, name in enumerate(names)}
    if {name for name in names if wanted[name]} != set(design.failing):
        yield f"the search finds {wanted}, and by hand {design.failing} fail"
    asked = ["--timeout", "60", "--keep", "kept", "--json", "out.json"]
    status, printed, said = harness.run([PROVE, "--each", *asked, *design.words()], cwd=folder)
    if status != (10 if any(wanted.values()) else 20) or said or not (folder / "out.json").exists():
        yield f"status {status}: {printed} {said}"
        return
    rows = json.loads((folder / "out.json").read_text())["properties"]
    given = {it["name"].removeprefix(f"{design.name}."): it for it in rows}
    if harness.shown_again(folder / "kept") is None or set(given) != set(names):
        yield f"what is kept of {set(given)} isn't shown again"
    for i, name in enumerate(names):
        it = given[name]
        if (it["answer"], it["kind"]) != ("met" if wanted[name] else "unmet", "justice"):
            yield f"{name}: {wanted[name]} steps are the fewest, and aigprove says {it}"
        elif wanted[name]:
            yield from lasso_faults(design, graph, folder, i, (it["number"], wanted[name]))


def lasso_faults(design, graph, folder, place, wanted):
    """What is wrong of the run that is written of a justice property, with so many steps at
    best."""
    number, count = wanted
    words = ["--engine", "steps", "--justice", str(number), "--witness", "lasso", *design.words()]
    status, printed, said = harness.run([PROVE, *words], cwd=folder)
    found = re.search(r"^a fair run of .*: steps? (\d+) ", printed.decode(), re.M)
    if status != 10 or not found:
        yield f"j{number}: status {status}: {printed} {said}"
        return
    rows = (folder / "lasso").read_text().split("\n")[3:-2]
    # What an edge samples waits a step later, and what is assumed says so a step later.
    if len(rows) > count + bool(design.parts["clocked"]) + bool(design.parts["fair"]):
        yield f"j{number}: {count} steps are the fewest, and it has {len(rows)}: {printed}"
    for bit in "01":
        if not graph.shows(inputs_of(design, rows, folder, bit), int(found[1]), place):
            yield f"j{number} with {bit}: {rows} is no lasso"


def small():
    """Small designs: the text, and for each call the words, the status and how lines begin."""
    for text in (FAIR / "small.txt").read_text(encoding="utf-8").split("\n== ")[1:]:
        _, *lines = text.split("\n")
        design, calls = [], []
        for line in lines:
            kind, _, words = line.partition(": ")
            if kind == "words":
                calls.append((*words.split("|"), []))
            elif kind == "line":
                calls[-1][2].append(words)
            else:
                design.append(line)
        yield "\n".join(design), calls


def small_faults(design, calls, folder):
    """What is wrong of what is said of a small design."""
    (folder / "design.v").write_text(design)
    for i, (words, status, wanted) in enumerate(calls):
        keep = ["--keep", f"kept-{i}"]
        done = harness.run([PROVE, *words.split(), *keep, "design.v"], cwd=folder)
        printed = re.sub("  +", " ", (done[1] + done[2]).decode()).split("\n")
        missing = [line for line in wanted if not any(f"{it}$".startswith(line) for it in printed)]
        if done[0] != int(status) or missing:
            yield f"{words}: {missing} is missing, status {done[0]}: {printed}"
        again = harness.shown_again(folder / f"kept-{i}") if int(status) in (10, 20) else ""
        if again is None or not {
            line for line in printed if line.startswith("no fair run of ")
        } <= set(again.split("\n")):
            yield f"{words}: {again} is shown again of {printed}"


def late_faults(folder):
    """What is wrong of what is said of a design of which there is no file of its liveness in
    time."""
    (folder / "design.v").write_text(BOTH)
    given = harness.run(
        [sys.executable, "-c", LATE, str(TOP / "lib"), "-q", "--engine", "pdr", "design.v"],
        cwd=folder,
    )
    wanted = (
        0, b"no bad state at any step\nundecided: nothing was shown of liveness\n",
        b"aigprove: yosys is late\n",
    )
    if given != wanted:
        yield f"{given}, and {wanted} is wanted"


TOOLS = [pytest.mark.yosys, pytest.mark.cadical, pytest.mark.abc]


def tables():
    """The designs of the table as tests."""
    for design in table():
        name = " ".join([design.name, *design.parameters])
        yield pytest.param(design, id=name, marks=[*TOOLS, pytest.mark.iverilog])


@pytest.mark.parametrize("design", tables())
def test_table(folder, checks, design):
    """aigprove says of liveness what a search over what Icarus prints says."""
    checks.wants(design.name, [], list(faults(design, folder)))


@pytest.mark.parametrize("design, calls", [pytest.param(*it, marks=TOOLS) for it in small()])
def test_small(folder, checks, design, calls):
    """What aigprove prints of a small design is known by hand."""
    checks.wants(design, [], list(small_faults(design, calls, folder)))


@pytest.mark.yosys
@pytest.mark.abc
def test_late(folder, checks):
    """The last line says that nothing was shown of liveness, where yosys is late for that."""
    checks.wants("late", [], list(late_faults(folder)))
