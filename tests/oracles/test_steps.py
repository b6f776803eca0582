"""Leaves out one step after the other between a design and its file.

Each step of docs/DECISIONS.md that reads or changes a design has the smallest design here that goes
wrong without it: what aigprove prints first with the step, by what the design says, and that it is
another answer without. The tools are yosys and cadical.
"""
import sys

import harness
import pytest
from harness import TOP

# What Python runs: aigprove, with something in the place of a function.
PATCHED = """import sys
sys.path.insert(0, sys.argv.pop(1))
from aigprove import command
from aigprove.designs import modules, names, netlist, reading, scripts, texts, verilog, yosys
{}
command.main()
"""
SAFE, BAD = "no bad state at any step", "a bad state at step 0: b0"
# By the step: what takes its place, the design, and what its answer begins with.
STEPS = {
    "each x is free": (
        "modules.free = lambda module: None",
        (
            "module top(input s); wire y = 1'bx; wire a = y & s, b = y | !s; always @* if (s)"
            " assert (a == b); endmodule"
        ),
        SAFE,
    ),
    "what isn't enabled is 0": (
        "modules.clear_disabled = lambda block: None",
        "module top(input clk, e, d); always @(posedge clk) if (e) assert (d); endmodule",
        "step 0: d=0 e=1 | step 1:",
    ),
    "an item that is x": (
        "modules.item_of_x = lambda design: None",
        (
            "module top(input s); reg y; always @* case (s) 1'bx: y = 1; default: y = 0;"
            " endcase\nalways @* assert (!y); endmodule"
        ),
        "aigprove: ",
    ),
    "one constant": (
        "modules.check_constants = lambda found: None",
        "module top; reg q; initial q = 0; initial q = 1; always @* assert (!q); endmodule",
        "aigprove: ",
    ),
    "one name": (
        "modules.check_names = lambda *_, **__: None",
        (
            "module sub(input i); wire n = i; endmodule\nmodule top(input a); wire \\s.n = 1'b0;"
            " sub s(a); always @* assert (!\\s.n ); endmodule"
        ),
        "aigprove: ",
    ),
    "one driver": (
        "netlist.check_drivers = lambda *_: None",
        (
            "module top(input a, b); wire y; assign y = a; assign y = b; always @* assert (y == a);"
            " endmodule"
        ),
        "aigprove: ",
    ),
    "one clock": (
        "netlist.clock_of = lambda *_: ('c', True)",
        (
            "module top(input c, d, a); reg p = 0, q = 0; always @(posedge c) p <= a; always"
            " @(posedge d) q <= a;\nalways @* assert (p == q); endmodule"
        ),
        "aigprove: ",
    ),
    "what yosys reads otherwise": (
        "texts.Text.check = lambda *_: None",
        "module top; reg q; initial begin #1 q = 1; end always @* assert (q); endmodule",
        "aigprove: ",
    ),
    "names are looked up": (
        (
            "reading.STRICT = reading.STRICT._replace(words='-ppdump',"
            " end=reading.LOOKING.end)\nreading.WARNED = __import__('re').compile('(?!)')"
        ),
        (
            "module sub(input [1:0] i); wire [1:0] n = i; endmodule\nmodule top(input [1:0] a); sub"
            " s(a); wire [1:0] y = s.n; always @* assert (y == a); endmodule"
        ),
        SAFE,
    ),
    "a quotient by 0 is free": (
        "scripts.PARTIAL = set()",
        (
            "module top(input [1:0] a, b); wire [1:0] y = a / b; always @* if (b == 0) assert (y =="
            " 3); endmodule"
        ),
        BAD,
    ),
    "what is asked about stays": (
        (
            "scripts.FREE = scripts.FREE.replace('setattr -set keep 1 t:$assert t:$assume t:$live"
            " t:$fair\\n', '')"
        ),
        (
            "module top(input a); always @* begin one: assert (a || !a); two: assert (a || !a); end"
            " endmodule"
        ),
        "top: 2 assertions",
    ),
}


def answer(patch, design, folder, words=()):
    """What aigprove prints first, or says where it prints nothing."""
    (folder / "top.v").write_text(design)
    _, printed, said = harness.run(
        [
            sys.executable, "-c", PATCHED.format(patch), str(TOP / "lib"), "--engine",
            "windows,steps", *words, "--bound", "2", "top.v",
        ],
        cwd=folder,
    )
    lines = [
        line
        for line in printed.decode().splitlines()
        if not line.startswith("no bad state at step")
    ]
    return " | ".join(lines) or said.decode().splitlines()[-1]


@pytest.mark.yosys
@pytest.mark.cadical
@pytest.mark.parametrize("name", STEPS)
def test_step(folder, checks, name):
    """A design goes wrong without a step, and not with it."""
    patch, design, wanted = STEPS[name]
    given, without = answer("", design, folder), answer(patch, design, folder)
    checks.check(wanted in given, f"{name}: {given}")
    checks.check(wanted not in without, f"{name}: without it the answer is the same: {without}")
