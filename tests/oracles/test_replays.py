"""Compares the runs that bin/aigprove prints of designs, and dumps, with Icarus Verilog.

Each design is run by Icarus on the inputs of the dump that --vcd wrote. In each step each signal
that both have, by its path, has to have the same value, and so each value that was printed: behind
a bar, at the start, and of what the failing assertion read. The designs have first values for all
registers and leave nothing open, and signals of modules below the top have to be in the dump.
"""
import collections
import re
from pathlib import Path

import harness
import pytest
from harness import PROVE, TOP

# The words of aigprove, the words of Icarus, and signals below the top module that have to be in
# the dump.
DESIGNS = [
    (["examples/queue.v"], [], ["full", "popped"]),
    (["examples/credits.v"], [], ["taken", "given"]),
    (["tests/verilog/hierarchy.v"], [], ["S0.value", "S0.q", "S1.next", "res", "both"]),
    (
        [
            "tests/verilog/counter.v",
            "tests/verilog/parts/add_one.v",
            "-Itests/verilog/limits",
            "-DMORE=1",
        ],
        ["-Itests/verilog/limits", "-DMORE=1"],
        ["adder.more", "adder.value"],
    ),
    (["tests/verilog/states.sv", "--reset", "rst_n=0"], [], []),
    (["tests/verilog/fifo.v"], [], ["full", "pushes"]),
    (["tests/verilog/arbiter.v"], [], ["each[0].has", "each[2].has"]),
    (["tests/verilog/uart.v"], [], ["line", "shift"]),
    (["tests/verilog/registers.v", "registers"], [], ["cells.q"]),
    (["tests/verilog/lights.sv"], [], ["north.phase", "east.green"]),
    (["tests/verilog/watchdog.v"], [], ["late"]),
    (["tests/verilog/delay.v"], [], ["chain[0].stage.q", "between"]),
    (["tests/verilog/gray.v"], [], ["changed"]),
    (["tests/verilog/stack.v"], [], ["top", "pops"]),
]
BENCH = """module bench;
  reg clk = 0;
  {inputs}
  {top} dut({ports});
  initial begin
    $dumpfile("icarus.vcd");
    $dumpvars(0, dut);
{steps}
    $finish(0);
  end
endmodule
"""
STEP = "    clk = {clk}; #1 {inputs} #4 clk = 0; #5;\n"
# Icarus reads no label of an assertion.
ASSERTION = re.compile(r"(\w+: )?\b(assert|assume)( property)? *\(.*\);")
# Assertions about a counter n whose last value is p, and what Icarus evaluates at each edge of the
# clock, in what it has before the edge: an assertion of a block without an edge is about the step,
# one at an edge about the step that the edge ends.
COUNTER = """module top(input clk);
  reg [2:0] n = 0, p = 0;
  always @(posedge clk) begin n <= n + 1; p <= n; {} end
  {}
endmodule
"""
SAMPLED = [
    ("", "always @* assert (n != 3);", "n != 3"),
    ("assert (n != 3);", "", "n != 3"),
    ("if (n > 1) assert ($past(n) != 2);", "", "n < 2 || p != 2"),
    ("if (n[2]) assert ($past(n, 2) != 4);", "", "!n[2] || p != 5"),
    ("", "assert property (@(posedge clk) n == 1 |=> n == 1);", "!(n == 2 && p == 1)"),
    ("", "assert property (@(posedge clk) n == 1 |-> ##2 n != 3);", "n != 3"),
]
VALUE = re.compile(r"(?<=\s)([\w.]+)=(?:(\d+)'h([0-9a-f]+)|([01]))(?=\s|$)")


def snapshots(text, phase):
    """The value of each signal by its path below the top module, in each step, where a step has ten
    units and is looked at so many behind its begin."""
    scopes, names, now, steps, time = [], collections.defaultdict(list), {}, [], 0
    for words in map(str.split, text.splitlines()):
        if words[:1] == ["$scope"]:
            scopes.append(words[2])
        elif words[:1] == ["$upscope"]:
            scopes.pop()
        elif words[:1] == ["$var"]:
            path = ".".join(it for it in [*scopes[1:], words[4]] if it != "dut")
            names[words[3]].append(path)
        elif words and words[0][0] == "#":
            last, time = time, int(words[0][1:])
            steps += [dict(now) for t in range(last, time) if t % 10 == phase]
        elif words and (words[0][0] in "01xb"):
            value, code = (
                (words[0][1:], words[1]) if words[0][0] == "b" else (words[0][0], words[0][1:])
            )
            now.update((path, value.lstrip("0") or "0") for path in names.get(code, []))
    return steps


def inputs_of(top, folder):
    """The names and widths of a design's inputs, but its clock, as Icarus has them in its own text
    of the design."""
    text = (folder / "design.vvp").read_text()
    scope = re.search(
        rf'^S_\w+ \.scope module, "dut" "{top}".*?(?=^S_\w+ \.scope|\Z)', text, re.M | re.S
    )[0]
    ports = re.findall(r'\.port_info \d+ /INPUT (\d+) "(\w+)"', scope)
    return {name: int(width) for width, name in ports if name != "clk"}


def icarus(top, words, sources, run, folder):
    """What Icarus has in each step, where a design is run on the inputs of a dump."""
    flags = ["iverilog", "-g2012", "-gno-assertions", *words, "-s", "bench"]
    (folder / "bench.v").write_text(BENCH.format(top=top, inputs="", ports="", steps=""))
    harness.output([*flags, "-o", str(folder / "design.vvp"), str(folder / "bench.v"), *sources])
    inputs = inputs_of(top, folder)
    steps = ["".join(f"{name} = 'b{values[name]}; " for name in inputs) for values in run]
    (folder / "bench.v").write_text(
        BENCH.format(
            top=top,
            inputs=" ".join(f"reg [{width - 1}:0] {name};" for name, width in inputs.items()),
            ports=", ".join(f".{name}({name})" for name in ["clk", *inputs]),
            steps="".join(
                STEP.format(clk=int(t > 0), inputs=given) for t, given in enumerate(steps)
            ),
        )
    )
    harness.output([*flags, "-o", str(folder / "run.vvp"), str(folder / "bench.v"), *sources])
    harness.output(["vvp", "-n", "run.vvp"], cwd=folder)
    return snapshots((folder / "icarus.vcd").read_text(), 4)


def printed_values(lines):
    """The step, the name and the value in base two of each value that was printed, but of
    inputs."""
    for line in lines:
        first = re.match(r"(start:)|steps? (\d+)(?: to \d+)?:|in step (\d+) it reads", line)
        part = line if first and not first[2] else line.partition("|")[2]
        for name, _, digits, bit in VALUE.findall(f" {part}") if first else []:
            yield int(first[2] or first[3] or 0), name, f"{int(digits, 16):b}" if digits else bit


def without_assertions(sources, folder):
    """Copies of sources without their assertions."""
    for i, source in enumerate(sources):
        (folder / f"{i}.sv").write_text(ASSERTION.sub("begin end", Path(source).read_text()))
        yield str(folder / f"{i}.sv")


def faults(words, flags, needed, folder):
    """What is wrong of a design's run, and how many values were compared."""
    words = [
        (
            str(TOP / word)
            if word.endswith((".v", ".sv"))
            else word.replace("-Itests", f"-I{TOP}/tests")
        )
        for word in words
    ]
    flags = [word.replace("-Itests", f"-I{TOP}/tests") for word in flags]
    sources = [word for word in words if word.endswith((".v", ".sv"))]
    printed = harness.output(
        [PROVE, "--engine", "steps", "--vcd", str(folder / "run.vcd"), *words], [10]
    ).splitlines()
    top = printed[0].partition(":")[0]
    run = snapshots((folder / "run.vcd").read_text(), 0)
    wanted = icarus(top, flags, list(without_assertions(sources, folder)), run, folder)
    both = [
        (t, name)
        for t, values in enumerate(run)
        for name in values
        if name in wanted[t] and name != "clk"
    ]
    found = [
        f"step {t}: {name} is {run[t][name]}, and {wanted[t][name]} by Icarus"
        for t, name in both
        if run[t][name] != wanted[t][name]
    ]
    shown = list(printed_values(printed))
    found += [
        f"printed: step {t}: {name}={value}, and {wanted[t].get(name)} by Icarus"
        for t, name, value in shown
        if not name.endswith(".stored") and wanted[t].get(name) != value
    ]
    found += [f"{name} isn't in the dump" for name in needed if name not in run[0]]
    return found, len(both), len(shown)


def failing(condition, folder):
    """The first step of the counter at whose end a condition is false, as Icarus says."""
    told = (
        f"step = step + 1; if (!({condition}) && !told)"
        ' begin told = 1; $display("%0d", step - 1); end'
    )
    bench = (
        "module bench; reg clk = 0; top top(clk); initial repeat (40) #1 clk = ~clk; endmodule\n"
    )
    (folder / "icarus.v").write_text(
        COUNTER.format(told, "reg told = 0; integer step = 0;") + bench
    )
    harness.output(
        [
            "iverilog",
            "-g2012",
            "-o",
            str(folder / "icarus"),
            "-s",
            "bench",
            str(folder / "icarus.v"),
        ]
    )
    return int(harness.output(["vvp", "-n", str(folder / "icarus")]).split()[0])


@pytest.mark.yosys
@pytest.mark.cadical
@pytest.mark.iverilog
@pytest.mark.parametrize("inner, outer, condition", SAMPLED)
def test_sampled(folder, checks, inner, outer, condition):
    """A dump says in which step the failing assertion is sampled."""
    (folder / "top.v").write_text(COUNTER.format(inner, outer))
    harness.output(
        [PROVE, "--engine", "steps", "--vcd", str(folder / "run.vcd"), str(folder / "top.v")], [10]
    )
    sampled = [step["sampled"] for step in snapshots((folder / "run.vcd").read_text(), 0)]
    step = failing(condition, folder)
    checks.wants(inner + outer, [str(int(t == step)) for t in range(len(sampled))], sampled)


@pytest.mark.yosys
@pytest.mark.cadical
@pytest.mark.iverilog
@pytest.mark.parametrize("words, flags, needed", DESIGNS, ids=lambda it: " ".join(it)[:60])
def test_design(folder, checks, words, flags, needed):
    """Each value of a run that is printed and dumped is that of Icarus."""
    found, compared, shown = faults(words, flags, needed, folder)
    checks.wants(words, ([], True), (found, compared > 10 and shown > 1))
