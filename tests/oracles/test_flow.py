"""Runs bin/aigprove as a part of a flow.

The rows of flow/rows.tsv are calls as SymbiYosys makes them of the solvers of its engine `aiger`,
told from memory of its source, which isn't installed: in a folder with the model that yosys made;
and what it makes of each line and of the exit status. Each has to come to the status that is
wanted, by reading the design, `yosys-witness` has to take the trace as it is, by the tool's own
call, and yosys has to see the assertion fail where it runs it. Then what -q, -v and - do, and what
the man pages say.
"""
import argparse
import json
import shutil
import subprocess
import sys

import harness
import pytest
from harness import PROVE, TOP
from tables import by_row

from aigprove.options.parser import make_parser

# How the tool makes the model of its engine, after `prep`.
MODEL = """read_verilog -formal -sv design.v
prep -top {top}
async2sync
setundef -undriven -anyseq
flatten
setattr -unset keep
delete -output
opt -full
techmap
opt -fast
memory_map
opt -fast
formalff -clk2ff -ff2anyinit
dffunmap
abc -g AND -fast
opt_clean
aigmap
write_aiger -I -B -zinit -no-startoffset -map model/design_aiger.aim \\
  -ywmap model/design_aiger.ywa model/design_aiger.aig
"""
REPLAY = """read_verilog -formal -sv design.v
prep -top {top}
async2sync
setundef -undriven -anyseq
flatten
sim -clock clk -r trace.aiw -map model/design_aiger.aim {top}
"""


# What Python runs: aigprove, whose engines of ABC have a defect.
DEFECT = """import sys
sys.path.insert(0, sys.argv.pop(1))
from aigprove import command
from aigprove.engines.abc import Abc
def run(engine):
    raise KeyError("defect")
Abc.run = run
command.main()
"""


def called(solver, folder):
    """The status, the trace and the exit status, as the tool reads them off its process, both of
    whose streams are one."""
    words = ["sh", "-c", f"cd {folder}; {solver} model/design_aiger.aig"]
    done = subprocess.run(words, stdout=subprocess.PIPE, stderr=subprocess.STDOUT, encoding="ascii")
    status, trace, ended = None, [], False
    for line in done.stdout.splitlines():
        if status is not None:
            trace += [line] * (not ended)
            ended = ended or line == "."
        elif line in ("0", "1", "2"):
            trace.append(line)
            status = {"0": "PASS", "1": "FAIL", "2": "UNKNOWN"}[line]
    return status, trace, done.returncode


def yosys(script, folder):
    """What yosys prints where it runs a script in a folder."""
    (folder / "script.ys").write_text(script)
    return harness.output(["yosys", "script.ys"], cwd=folder)


QUEUE = str(TOP / "examples" / "queue.v")
FOUND = b"a bad state at step 4: b0\n"
# A fault of aigprove's own.
TOLD = b"aigprove: internal error: KeyError: 'defect'\n"


@pytest.mark.yosys
@pytest.mark.cadical
@pytest.mark.abc
@by_row("flow/rows.tsv")
def test_row(folder, checks, row):
    """A call comes to its status, and the tools of yosys take its trace."""
    design, top, options, wanted = row.cells
    (folder / "model").mkdir()
    shutil.copy(TOP / design, folder / "design.v")
    yosys(MODEL.format(top=top), folder)
    status, trace, code = called(f"{PROVE} --aiger {options}".strip(), folder)
    checks.wants((design, options), (wanted, 0), (status, code))
    if status == "FAIL":
        check_trace(checks, folder, top, trace)


def check_trace(checks, folder, top, trace):
    """Checks that `yosys-witness` takes a trace, and that yosys sees an assertion fail at its
    end."""
    (folder / "trace.aiw").write_text("".join(f"{line}\n" for line in trace))
    words = ["yosys-witness", "aiw2yw", "trace.aiw", "model/design_aiger.ywa", "trace.yw"]
    checks.wants(words, 0, harness.run(words, cwd=folder)[0])
    steps = json.loads((folder / "trace.yw").read_text())["steps"]
    checks.wants("steps", len(trace) - 4, len(steps))
    # Yosys reads no x, and passes over empty lines.
    (folder / "trace.aiw").write_text("".join(f"{line.replace('x', '0')}\n" for line in trace))
    last = yosys(REPLAY.format(top=top), folder).rpartition("Simulating cycle ")[2]
    checks.check("Warning: Assert" in last, f"no assertion fails in the last step of {trace}")


def with_defect(options):
    """What aigprove, whose engines of ABC have a defect, does with these options."""
    return harness.run([sys.executable, "-c", DEFECT, str(TOP / "lib"), *options.split(), QUEUE])


@pytest.mark.yosys
@pytest.mark.cadical
@pytest.mark.parametrize("options, wanted", [
    ("-q --engine bmc3", (1, b"", TOLD)),
    ("-q --engine bmc3,steps", (10, FOUND, TOLD)),
])
def test_defect(options, wanted):
    """An exception in aigprove's own code is told as its own, and other engines go on."""
    assert with_defect(options) == wanted


@pytest.mark.yosys
@pytest.mark.cadical
def test_defect_in_full():
    """A traceback is printed if it is wanted."""
    status, _, said = with_defect("-v --engine bmc3")
    assert status == 1 and said.startswith(TOLD + b"Traceback ")


@pytest.mark.yosys
@pytest.mark.cadical
def test_defect_of_each():
    status, _, said = with_defect("-q --engine bmc3 --each")
    assert (status, said) == (1, TOLD)


@pytest.mark.yosys
@pytest.mark.cadical
def test_quiet():
    assert harness.run([PROVE, "--engine", "steps", "-q", QUEUE]) == (10, FOUND, b"")


@pytest.mark.yosys
@pytest.mark.cadical
def test_standard_input():
    with open(QUEUE, "rb") as given:
        assert harness.run([PROVE, "--engine", "steps", "-q", "-"], stdin=given) == (10, FOUND, b"")


@pytest.mark.yosys
@pytest.mark.cadical
def test_verbose():
    status, _, said = harness.run([PROVE, "--engine", "steps", "-v", QUEUE])
    assert status == 10 and said.startswith(b"aigprove: steps answered after "), f"-v says {said}"


def options():
    """The options of aigprove that its help shows."""
    shown = [action for action in make_parser()._actions if action.help != argparse.SUPPRESS]
    return [word for action in shown for word in action.option_strings]


@pytest.mark.parametrize(
    "program, words",
    [
        ("aigprove", options()),
        ("aigtool", ["query"]),
        ("aigedit", ["miter"]),
        ("aigcheck", ["certified", "bounded"]),
    ],
)
def test_man_page(folder, checks, program, words):
    """The man page of a program has its options or commands, and is well formed."""
    harness.output([str(TOP / "docs" / "man.py"), str(folder / "man")])
    path = folder / "man" / f"{program}.1"
    text = path.read_text().replace("\\-", "-")
    checks.wants(program, set(), {word for word in words if word not in text})
    if shutil.which("man"):
        checks.wants(
            f"man {program}", (0, b""),
            harness.run(["man", "--warnings", "-l", "-Tutf8", path])[::2],
        )
