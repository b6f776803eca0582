"""Asks bin/aigprove about designs, and turns what it keeps.

For each file of tests/designs the answer has to come in time, and to be the one of answers.tsv,
which bmc3 and pdr of ABC agree on: a bad state at that step or a later one, or none at any step.
Those in Verilog, which yosys makes files, if it is there, stand in the rows of tests/verilog, and
some have paths that are patterns or commands to yosys. What is kept is shown again by check.sh. It
isn't with the first bad literal of the file's copy or of the certificate inverted, with another bad
state or no end in the witness, or with a sign before a proof that is no step, where unit
propagation alone doesn't show the line.

Then some of the files are compared with what ABC makes of them, by each engine that guesses what
corresponds: that is equal, as ABC's dsec says too, and with an output or the bad literal inverted
the engine has no answer.
"""
import json
import os
import re
import shlex
import signal
import subprocess
import time

import harness
import pytest
from harness import CHECK, PROVE, TOP, rows
from rewriting import DESIGNS, REWRITTEN, inverted, rewritten
from tables import by_row

from aigprove.circuits.aiger import Circuit, Lines

# How many seconds an answer has.
SECONDS = "60"
# How many values a witness has at most whose every value is tried.
SHORT = 60
# How the last line of an answer about a file with constraints begins.
MET = "the assumptions can be met up to step "
# A design that another file is beside, and names for it.
UNSAFE = """`include "q.vh"
module top(input clk, input d); reg q = `INITIAL; always @(posedge clk) q <= d;
  low: assert property (!q); endmodule
"""
SAFE = (
    "module top(input clk); reg q = 0; always @(posedge clk) q <= 0; low: assert property (!q);"
    " endmodule\n"
)
# The same by a part, and what stands in names of its files.
WHOLE = """`include "q.vh"
module top(input clk, input d); wire [1:0] q; part part(clk, d, q[0]); assign q[1] = 0;
  low: assert property (!q); endmodule
"""
PART = (
    "module part(input clk, input d, output reg q); initial q = `INITIAL; always @(posedge clk) q"
    " <= d; endmodule\n"
)
ODD = ["[1]", "?", 'a "q;', "\n!touch made\n", " $(touch made)", "'#%{x}", "--"]
# Maps of ours that make cells otherwise than yosys's own; cells whose maps yosys itself tests, by
# its solver and its evaluation of cells; and a choice, made by both, between which its solver has
# to find no difference, of so many values of so many bits. The tested cells are drawn from a fixed
# seed: by default yosys takes the time of day, and some products are beyond its solver.
MAPS = TOP / "lib" / "aigprove" / "designs" / "gates.v"
TESTED = ["$shl", "$shr", "$sshl", "$sshr", "$shift", "$lcu", "$alu", "$fa", "$macc"]
TRIES, SEED = 8, 2
CHOICE = """module top #(parameter WIDTH = 1, COUNT = 1)
    (input [WIDTH-1:0] a, input [WIDTH*COUNT-1:0] b, input [COUNT-1:0] s, output [WIDTH-1:0] y);
  \\$pmux #(.WIDTH(WIDTH), .S_WIDTH(COUNT)) choose (.A(a), .B(b), .S(s), .Y(y));
endmodule
"""
BOTH = """read_verilog -icells {folder}/choice.v
chparam -set COUNT {count} -set WIDTH {width} top
copy top other
techmap top
techmap -map {maps} -map +/techmap.v other
miter -equiv -flatten top other both
sat -verify -prove trigger 0 both
"""
CHOICES = [(1, 1), (2, 1), (3, 1), (8, 1), (1, 3), (3, 2), (6, 3)]
NAMES = ["q[1].v", "q?.v", 'a "q;.v', "q\n!touch made\n.v", "q $(touch made).v", "q'#%{x}.sv"]


def is_right(answer, status, printed):
    """Whether a status and what was printed say the answer."""
    lines = printed.splitlines()
    if answer == "open":
        return status == 0 and lines[-1].startswith("undecided: no bad state up to step ")
    if answer == "safe":
        return (
            status == 20
            and [line for line in lines if not line.startswith(MET)][-1]
            == "no bad state at any step"
        )
    steps = [
        int(line.split()[5].rstrip(":"))
        for line in lines
        if line.startswith("a bad state at step ")
    ]
    return status == 10 and len(steps) == 1 and steps[0] >= int(answer)


def needed(folder):
    """The names of the proofs that are needed by a line of what is kept, beside unit
    propagation."""
    for step in json.loads((folder / "evidence.json").read_text())["steps"]:
        words = [step.get("shows"), *step.get("by", [])]
        asked = words[1:2] if words[1:2] == ["--outputs"] else []
        del words[1: 1 + len(asked)]
        if words[0] and words[1] != "run":
            equal = (6, 2) if words[4:5] == ["to"] else (5, 1)
            command = words[1].partition("-alike")[0]
            first, count = {"certified": (4, 2), "equal": equal, "safe": (5, 2)}.get(
                command, (5 if words[3] == "to" else 4, 1)
            )
            for proof in words[first: first + count]:
                tried = [
                    *asked,
                    *words[1: words.index(proof)],
                    "/dev/stdin",
                    *words[words.index(proof) + 1:],
                ]
                if harness.run([CHECK, *tried], cwd=folder, input=b"0\n")[0] != 0:
                    yield proof


def turned(folder):
    """What is kept, with a byte turned that matters: the name of a file and its bytes."""
    for name in ["file.aig", "file.aag", "other.aig", "other.aag", "certificate"]:
        if (folder / name).exists():
            yield name, inverted((folder / name).read_bytes())
    if (folder / "witness").exists():
        told = (folder / "witness").read_bytes()
        yield "witness", told.replace(b"1\nb", b"1\nb9", 1)
        yield "witness", told[:-2]
    for name in list(needed(folder))[-2:]:
        yield name, b"x" + (folder / name).read_bytes()


def kept_faults(folder):
    """What is wrong of what is kept in a folder."""
    if harness.shown_again(folder) is None:
        yield "what is kept isn't shown again"
    for name, data in turned(folder):
        before = (folder / name).read_bytes()
        (folder / name).write_bytes(data)
        if harness.shown_again(folder) is not None:
            yield f"what is kept is shown again with {name} turned"
        (folder / name).write_bytes(before)


def spare_faults(folder):
    """A value of a short witness that may be left out too, as aigcheck says."""
    head, *rows, end = (folder / "witness").read_text().split("\n")[1:-1]
    places = [(t, i) for t, row in enumerate(rows) for i, value in enumerate(row) if value != "x"]
    opened = [i for i, latch in enumerate(told_resets(folder)) if latch > 1]
    if sum(map(len, rows)) > SHORT:
        return
    for t, i in places:
        if t or i in opened:
            tried = [row[:i] + "x" + row[i + 1:] if n == t else row for n, row in enumerate(rows)]
            text = "\n".join(["1", head, *tried, end, ""]).encode()
            if (
                harness.run(
                    [CHECK, "run", next(folder.glob("file.a?g")), "/dev/stdin"], input=text
                )[0]
                == 0
            ):
                yield f"value {i} of line {t} doesn't matter to {rows}"


def told_resets(folder):
    """What the latches of a kept file are at first: 0, 1, or their own literal."""
    return Circuit(Lines(next(folder.glob("file.a?g")).read_bytes(), "FILE")).resets


def answered(words):
    """The exit status of aigprove, and what it prints and says on standard error."""
    done = subprocess.run([PROVE, *words], cwd=TOP, capture_output=True, encoding="utf-8")
    return done.returncode, done.stdout, done.stderr


def file_faults(design, answer, folder):
    """What is wrong of an answer about a file, and of what is kept."""
    # An open one is asked no longer than it has to be.
    words = ["--bound", "20"] if answer == "open" else ["--timeout", SECONDS]
    status, printed, said = answered(["--keep", folder, *words, DESIGNS / f"{design}.aig"])
    if not is_right(answer, status, printed) or said:
        yield f"{answer} is right, and aigprove ends with {status}: {printed[-200:]}{said}"
    yield from kept_faults(folder)
    if status == 10:
        yield from spare_faults(folder)


def register_faults(design, command, folder):
    """What is wrong of an answer about a design beside what ABC makes of it, and of one about that
    with an output inverted."""
    plain, made, is_equal = rewritten(design, command, folder)
    if not is_equal:
        yield f"{command} makes another design, as dsec says"
    (folder / "wrong.aig").write_bytes(inverted(made.read_bytes()))
    for engine in ["registers", "scorr"]:
        words = ["-q", "--engine", engine, "--timeout", SECONDS, "--equal", plain]
        told = answered(["--keep", folder / engine, *words, made])
        if told != (20, "equal at every step\n", ""):
            yield f"{engine} by {command}: {told}"
        yield from kept_faults(folder / engine)
        told = answered([*words, folder / "wrong.aig"])
        if told != (0, "undecided: nothing was shown\n", ""):
            yield f"{engine} by {command}, inverted: {told}"


def verilog_faults(words, wanted_status, wanted, folder):
    """What is wrong of an answer about a design in Verilog, which is looked for by the engines that
    find the first step."""
    status, printed, said = answered(
        ["--engine", "steps,windows", "--keep", folder, *words.split()]
    )
    lines = (printed + said).splitlines()
    if status != int(wanted_status) or not all(
        any(line.startswith(it) for line in lines) for it in wanted
    ):
        yield f"ended with status {status}: {printed}{said}"
    if wanted_status in ("10", "20"):
        yield from kept_faults(folder)
    # A fair run's is in a folder of its own.
    if wanted_status == "10" and "--equal" not in words and (folder / "witness").exists():
        yield from spare_faults(folder)


def path_faults(folder):
    """What is wrong where a path has signs that are a pattern or a command to yosys: another file
    is asked about, or one is made."""
    here = folder / 'begin\n!touch made;"`touch made`'
    here.mkdir()
    (here / "q1.v").write_text(SAFE)
    (here / '"q').write_text("")
    (here / "q.vh").write_text("`define INITIAL 1'b1\n")
    for name in NAMES:
        (here / name).write_text(UNSAFE)
        words = [PROVE, "--engine", "steps", name]
        environment = {**os.environ, "TMPDIR": str(here)}
        done = subprocess.run(
            words, cwd=here, capture_output=True, encoding="utf-8", env=environment
        )
        shown = name.replace("\n", "\\x0a")
        if done.returncode != 10 or f"assertion top.low ({shown}:3." not in done.stdout:
            yield f"{shown}: ended with status {done.returncode}: {done.stdout}{done.stderr}"
    if made := sorted({it.name for it in here.iterdir()} - {"q1.v", '"q', "q.vh", *NAMES}):
        yield f"there is {made}"


def odd_files(here, odd):
    """Files of a design whose names have odd signs, and the words that name each set of them, with
    the file of the assertion."""
    top, part, listed, script, made, include = (
        f"{odd}{name}" for name in ["top.sv", "part.v", "list", "t.ys", "t.il", "inc"]
    )
    (here / include).mkdir()
    (here / include / "q.vh").write_text("`define INITIAL 1'b1\n")
    (here / top).write_text(WHOLE)
    (here / part).write_text(PART)
    (here / listed).write_text(
        f"-I {shlex.quote(include)} {shlex.quote(f'./{top}')}\n{shlex.quote(f'./{part}')} // the"
        " part\n"
    )
    (here / "plain.sv").write_text(WHOLE)
    (here / script).write_text(
        "read_verilog -formal -sv -DINITIAL=1'b1 -Iplain plain.sv\nread_verilog -DINITIAL=1'b1"
        " part.v\n"
    )
    (here / "part.v").write_text(PART)
    (here / "plain").mkdir()
    (here / "plain" / "q.vh").write_text("")
    words = ["yosys", "-q", "-s", "/dev/stdin"]
    harness.output(words, cwd=here, input=(here / script).read_bytes() + b"write_rtlil out.il\n")
    (here / "out.il").rename(here / made)
    yield [f"-I{include}", "--", top, part], f"./{top}" if top.startswith("-") else top
    yield ["-f", listed], f"./{top}"
    yield [
        "-D",
        f"INITIAL=1 // {odd}".replace("\n", " "),
        "-Iplain",
        f"./{top}",
        f"./{part}",
    ], f"./{top}"
    yield ["--", script], "plain.sv"
    yield ["--", made], "plain.sv"


def odd_faults(folder):
    """What is wrong where files of several, folders, lists, scripts and macros have signs that are
    a pattern or a command to yosys."""
    for i, odd in enumerate(ODD):
        here = folder / f"odd {i}"
        here.mkdir()
        before = None
        for words, place in odd_files(here, odd):
            before = before or sorted(os.listdir(here))
            done = subprocess.run(
                [PROVE, "--engine", "steps", *words],
                cwd=here,
                capture_output=True,
                encoding="utf-8",
            )
            shown = place.replace("\n", "\\x0a")
            if done.returncode != 10 or f"assertion top.low ({shown}:3." not in done.stdout:
                yield f"{words}: ended with status {done.returncode}: {done.stdout}{done.stderr}"
        if sorted(os.listdir(here)) != before:
            yield f"there is {set(os.listdir(here)) - set(before)}"
    for words in [
        ["--parameter", "A=1;!touch made"],
        ["--black-box", "a;b"],
        ["-D", "A=1\n!touch made"],
        ["-D", "A b=1"],
        ["--top", "a;b"],
    ]:
        done = subprocess.run(
            [PROVE, *words, "examples/queue.v"], cwd=TOP, capture_output=True, encoding="utf-8"
        )
        if done.returncode != (1 if "--top" in words else 2) or done.stdout:
            yield f"{words}: ended with status {done.returncode}: {done.stdout}"


def included_faults(here):
    """What is wrong of the places of assertions in included files, also where their names are like
    those of our own files."""
    names = ["asked", "cover", "free", "gates", "held", "late", "other"]
    for i, name in enumerate(names):
        (here / f"{name}.v").write_text(f"always @* {name}: assert (a != {i});\n")
    included = "".join(f'`include "{name}.v"\n' for name in names)
    (here / "top.v").write_text(f"module top(input [2:0] a);\n{included}endmodule\n")
    done = subprocess.run(
        [PROVE, "--each", "--bound", "0", "top.v"], cwd=here, capture_output=True, encoding="utf-8"
    )
    if unplaced := [
        name for name in names if not re.search(rf" top\.{name} +{name}\.v:1\.", done.stdout)
    ]:
        yield f"{unplaced} have no place: {done.stdout}{done.stderr}"


def map_faults(folder):
    """What is wrong of the cells that our own maps make."""
    (folder / "choice.v").write_text(CHOICE)
    tried = f"test_cell -s {SEED} -n {TRIES} -map {MAPS} -map +/techmap.v"
    scripts = [f"{tried} {cell}" for cell in TESTED]
    scripts += [
        BOTH.format(folder=folder, maps=MAPS, count=count, width=width) for count, width in CHOICES
    ]
    for script in scripts:
        status, printed, _ = harness.run(["yosys", "-p", script.replace("\n", "; ")])
        if status != 0:
            yield f"{script}: {printed.decode('utf-8', 'replace')[-300:]}"


def compared(words, folder, number=None):
    """How a comparison of designs in a folder ends, within 15 seconds: its status, and what it
    prints and says. A signal of this number comes while it reads them."""
    words = [PROVE, "--equal", *words]
    with subprocess.Popen(
        words, cwd=folder, stdout=subprocess.PIPE, stderr=subprocess.PIPE, encoding="utf-8"
    ) as child:
        try:
            if number:
                time.sleep(1)
                child.send_signal(number)
            printed, said = child.communicate(timeout=15)
        except subprocess.TimeoutExpired:
            child.kill()
            return "late", *child.communicate()
    return child.returncode, printed, said


def beside_faults(folder):
    """What is wrong where two designs are read side by side: of two that are refused the first
    one's fault is told, and where it is, the time is over or a signal comes, nothing waits for the
    other; what isn't asked about is said of the first before it is of the other."""
    text = "module top (input a, output b);\n  assign b = !a;\n  always @* cover (a);\nendmodule\n"
    files = {
        "wrong.v": "module top (\n",
        "never.ys": "exec -- sleep 60\n",
        "first.txt": text,
        "other.v": text,
    }
    files |= {
        "late.ys": "exec -- sleep 1\nread_verilog -formal -sv first.txt\n",
        "faulty.ys": "exec -- sleep 1\nno_command\n",
    }
    for name, written in files.items():
        (folder / name).write_text(written)
    for words, begins in [
        (["never.ys", "wrong.v"], "aigprove: wrong.v:"),
        (["wrong.v", "faulty.ys"], "aigprove: ERROR: No such command"),
    ]:
        status, printed, said = compared(words, folder)
        if (status, printed) != (1, "") or not said.startswith(begins):
            yield f"{words}: {status}, {printed}{said}"
    for words in [["never.ys", "other.v"], ["other.v", "never.ys"]]:
        if (given := compared(words, folder, signal.SIGTERM))[:2] != (128 + signal.SIGTERM, ""):
            yield f"{words}, with a signal: {given}"
        if (given := compared([*words, "--timeout", "1"], folder))[:2] != (
            0,
            "undecided: nothing was shown\n",
        ):
            yield f"{words}, with little time: {given}"
    status, printed, said = compared(["other.v", "late.ys"], folder)
    if status != 20 or re.findall(r"\((\S+):3\.\S+ is not asked about$", said, re.MULTILINE) != [
        "first.txt",
        "other.v",
    ]:
        yield f"{status}, {printed}{said}"


@pytest.mark.cadical
@pytest.mark.abc
@pytest.mark.parametrize("design, answer", rows(DESIGNS / "answers.tsv"))
def test_design(checks, folder, design, answer):
    """A design has its answer, and what is kept shows it, and nothing else."""
    checks.wants(design, [], list(file_faults(design, answer, folder / "kept")))


@pytest.mark.cadical
@pytest.mark.abc
@pytest.mark.parametrize("design, command", REWRITTEN)
def test_rewritten(checks, folder, design, command):
    """A design is equal to what ABC makes of it."""
    checks.wants(design, [], list(register_faults(design, command, folder)))


@pytest.mark.yosys
@pytest.mark.cadical
@pytest.mark.parametrize(
    "faults", [path_faults, odd_faults, included_faults, beside_faults, map_faults]
)
def test_verilog_files(checks, folder, faults):
    """Designs in Verilog whose files have odd names, or stand side by side; and our own maps."""
    checks.wants(faults.__name__, [], list(faults(folder)))


@pytest.mark.yosys
@pytest.mark.cadical
@by_row("verilog/answers.tsv")
def test_verilog(checks, folder, row):
    """A design in Verilog has the answer of its row."""
    words, status, *wanted = row.cells
    checks.wants(words, [], list(verilog_faults(words, status, wanted, folder / "kept")))
