"""Checks that aigprove keeps its limit of time on a busy machine.

Many programs do nothing but run. Beside them files are asked about that no engine decides in time,
such that take longer to be read, a design that yosys reads for longer than there is time, and two
such that are compared; with a limit of S seconds aigprove has to end within S + 1.5, and nothing
that it started may be left. Where there is no answer the last line says so, as it does where
engines had all the time. The tools are yosys, cadical and ABC.
"""
import contextlib
import os
import random
import re
import subprocess
import time

import harness
import pytest
from harness import PROVE, TESTS

SECONDS, MORE = 6, 1.5
# How many programs run beside.
LOAD = 16
# A design with so many products that yosys takes minutes to make gates of it.
LARGE = "\n".join(
    [
        "module top(input clk, input [63:0] a, b);",
        *(
            f"  reg [63:0] r{i} = 0; always @(posedge clk) r{i} <= r{i} * a + b * {i}; assert"
            f" property (r{i} != {i + 1});"
            for i in range(400)
        ),
        "endmodule\n",
    ]
)

# How many gates a file has that takes long to be read.
GATES = 600000
# The last line of a run without an answer in time, and of one with an answer.
LAST = re.compile(
    r"undecided: nothing was shown( of (liveness|j0))?|a bad state .*|undecided: (no bad"
    r" state|equal|no fair lasso of j0) up to step \d+.*|b\d+ .*|2|\."
    r"|(no bad state|equal) at any step.*|equal at every step.*|the assumptions .*|step.*"
)


def large(count, seed):
    """A file with so many gates: sums of random nodes, and whether all of many such are 1; its
    latches may start with either value."""
    rng, literals, gates = random.Random(seed), list(range(2, 2 * 128 + 2, 2)), []

    def both(left, right):
        literals.append(2 * len(literals) + 2)
        gates.append(f"{literals[-1]} {max(left, right)} {min(left, right)}")
        return literals[-1]

    while len(gates) < count:
        left, right = rng.sample(literals[-5000:], 2)
        both(both(left, right) ^ 1, both(left ^ 1, right ^ 1) ^ 1)
    bad = literals[-1]
    for literal in rng.sample(literals[:-1], 40):
        bad = both(bad, literal)
    nexts = rng.sample(literals, 64)
    latches = [
        f"{latch} {next} {latch}" for latch, next in zip(range(2 * 64 + 2, 2 * 128 + 2, 2), nexts)
    ]
    head = f"aag {len(literals)} 64 64 0 {len(gates)} 1 0 1"
    lines = [head, *(str(2 * i + 2) for i in range(64)), *latches, str(bad), "1", str(bad), *gates]
    return "\n".join([*lines, ""])


@contextlib.contextmanager
def busy(count):
    """So many programs that run meanwhile."""
    programs = [subprocess.Popen(["sh", "-c", "while :; do :; done"]) for _ in range(count)]
    try:
        yield
    finally:
        for program in programs:
            program.kill()
            program.wait()


def left(folder):
    """The programs that still run with this folder in their environment."""
    mark = f"FOLDER={folder}".encode()
    for name in filter(str.isdecimal, os.listdir("/proc")):
        with contextlib.suppress(OSError), open(f"/proc/{name}/environ", "rb") as file:
            if mark in file.read().split(b"\0"):
                yield int(name)


HARD = TESTS / "designs" / "count_wrap.aig"
ASKED = [
    [HARD],
    ["--each", HARD],
    ["--keep", "kept", HARD],
    ["--aiger", HARD],
    ["large.v"],
    ["--equal", "large.v", "large.v"],
    ["large0.aag"],
    ["--each", "large0.aag"],
    ["--justice", "0", "large0.aag"],
    ["--aiger", "large0.aag"],
    ["--equal", "large1.aag", "large0.aag"],
    ["--equal", "large1.aag", "--starts", "by-order", "large0.aag"],
    ["--certificate", "large1.aag", "large0.aag"],
]


@pytest.fixture(scope="module")
def place():
    """A folder with large files, and programs that run meanwhile."""
    harness.compile_aigprove()
    with harness.new_folder() as folder, busy(LOAD):
        (folder / "large.v").write_text(LARGE)
        for number in range(2):
            (folder / f"large{number}.aag").write_text(large(GATES, number))
        yield folder


@pytest.mark.yosys
@pytest.mark.cadical
@pytest.mark.abc
@pytest.mark.parametrize(
    "words", ASKED, ids=lambda words: " ".join(map(str, words)).replace(f"{TESTS}/", "")
)
def test_limit(place, checks, words):
    """aigprove ends in time, leaves nothing, and says so in its last line."""
    environment = {**os.environ, "FOLDER": str(place), "TMPDIR": str(place)}
    begun = time.monotonic()
    status, printed, _ = harness.run(
        [PROVE, "-q", "--timeout", str(SECONDS), *words], cwd=place, env=environment
    )
    seconds = time.monotonic() - begun
    checks.check(seconds <= SECONDS + MORE, f"{seconds:.1f} s")
    # What is decided in time is an answer, too.
    checks.check(
        status in (0, 10, 20) and not list(left(place)), f"status {status}, {list(left(place))}"
    )
    last = (printed.decode().splitlines() or [""])[-1]
    checks.check(LAST.fullmatch(last), f"the last line is {last!r}")
