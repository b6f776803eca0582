#!/usr/bin/env python3
"""Measures the incremental model checker of examples/ beside ABC's bmc3: run incremental [--times N] [--library FOLDER] [STEP [DESIGN ..]]

For the designs of tests/designs, or these, up to STEP (50): the first step with a bad state, processor seconds of the example in C++, of
it without its checks, of cadical about the last of these steps (`aigcheck clauses`), of aigprove with all its engines, and of ABC's
`bmc3`, and what part of the last the example is with and without checks. Each is the median of N runs (3), or one run of 5 seconds or
more. Without checks the example prints the same lines, which nothing has checked then. Then the designs for which cadical takes no longer
than `bmc3`, and the means over all and over these. Times below 10 ms count as 10 ms. A program is stopped after 60 seconds of processor
time, which count as its time; a row where both the example and `bmc3` are stopped counts for nothing.

Needs g++ and libcadical-dev, and the library for C as tests/support/archive.py builds it, or in the folder that --library names."""
from __future__ import annotations

import os
import pathlib
import signal
import statistics
import subprocess
import sys
from collections.abc import Sequence
from typing import NamedTuple

from measuring import DESIGNS, heads, row, run

from harness import CHECK, PROVE, TESTS, TOP, new_folder, parser

# The call that checks, and what takes its place.
CHECKS, NOTHING = "require(steps.check_refuted(k, proof.text + \"0\\n\"));", ""
LEAST, LONG, MOST = 0.01, 5, 60
# How a program ends that takes longer.
STOPPED = [-signal.SIGXCPU, -signal.SIGKILL]


class Times(NamedTuple):
    """Processor seconds about a design."""

    checking: float
    plain: float
    solver: float
    prove: float
    abc: float

    @property
    def parts(self) -> tuple[float, float]:
        """What part of bmc3's time the example takes, with its checks and without."""
        return self.checking / self.abc, self.plain / self.abc

    @property
    def counts(self) -> bool:
        return min(self.abc, self.checking) < MOST


def build(folder: pathlib.Path, library: pathlib.Path, name: str, text: str) -> pathlib.Path:
    """Returns a program of a source in C++, over the library in a folder."""
    source, program = folder / f"{name}.cpp", folder / name
    source.write_text(text, encoding="utf-8")
    words = ["g++", "-std=c++17", "-O2", f"-I{TOP / 'include'}", source, library / "libaig.a", "-lcadical", "-o", program]
    subprocess.run(list(map(str, words)), check=True)
    return program


def timed(words: Sequence[object], times: int, out: str | pathlib.Path = os.devnull) -> float:
    """Returns the median of a program's processor seconds, at least LEAST and at most MOST."""
    found = list[float]()
    while len(found) < times and max(found, default=0) < LONG:
        with open(out, "wb") as into:
            status, seconds, _ = run(["prlimit", f"--cpu={MOST}", *words], into)
        found.append(MOST if status in STOPPED else min(max(seconds, LEAST), MOST))
    return statistics.median(found)


def measure(file: pathlib.Path, programs: Sequence[pathlib.Path], step: int, times: int) -> Times:
    """Measures a design, and prints its row."""
    with new_folder() as folder:
        printed, clauses = folder / "printed", folder / "clauses"
        checking, plain = (timed([program, file, step], times, printed) for program in programs)
        # Behind a witness's state are the inputs of each step, and a dot.
        lines = [line for line in printed.read_text(encoding="utf-8").splitlines() if not line.startswith("no bad")]
        last = len(lines) - 5 if lines else step
        with clauses.open("wb") as into:
            run([CHECK, "clauses", file, last], into)
        solver = timed(["cadical", "-q", clauses], times)
        prove = timed([PROVE, "-q", "--bound", step, file], times)
        abc = timed(["berkeley-abc", "-q", f"read_aiger {file}; logic; undc; strash; zero; fold; bmc3 -F {step + 1}"], times)
    found = Times(checking, plain, solver, prove, abc)
    shown = (f">{MOST}" if it == MOST else f"{it:.2f}" for it in found)
    row(file.stem, last if lines else "none", *shown, *(f"{part:.2f}" for part in found.parts))
    return found


def means(name: str, found: Sequence[Times]) -> None:
    """Prints the geometric means of what part of bmc3's time the example takes, and the greatest."""
    for how, parts in zip(["with checks", "without"], zip(*(it.parts for it in found))):
        print(f"{name}, {how}: {statistics.geometric_mean(parts):.2f}, at most {max(parts):.2f} (of {len(parts)})")


def main() -> None:
    words = parser(__doc__)
    words.add_argument("step", metavar="STEP", nargs="?", type=int, default=50)
    words.add_argument("designs", metavar="DESIGN", nargs="*")
    words.add_argument("--times", metavar="N", type=int, default=3)
    words.add_argument("--library", metavar="FOLDER", type=pathlib.Path)
    given = words.parse_args()
    text = (TOP / "examples" / "incremental.cpp").read_text(encoding="utf-8")
    if CHECKS not in text:
        sys.exit("incremental: the example checks otherwise")
    with new_folder() as folder:
        library = given.library or folder
        if not given.library:
            subprocess.run([sys.executable, TESTS / "support" / "archive.py", folder], check=True)
        programs = [build(folder, library, "checking", text), build(folder, library, "plain", text.replace(CHECKS, NOTHING))]
        columns = ["with checks", "without", "cadical", "aigprove", "bmc3", "with / bmc3", "without / bmc3"]
        heads("file", f"bad state up to {given.step}", *columns)
        names = given.designs or sorted(path.stem for path in DESIGNS.glob("*.aig"))
        found = {name: measure(DESIGNS / f"{name}.aig", programs, given.step, given.times) for name in names}
    counted = {name: it for name, it in found.items() if it.counts}
    quick = {name: it for name, it in counted.items() if it.solver <= it.abc}
    print(f"cadical takes no longer than bmc3: {' '.join(quick)}")
    means("all", [*counted.values()])
    means("these", [*quick.values()])


if __name__ == "__main__":
    main()
