#!/usr/bin/env python3
"""Compares bin/aigprove with ABC on liveness: run liveness [SECONDS [DESIGN ..]]

There is a row for each design of tests/fair, with each of its parameters, and each of its liveness assertions. It has the wall-clock and
processor seconds of ABC's `l2s` and `pdr` on the file that yosys writes, for at most SECONDS (60), and those of aigprove --justice on the
same file, with all programs that it runs, and its answer. It also has the seconds of aigprove --justice on the design. `-` means that
there is no answer. The goal is that aigprove takes at most twice the time of ABC and one second more on the file, if ABC answers, on four
cores without other work. The last line has the largest time beyond twice that of ABC."""
import sys

from designs import shown, timed
from measuring import PROVE, heads, new_folder, row, run

import fair_designs
import harness
from aiger import machine_of

DONE = ["was asserted in frame", "Property proved", "Explored all reachable states"]


def plain(file, number, made):
    """Writes a file in the format that ABC reads, in which the names of outputs mark assertions and assumptions."""
    machine = machine_of(harness.output([harness.TOOL, "text", str(file)]))
    (justice,) = machine.justice[number]
    machine.outputs = [justice ^ 1, *machine.fairness, *machine.constraints]
    kinds = ["assert_fair", *["assume_fair"] * len(machine.fairness), *["assume_safety"] * len(machine.constraints)]
    machine.names = {f"o{i}": f"{kind}_{i}" for i, kind in enumerate(kinds)}
    machine.bads, machine.constraints, machine.justice, machine.fairness = [], [], [], []
    made.write_bytes(machine.binary())


def abc(file, seconds):
    """Returns the seconds of ABC, or None if it doesn't answer."""
    *took, printed = timed(["berkeley-abc", "-q", f"read_aiger {file}; logic; undc; strash; l2s; strash; pdr"], seconds)
    return took if any(done in printed for done in DONE) else None


def measured(design, folder, seconds):
    """Prints the rows of a design, and returns the times of aigprove beyond twice the time of ABC for each file."""
    run([PROVE, "--tasks", "--keep", folder / "kept", *design.words()])
    file = folder / "kept" / "lives.aig"
    for number in range(len(design.asked()[0])):
        plain(file, number, folder / "plain.aig")
        by_abc, words = abc(folder / "plain.aig", seconds), ["--justice", str(number), "--timeout", str(seconds)]
        *took, printed = timed([PROVE, *words, file], seconds + 5)
        *all_took, _ = timed([PROVE, *words, *design.words()], seconds + 5)
        answer = next((line for line in printed.splitlines() if line.startswith(("a fair", "no fair run"))), "-")
        row(" ".join([design.name, *design.parameters]), shown(by_abc), shown(took), answer, shown(all_took))
        yield took[0] - 2 * by_abc[0] if by_abc else 0


def main():
    seconds, *names = [*sys.argv[1:]] or ["60"]
    heads("design", "l2s; pdr", "aigprove", "answer", "with yosys")
    beyond = []
    for design in fair_designs.table():
        if not names or design.name in names:
            with new_folder() as folder:
                beyond += measured(design, folder, float(seconds))
    print(f"aigprove takes at most {max(beyond):.2f} s more than twice ABC's time, of {len(beyond)} questions")


if __name__ == "__main__":
    main()
