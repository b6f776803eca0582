#!/usr/bin/env python3
"""Compares bin/aigprove with the queries that it solves: run model_checks [GATES [BOUND]]

The script generates a file of GATES (10000) gates, in which tokens move through 52 stages. A state is bad if four tokens are in the last
stage, which isn't reached up to step BOUND (50). Each row has processor and wall-clock seconds of all programs together, for `aigtool
query` and cadical for all steps, and for `aigprove --engine steps`, which solves the same queries and lets aigcheck check the answers. It
also has the ratio of both."""
import os
import subprocess
import time

from circuits import pipeline
from measuring import PROVE, TOOL, new_folder, numbers, row


def measured(call):
    """Returns the processor seconds of the programs that a call runs, and the wall-clock seconds."""
    clock, before = time.monotonic(), os.times()
    call()
    after = os.times()
    return sum(after[2:4]) - sum(before[2:4]), time.monotonic() - clock


def ask(words, clauses):
    with clauses.open("wb") as out:
        subprocess.run(words, stdout=out, check=True)
    subprocess.run(["cadical", "-q", "--no-binary", clauses, clauses.with_name("proof")], stdout=subprocess.DEVNULL)


def main():
    gates, bound = numbers(10000, 50)
    with new_folder() as folder:
        file, clauses = folder / "made.aag", folder / "clauses.cnf"
        file.write_text(pipeline(gates))
        steps = measured(lambda: [ask([TOOL, "query", file, str(k)], clauses) for k in range(bound + 1)])
        words = [PROVE, "--engine", "steps", "--bound", str(bound), file]
        proved = measured(lambda: subprocess.run(words, stdout=subprocess.DEVNULL, check=True))
    for name, (processor, clock) in [("query and solver", steps), ("aigprove", proved)]:
        row(name, f"{processor:.1f} s", f"{clock:.1f} s")
    print(f"aigprove / query and solver: {proved[0] / steps[0]:.2f} of processor time, {proved[1] / steps[1]:.2f} by the clock")


main()
