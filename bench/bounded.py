#!/usr/bin/env python3
"""Compares bounded checks by one question with ABC's: run bounded [--lrat SOLVER] [STEP ..]

The circuits are those of tests/designs and six generated machines (`machines.py`), up to each STEP (20, 50). A row has the processor
seconds of `aigcheck bounded`, of cadical, of `aigcheck refuted FILE to K` or `witness FILE to K`, of all three, and of ABC's `bmc3`.
cadical solves one step after the other, as in aigprove. SOLVER, a cadical from 1.7 on, solves the question at once and writes LRAT. A row
also has the ratio of the sum to the time of bmc3, the ratio of question and check to the solver's time, and the ratio of the solver's
time to that of bmc3. Writing the solver's file counts as a part of the question. After the rows, the script prints means, also of the
rows in which the solver takes no longer than bmc3, and sums over the six machines. Times below 10 ms count as 10 ms. A program may take
20 seconds of wall-clock time. If one takes longer, its row doesn't count."""
import os
import statistics
import time

from machines import MACHINES
from measuring import CHECK, DESIGNS, heads, new_folder, parser, row, run

from aigprove.questions.solver import ASSUMING, are_in_conflict, in_turn

# The status of `timeout` if a program takes longer.
LATE = 124
LEAST, MOST = 0.01, 20


def timed(words, out=os.devnull):
    """Runs a program that prints into a file, and returns its status and its processor seconds."""
    with open(out, "wb") as into:
        status, seconds, _ = run(["timeout", MOST, *words], into)
    return status, max(seconds, LEAST)


def solver_words(solver, clauses, folder):
    """Returns the command line of the solver: of one that writes LRAT, or otherwise of cadical, which solves one step after the other."""
    if solver:
        return [solver, "-q", "--lrat=1", "--no-binary", clauses]
    turns = folder / "turns"
    turns.write_bytes(b"".join(in_turn(clauses.read_bytes())))
    return ["cadical", "-q", "--no-binary", ASSUMING, turns]


def asked(file, step, folder, solver):
    """Returns the answer, and the seconds of the question, of the solver and of the check."""
    clauses, proof, solution = (folder / name for name in ["clauses", "proof", "solution"])
    _, making = timed([CHECK, "bounded", file, step], clauses)
    if are_in_conflict(clauses):
        return "settled", making, 0, 0
    before = time.process_time()
    words = solver_words(solver, clauses, folder)
    making += time.process_time() - before
    status, solving = timed([*words, proof], solution)
    if status not in (10, 20):
        return "-", making, solving, 0
    answer, command, given = ("refuted", "refuted", proof) if status == 20 else ("reached", "witness", solution)
    checked, checking = timed([CHECK, command, file, "to", step, given])
    return answer if checked == 0 else "-", making, solving, checking


def told(ratios):
    """Returns the geometric mean of ratios, and the greatest ratio."""
    return f"{statistics.geometric_mean(ratios):.2f}, at most {max(ratios):.2f} (of {len(ratios)})" if ratios else "none"


def measure(step, files, folder, solver):
    """Prints the rows of one step, and their means and sums."""
    all_to_abc, where_less, own_to_solver, sums = [], [], [], [0, 0]
    for file in files:
        answer, making, solving, checking = asked(file, step, folder, solver)
        ended, abc = timed(["berkeley-abc", "-q", f"read_aiger {file}; logic; undc; strash; zero; fold; bmc3 -F {step + 1}"])
        total = making + solving + checking
        row(file.stem, step, answer, *(f"{seconds:.2f}" for seconds in [making, solving, checking, total, abc, total / abc]))
        if answer == "-" or ended == LATE:
            continue
        all_to_abc.append(total / abc)
        where_less += [total / abc] * (solving <= abc)
        own_to_solver += [(making + checking) / solving] if answer != "settled" else []
        if file.parent == folder:
            sums = [sums[0] + total, sums[1] + abc]
    print(f"up to step {step}: all / bmc3 {told(all_to_abc)}; where the solver takes no longer {told(where_less)};")
    print(f"question and check / solver {told(own_to_solver)}; sums over the machines that are made {sums[0]:.2f} / {sums[1]:.2f}")


def main():
    words = parser(__doc__)
    words.add_argument("steps", metavar="STEP", nargs="*", type=int, default=[20, 50])
    words.add_argument("--lrat", metavar="SOLVER")
    options = words.parse_args()
    heads("file", "step", "answer", "question", "solver", "check", "all", "bmc3", "all / bmc3")
    with new_folder() as folder:
        made = [folder / f"{make.__name__}.aig" for make in MACHINES]
        for file, make in zip(made, MACHINES):
            file.write_bytes(make().binary())
        for step in options.steps:
            measure(step, [*sorted(DESIGNS.glob("*.aig")), *made], folder, options.lrat)


if __name__ == "__main__":
    main()
