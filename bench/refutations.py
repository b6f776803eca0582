#!/usr/bin/env python3
"""Measures `aigcheck` on proofs of a solver: run refutations AIGTOOL AIGCHECK [SOLVER [BITS ..]]

AIGTOOL and AIGCHECK are the built programs, crates/NAME/out/NAME after `rt run` in crates/NAME. SOLVER (cadical) gets the arguments `-q
--no-binary FILE PROOF` for a proof in the DRAT format, and additionally `--lrat=1` for a proof in the LRAT format, which cadical supports
from version 1.7 on. If it refuses this option, the rows of this format are left out.

For each of BITS (6 7 8), the clauses state that two multipliers, which add their rows in different orders, have different results. Each
row has the processor seconds of the solver and of the check, their ratio, the size of the proof, and the peak of memory of the check. A
peak below that of this script, some 14 MiB, can't be measured. If drat-trim or lrat-check is installed, a row also has the seconds of
this checker for the same clauses and proof. The first line states whether one is installed.
"""
import itertools
import shutil
import sys

from circuits import multipliers
from measuring import heads, new_folder, row, run

FORMS = [("DRAT", []), ("LRAT", ["--lrat=1"])]
# Other checkers, whose arguments are the clauses and a proof.
OTHERS = {"DRAT": "drat-trim", "LRAT": "lrat-check"}


def measure(tools, name, text, raw, folder):
    """Prints the rows of one file."""
    aigtool, aigcheck, solver = tools
    file, clauses, proof = (folder / part for part in ["file.aag", "clauses", "proof"])
    file.write_text(text)
    with clauses.open("wb") as made:
        if run([aigtool, "query", file, "0", *raw], made)[0] != 0:
            sys.exit(f"{aigtool} prints no clauses")
    for form, words in FORMS:
        status, solving, _ = run([solver, "-q", *words, "--no-binary", clauses, proof])
        if status != 20 and words:
            continue
        if status != 20:
            sys.exit(f"{solver} ended with status {status}")
        status, checking, peak = run([aigcheck, "refuted", file, "0", proof, *raw])
        if status != 0:
            sys.exit(f"{aigcheck} ended with status {status} on a proof of {name} in the {form} format")
        size, part = f"{proof.stat().st_size / 1e6:.1f} MB", f"{100 * checking / solving:.0f} %"
        other = f"{run([OTHERS[form], clauses, proof])[1]:.2f} s" if shutil.which(OTHERS[form]) else "-"
        row(name, form, f"{solving:.2f} s", size, f"{checking:.2f} s", part, f"{peak / 1024:.1f} MiB", other)


def main():
    if len(sys.argv) < 3:
        sys.exit(__doc__.split("\n", maxsplit=1)[0])
    tools = (sys.argv[1:4] + ["cadical"])[:3]
    for other in OTHERS.values():
        print(f"{other} is {'' if shutil.which(other) else 'not '}installed")
    heads("file", "proof", "solving", "proof's size", "checking", "of solving", "peak", "another checker")
    for bits, raw in itertools.product([int(word) for word in sys.argv[4:]] or [6, 7, 8], ([], ["raw"])):
        with new_folder() as folder:
            measure(tools, " ".join([f"multipliers of {bits} bits", *raw]), multipliers(bits), raw, folder)


main()
