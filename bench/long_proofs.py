#!/usr/bin/env python3
"""Measures `aigcheck` on proofs of any length, which it reads from a pipe while they are generated: run long_proofs AIGTOOL AIGCHECK
[GIGABYTES ..]

AIGTOOL and AIGCHECK are the built programs, crates/NAME/out/NAME after `rt run` in crates/NAME. For each of GIGABYTES (1 10), a proof of
this size in the LRAT format is generated. Its steps follow along a chain of gates, each step is deleted again, and the last step is the
empty clause. Each row has the size of the proof, the number of steps that add a clause, the wall-clock and processor seconds of the
check, and its peak of memory.
"""
import itertools
import os
import subprocess
import sys
import time

from measuring import heads, new_folder, row, run

# The number of gates of the chain, and the number of clauses that exist at the same time.
GATES, KEPT = 20, 1000


def chain(gates):
    """Returns a file that is bad if the last of a chain of gates is true and its first operand isn't, which never happens."""
    inputs = [2 * i for i in range(1, gates + 2)]
    lines, last = [], inputs[0]
    for operand in inputs[1:]:
        gate = 2 * (len(inputs) + len(lines) + 1)
        lines.append(f"{gate} {gate - 2 if lines else last} {operand}")
        last = gate
    bad = last + 2
    lines.append(f"{bad} {last} {inputs[0] ^ 1}")
    return "\n".join([f"aag {bad // 2} {len(inputs)} 0 0 {len(lines)} 1", *map(str, inputs), str(bad), *lines, ""])


def clauses_of(text):
    """Returns the clauses of a DIMACS file, numbered from 1."""
    lines = (line for line in text.splitlines() if line and line[0] not in "cp")
    return {i: [int(word) for word in line.split()[:-1]] for i, line in enumerate(lines, 1)}


def hints(clauses, assumed):
    """Returns the numbers of the clauses with which unit propagation finds a conflict, in order, if the given literals are true."""
    known, used = set(assumed), []
    while True:
        for number, clause in clauses.items():
            left = [literal for literal in clause if -literal not in known]
            if not left:
                return [*used, number]
            if len(left) == 1 and left[0] not in known:
                known.add(left[0])
                used.append(number)
                break
        else:
            sys.exit("the clauses don't propagate to a conflict")


def implied(clauses):
    """Returns the clause that follows along the longest chain of clauses of two literals."""
    follows = {}
    for clause in clauses.values():
        for literal, other in itertools.permutations(clause) if len(clause) == 2 else []:
            follows.setdefault(-literal, []).append(other)
    ways = {literal: 0 for literal in follows}
    longest = (0, None, None)
    for literal in follows:
        seen, level = {literal}, [literal]
        while following := [other for one in level for other in follows.get(one, []) if other not in seen]:
            seen.update(following)
            level = following
            ways[literal] += 1
        longest = max(longest, (ways[literal], literal, level[0]), key=lambda it: it[0])
    return [-longest[1], longest[2]]


def write_proof(clauses, size, out):
    """Writes a proof of at least the given size, and returns the number of steps that add a clause."""
    clause = implied(clauses)
    tail = " ".join(map(str, [*clause, 0, *hints(clauses, [-literal for literal in clause]), 0])) + "\n"
    number, written = len(clauses) + 1, 0
    while written < size:
        block = range(number, number + KEPT)
        added = "".join([f"{i} {tail}" for i in block])
        deleted = f"{block[-1]} d {' '.join(map(str, block))} 0\n"
        written += out.write((added + deleted).encode())
        number += KEPT
    out.write(f"{number} 0 {' '.join(map(str, hints(clauses, [])))} 0\n".encode())
    return number - len(clauses)


def measure(tools, size, folder):
    """Prints the row of one size."""
    aigtool, aigcheck = tools
    file, clauses = folder / "chain.aag", folder / "clauses"
    file.write_text(chain(GATES))
    with clauses.open("wb") as made:
        if run([aigtool, "query", file, "0"], made)[0] != 0:
            sys.exit(f"{aigtool} prints no clauses")
    begun = time.monotonic()
    child = subprocess.Popen([aigcheck, "refuted", file, "0", "/dev/stdin"], stdin=subprocess.PIPE, stdout=subprocess.DEVNULL)
    with child.stdin:
        steps = write_proof(clauses_of(clauses.read_text()), size, child.stdin)
    _, status, usage = os.wait4(child.pid, 0)
    if status != 0:
        sys.exit(f"{aigcheck} refuses the proof")
    seconds, used = time.monotonic() - begun, usage.ru_utime + usage.ru_stime
    row(f"{size / 1e9:g} GB", f"{steps:,}", f"{seconds:.1f} s", f"{used:.1f} s", f"{usage.ru_maxrss / 1024:.0f} MiB")


def main():
    if len(sys.argv) < 3:
        sys.exit(__doc__.split("\n", maxsplit=1)[0])
    heads("proof", "steps", "by the clock", "processor time", "peak")
    for word in sys.argv[3:] or ["1", "10"]:
        with new_folder() as folder:
            measure(sys.argv[1:3], int(float(word) * 1e9), folder)


main()
