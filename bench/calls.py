#!/usr/bin/env python3
"""Compares calls in the same process with the programs: run calls FILE ..

For each file it takes the queries for the steps 0 to a bound, as far as they have no solution, and prints how long checking their proofs
takes: by `check_refuted` of lib/python/aig, and by a process of aigcheck for each. And for a large circuit, which it makes, each call
that prints beside its program. In processor seconds, the least of some runs. It needs cadical, and the libraries that tests/support/archive.py
builds.
"""
import os
import pathlib
import sys
import time

from measuring import TOP, make, new_folder, parser, row, run

RUNS = 5


def least(work):
    """Returns the least processor time of several runs of a function in this process."""
    times = []
    for _ in range(RUNS):
        start = time.process_time()
        work()
        times.append(time.process_time() - start)
    return min(times)


def least_of_programs(runs):
    """Returns the least processor time of several rounds, each of which runs all programs with their arguments."""
    return min(sum(run(words)[1] for words in runs) for _ in range(RUNS))


def proofs(aig, file, bound, folder):
    """Yields the steps up to a bound that have no solution, each with the path and the bytes of a proof."""
    for k in range(bound + 1):
        query, proof = folder / "query", folder / f"proof{k}"
        query.write_bytes(aig.query(file, k))
        if run(["cadical", "-q", "--no-binary", query, proof])[0] != 20:
            return
        yield k, proof, proof.read_bytes()


def measure_checks(aig, given, path, folder):
    """Returns the row about the checks for a file."""
    file = path.read_bytes()
    found = list(proofs(aig, file, given.bound, folder))
    if found:
        here = least(lambda: [aig.check_refuted(file, k, proof) for k, _, proof in found])
        there = least_of_programs([[given.aigcheck, "refuted", path, k, proof] for k, proof, _ in found])
        row(path.name, len(found), f"{1000 * here / len(found):.2f}", f"{1000 * there / len(found):.2f}")


def measure_prints(aig, given, folder):
    """Yields the rows about the calls that print, for a circuit with the given number of gates."""
    path = folder / "large.aag"
    make(given.kind, given.gates, path)
    file = path.read_bytes()
    for name, call, words in (
        ("text", lambda: aig.text(file), ["text", path]),
        ("binary", lambda: aig.binary(file), ["binary", path, folder / "large.aig"]),
        ("strash", lambda: aig.strash(file), ["strash", path]),
        ("cnf 0", lambda: aig.cnf(file, 0), ["cnf", path, "0"]),
    ):
        row(name, f"{least(call):.3f}", f"{least_of_programs([[given.aigtool, *words]]):.3f}")


def main():
    words = parser(__doc__, "aigtool", "aigcheck")
    words.add_argument("--bound", type=int, default=10, metavar="K")
    words.add_argument("--gates", type=int, default=1_000_000)
    words.add_argument("--kind", default="random")
    words.add_argument("files", type=pathlib.Path, nargs="*")
    given = words.parse_args()
    os.environ.setdefault("LIBAIG", str(TOP / "crates" / "aig_calls" / "out" / "libaig.so"))
    run([TOP / "lib" / "clients.py"])
    sys.path.insert(0, str(TOP / "lib" / "python"))
    import aig

    with new_folder() as folder:
        row("Call", "in process, s", "program, s")
        measure_prints(aig, given, folder)
        row("File", "proofs", "in process, ms each", "aigcheck, ms each")
        for path in given.files:
            measure_checks(aig, given, path, folder)


if __name__ == "__main__":
    main()
