#!/usr/bin/env python3
"""Compares `aigtool` with other programs: run compare TOOL [--yardstick PROGRAM] [--runs N] [--instructions] [GATES ..]

TOOL is the built program, crates/aigtool/out/aigtool after `rt run` in crates/aigtool. PROGRAM is any program with the command line of
aigtool. The outputs of both are compared. If `berkeley-abc` is installed, ABC is run as well (`&r; &w`, `&r; &write_cnf`), and the time
of its start is subtracted. `cat` of the same file is also measured. A file with its gates in any order is compared with TOOL on the file
in order. For each of GATES (100000 1000000 4000000) there is a file of random gates with latches, the same file in any order, a
multiplier, and a pipeline with a twentieth of the gates, which is unrolled for 20 steps. The programs of a row run in turn, N (5) times.
The least processor time of each counts, and the greatest peak of memory. Peaks are compared only if both are above 16 MiB, because the
peak of this script hides smaller ones. With --instructions, callgrind counts instructions instead of time. At the end, the script prints
geometric means of the ratios in the first columns, for each command.
"""
import filecmp
import math
import os
import shutil
import statistics
import subprocess
import sys

from measuring import heads, instructions, make, new_folder, parser, row, run

ABC = shutil.which("berkeley-abc")
SEEN = 16 * 1024
STEPS = 20
REWRITE, CLAUSES = "&r FILE; &w OUT", "&r FILE; &write_cnf OUT"
# The command of the mean to which a row belongs, its arguments, the file, and the commands of ABC.
ROWS = [
    ("text", "text FILE", "random.aag", None),
    ("text", "text FILE", "random.aig", None),
    ("shuffled", "text FILE", "shuffled.aag", None),
    ("binary", "binary FILE OUT", "random.aag", None),
    ("binary", "binary FILE OUT", "random.aig", REWRITE),
    ("strash", "strash FILE", "random.aig", REWRITE),
    ("cnf 0", "cnf FILE 0", "random.aig", CLAUSES),
    ("cnf 0 raw", "cnf FILE 0 raw", "random.aig", None),
    ("binary", "binary FILE OUT", "multiplier.aig", REWRITE),
    ("strash", "strash FILE", "multiplier.aig", REWRITE),
    ("cnf 0", "cnf FILE 0", "multiplier.aig", CLAUSES),
    ("cnf 0 raw", "cnf FILE 0 raw", "multiplier.aig", None),
    (f"cnf {STEPS}", f"cnf FILE {STEPS}", "pipeline.aig", None),
]


def make_files(tool, gates, folder):
    counts = {"random": gates, "shuffled": gates, "multiplier": math.isqrt(gates // 10), "pipeline": gates // STEPS}
    for kind, count in counts.items():
        make(kind, count, folder / f"{kind}.aag")
        if kind != "shuffled":
            subprocess.run([tool, "binary", folder / f"{kind}.aag", folder / f"{kind}.aig"], check=True)


def programs(options, words, commands, file):
    """Returns the command line of each program of a row, and the file that each program writes."""
    made, ordered = {}, file.with_name(file.name.replace("shuffled", "random"))
    beside = ("yardstick", options.yardstick, file) if ordered == file else ("ordered", options.tool, ordered)
    for name, program, read in [("tool", options.tool, file), beside]:
        if program:
            out = str(file.with_name(name))
            made[name] = [program, *({"OUT": out, "FILE": str(read)}.get(word, word) for word in words.split())], out
    if not options.instructions:
        if ABC and commands:
            out = str(file.with_name("abc.aig"))
            made["abc"] = [ABC, "-q", commands.replace("FILE", str(file)).replace("OUT", out)], out
            made["start"] = [ABC, "-q", "quit"], out
        made["cat"] = ["cat", str(file)], str(file.with_name("cat"))
    return made


def run_to(words, out, to_file):
    """Returns the seconds and the peak of memory of a run. The output goes to `out`, unless the program writes this file itself."""
    with open(os.devnull if to_file else out, "wb") as sink:
        status, seconds, peak = run(words, sink)
    if status != 0:
        sys.exit(f"{' '.join(words)} ended with status {status}")
    return seconds, peak


def least(options, made, to_file):
    """Returns the cost of each program of a row, and its peak: instructions and 0, or the least seconds and the greatest peak."""
    costs = {}
    for _ in range(1 if options.instructions else options.runs):
        for name, (words, out) in made.items():
            cost, peak = (instructions(words), 0) if options.instructions else run_to(words, out, to_file and name != "cat")
            before = costs.get(name, (cost, peak))
            costs[name] = min(before[0], cost), max(before[1], peak)
    if "start" in costs:
        costs["abc"] = max(costs["abc"][0] - costs.pop("start")[0], 0), costs["abc"][1]
    return costs


def check_same(made, to_file):
    """Ends the script if PROGRAM prints something else."""
    if "yardstick" in made:
        for name in ["tool", "yardstick"]:
            run_to(*made[name], to_file)
        if not filecmp.cmp(made["tool"][1], made["yardstick"][1], shallow=False):
            sys.exit(f"{made['tool'][1]} is not as {made['yardstick'][1]}")


def ratios(costs, other):
    """Returns the ratios of cost and of peak to another program, if they are known."""
    (mine, peak), (cost, others) = costs["tool"], costs.get(other, (0, 0))
    return mine / cost if cost > 0 else None, peak / others if min(peak, others) > SEEN else None


def shown(ratio):
    return "" if ratio is None else f"{ratio:.2f}"


def measure(options, gates, folder, found):
    """Prints the rows for one number of gates, and adds the ratios to those of each command."""
    make_files(options.tool, gates, folder)
    for kind, words, name, commands in ROWS:
        to_file = "OUT" in words
        made = programs(options, words, commands, folder / name)
        check_same(made, to_file)
        costs = least(options, made, to_file)
        beside = ratios(costs, "ordered" if "ordered" in costs else "yardstick")
        found.setdefault(kind, []).append(beside)
        cost, peak = costs["tool"]
        mine = [f"{cost / 1e6:.1f} million"] if options.instructions else [f"{cost:.3f} s", f"{peak / 1024:.0f} MiB"]
        others = [beside[0]] if options.instructions else [*beside, *ratios(costs, "abc"), ratios(costs, "cat")[0]]
        row(gates, words.replace(" OUT", "").replace("FILE", name), *map(shown, others), *mine)


def geometric_mean(values):
    """Returns the geometric mean of the known ratios, if there are any."""
    told = [value for value in values if value is not None]
    return statistics.geometric_mean(told) if told else None


def main():
    words = parser(__doc__)
    words.add_argument("tool")
    words.add_argument("--yardstick")
    words.add_argument("--runs", type=int, default=5)
    words.add_argument("--instructions", action="store_true")
    words.add_argument("gates", type=int, nargs="*", default=[100_000, 1_000_000, 4_000_000])
    options = words.parse_intermixed_args()
    times = ["time / yardstick", "peak / yardstick", "time / ABC", "peak / ABC", "time / cat", "time", "peak"]
    heads("gates", "command", *(["instructions / yardstick", "instructions"] if options.instructions else times))
    found = {}
    for gates in options.gates:
        with new_folder() as folder:
            measure(options, gates, folder, found)
    print()
    for kind, values in found.items():
        times, peaks = (shown(geometric_mean(part)) for part in zip(*values))
        row(kind, times, *[peaks] * (not options.instructions))


main()
