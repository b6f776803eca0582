#!/usr/bin/env python3
"""Prints tables that compare our programs with others: run beside [--yardstick PROGRAM] [--gates N] [--bits N]

The script runs `bench/run compare` for N (1000000) gates, which compares aigtool with ABC and PROGRAM. PROGRAM has the command line of
aigtool. It runs `bench/run refutations` for multipliers of N (7) bits, which compares the check with the time of cadical and of another
proof checker. And it runs `bench/run bounded`, which compares with ABC's `bmc3`. If a program isn't installed, the script prints this and
leaves it out."""
import shutil
import subprocess
import sys

from measuring import CHECK, HERE, TOOL, parser


def main():
    words = parser(__doc__)
    words.add_argument("--yardstick", metavar="PROGRAM")
    words.add_argument("--gates", metavar="N", default="1000000")
    words.add_argument("--bits", metavar="N", default="7")
    options = words.parse_args()
    if not options.yardstick:
        print("no --yardstick: aigtool stands beside no other program")
    given = ["--yardstick", options.yardstick] if options.yardstick else []
    tables = [["compare.py", TOOL, *given, options.gates]]
    for program, own in {
        "cadical": ["refutations.py", TOOL, CHECK, "cadical", options.bits],
        "berkeley-abc": ["bounded.py"],
    }.items():
        if shutil.which(program):
            tables.append(own)
        else:
            print(f"{program} is not installed: no table of {own[0]}")
    statuses = []
    for name, *own in tables:
        print(f"\n== {name}", flush=True)
        statuses.append(subprocess.run([sys.executable, HERE / name, *own]).returncode)
    return max(statuses)


if __name__ == "__main__":
    sys.exit(main())
