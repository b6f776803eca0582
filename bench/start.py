#!/usr/bin/env python3
"""Measures the processor time of aigprove itself on AIGER files: run start [COUNT [FILE ..]]

This is the time of its own process, without the processes that it starts: engines, the solver and aigcheck. The script prints the median
of COUNT (20) runs for each file, by default those of tests/designs, and for `--version`. A run may take two seconds, because after that
aigprove only waits. The script ends with status 1 if a median is more than a tenth of a second."""
import argparse
import os
import pathlib
import statistics
import subprocess
import sys

TOP = pathlib.Path(__file__).resolve().parent.parent
MOST = 0.1


def used(process):
    """Waits until a process has ended, and returns its own processor seconds. The process isn't reaped yet."""
    os.waitid(os.P_PID, process.pid, os.WEXITED | os.WNOWAIT)
    fields = pathlib.Path(f"/proc/{process.pid}/stat").read_text(encoding="ascii").rpartition(")")[2].split()
    process.wait()
    return sum(map(int, fields[11:13])) / os.sysconf("SC_CLK_TCK")


def median(count, words):
    """Returns the median of several runs of aigprove with the given arguments."""
    times = []
    for _ in range(count):
        times.append(used(subprocess.Popen([TOP / "bin" / "aigprove", *words], stdout=subprocess.DEVNULL, stderr=subprocess.DEVNULL)))
    return statistics.median(times)


def main():
    parser = argparse.ArgumentParser(description=__doc__, formatter_class=argparse.RawDescriptionHelpFormatter)
    parser.add_argument("count", type=int, nargs="?", default=20, help="how many runs")
    parser.add_argument("file", nargs="*", default=sorted(map(str, (TOP / "tests" / "designs").glob("*.aig"))))
    given, found = parser.parse_args(), {}
    for words in [["--version"], *(["-q", "--timeout", "2", file] for file in given.file)]:
        found[words[-1]] = median(given.count, words)
        print(f"{found[words[-1]]:.3f} {pathlib.Path(words[-1]).name}", flush=True)
    sys.exit(1 if max(found.values()) > MOST else 0)


if __name__ == "__main__":
    main()
