#!/usr/bin/env python3
"""Measures the merge check while it runs: run gate, at the same time as tests/run

The script looks at the toolchain's processes each second, until there have been none for a minute or it is interrupted. Then it prints
for each crate the processor seconds of its proof, of its tests, and of its wrong bodies with the check at their start, the number of
wrong bodies, and the greatest peak of memory.
"""
import collections
import contextlib
import os
import pathlib
import re
import sys
import time

from measuring import TOP, heads, row

TICK = os.sysconf("SC_CLK_TCK")
PARTS = ("proof", "tests", "edits")
QUIET = 60


def processes():
    """Returns the running checks and builds: for each process its number and start, its arguments, its processor seconds and its peak in
    MB."""
    for path in pathlib.Path("/proc").glob("[0-9]*"):
        try:
            words = (path / "cmdline").read_bytes().decode(errors="replace").split("\0")
            fields = (path / "stat").read_text().rpartition(")")[2].split()
            peak = re.search(r"VmHWM:\s*(\d+)", (path / "status").read_text())
        except OSError:
            continue
        if words[0].endswith("/rattle") and "--crate-name" in words:
            yield (path.name, fields[19]), words, sum(map(int, fields[11:13])) / TICK, int(peak[1]) // 1024 if peak else 0


def share(words):
    """Returns the crate on which a process works, and whether it works on the proof, the tests or the wrong bodies of the crate. A
    library is built and a program is checked, so a check of a library belongs to its wrong bodies. The build of a program comes after its
    check, and counts as its proof."""
    name = words[words.index("--crate-name") + 1]
    is_library = (TOP / "crates" / name / "src" / "lib.rt").exists()
    return name, "tests" if "--test" in words else "edits" if words[1] == "check" and is_library else "proof"


def watched():
    """Returns the costs of each process: its crate and kind of work, its seconds and its peak."""
    took, seen = {}, time.monotonic()
    with contextlib.suppress(KeyboardInterrupt):
        while time.monotonic() - seen < QUIET:
            for key, words, seconds, peak in processes():
                took[key], seen = (*share(words), seconds, peak), time.monotonic()
            time.sleep(1)
    return took.values()


def main():
    seconds, peaks = collections.Counter(), collections.Counter()
    for name, part, took, peak in watched():
        seconds[name, part] += took
        peaks[name] = max(peaks[name], peak)
    heads("crate", "its proof", "its tests", "its edits", "how many edits", "peak MB")
    for name in sorted(peaks, key=lambda it: -sum(seconds[it, part] for part in PARTS)):
        edits = len(list((TOP / "crates" / name / "must-fail").glob("*.edit")))
        row(f"`{name}`", *(f"{seconds[name, part]:.0f}" for part in PARTS), edits, peaks[name])
    row("all", *(f"{sum(seconds[name, part] for name in peaks):.0f}" for part in PARTS), "", "")
    return 0 if peaks else 1


if __name__ == "__main__":
    sys.exit(main())
