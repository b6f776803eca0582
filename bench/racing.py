#!/usr/bin/env python3
"""Measures the cost of running all engines side by side: run racing [TIMES [NAME ..]]

For the files of tests/designs, and those that yosys makes of the designs in tests/verilog that only ABC's pdr decides, after seconds, a
row has: the engine that answers first if each runs alone, the seconds of bin/aigprove with only this engine, its seconds with all engines,
and the seconds by which all engines take longer than the sum of the engine's program, the check of its evidence and 0.3 s. This last number
is negative if they take less. Processor seconds of all programs are in parentheses. Each number is the median of TIMES (5) runs, which take
turns. The time of the program and the check is the time of aigprove with the engine minus its time on a file without latches, which is in
the first row."""
import os
import pathlib
import statistics
import subprocess
import sys
import time

from measuring import CHECK, DESIGNS, EDIT, PROVE, TESTS, TOOL, compile_aigprove, heads, new_folder, row

VERILOG = [("fifo_data", ""), ("fifo_data", "WIDTH=2"), ("credit_link", ""), ("ticket", "")]
PROGRAMS = ["--aigtool", TOOL, "--aigedit", EDIT, "--aigcheck", CHECK]
ENGINES = ["bmc3", "pdr", "bounded", "steps", "windows"]
ANSWERS, MORE = (10, 20), 0.3


def took(file, *words):
    """Returns the seconds of a run, and the processor seconds of all its programs. Returns None if it gives no answer."""
    begun = time.monotonic()
    child = subprocess.Popen([PROVE, *PROGRAMS, "-q", *words, file], stdout=subprocess.DEVNULL)
    _, status, usage = os.wait4(child.pid, 0)
    seconds = time.monotonic() - begun
    return (seconds, usage.ru_utime + usage.ru_stime) if os.waitstatus_to_exitcode(status) in ANSWERS else None


def median(runs):
    """Returns the medians of the seconds of runs."""
    return [statistics.median(own) for own in zip(*runs)]


def first(file):
    """Returns the engine that answers first if each runs alone."""
    found, most = {}, took(file, "--timeout", "60")[0] + 1
    for engine in ENGINES:
        if own := took(file, "--engine", engine, "--timeout", f"{most:.1f}"):
            found[engine] = own[0]
            most = min(most, own[0] + MORE)
    return min(found, key=found.get)


def made(name, parameter, folder):
    """Returns the file that yosys makes of a design."""
    kept = folder / f"{name} {parameter}"
    words = ["--parameter", parameter] if parameter else []
    subprocess.run([PROVE, *PROGRAMS, "--tasks", "--keep", kept, *words, TESTS / "verilog" / f"{name}.v"], stdout=subprocess.DEVNULL, check=True)
    return next(kept.glob("file.a?g"))


def main():
    times, names = int(sys.argv[1]) if len(sys.argv) > 1 else 5, sys.argv[2:]
    compile_aigprove()
    heads("design", "engine", "alone", "all engines", "too long")
    with new_folder() as folder:
        empty = pathlib.Path(folder) / "empty.aag"
        empty.write_text("aag 0 0 0 0 0 1\n0\n")
        least = median([took(empty) for _ in range(times)])
        row("none", "", f"{least[0]:.2f} ({least[1]:.2f})", "", "")
        files = {path.stem: path for path in sorted(DESIGNS.glob("*.aig")) if not names or path.stem in names}
        files |= {f"{name} {word}".strip(): made(name, word, pathlib.Path(folder)) for name, word in VERILOG if not names or name in names}
        for name, file in files.items():
            engine = first(file)
            alone, every = map(median, zip(*([took(file, "--engine", engine), took(file)] for _ in range(times))))
            beyond = every[0] - alone[0] + least[0] - MORE
            row(name, engine, *(f"{seconds:.2f} ({used:.2f})" for seconds, used in [alone, every]), f"{beyond:.2f}")


if __name__ == "__main__":
    main()
