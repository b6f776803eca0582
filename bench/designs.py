#!/usr/bin/env python3
"""Compares bin/aigprove with ABC on the designs of tests/designs: run designs [--equal] [SECONDS [DESIGN ..]]

A row has, for a design, the wall-clock and processor seconds of ABC's `bmc3` and of `pdr`, each alone and for at most SECONDS (60), and
of aigprove with all programs that it runs, and the answer of aigprove. `-` means that there is no answer. The last line has the largest
difference of wall-clock seconds between aigprove and the better of both commands, if one of them answers. The goal is at most one second,
on four cores without other work.

With --equal, each design is compared with the circuits that ABC derives from it. If yosys is installed, the processor in this folder is
compared, too. A row has the seconds of ABC's `dsec` and of aigprove, and the engine that answers. If aigprove takes over a second more,
both are measured again, up to TIMES times in all. The least seconds count, because other work on the machine only adds to them. The last
lines have the medians, and the pairs that took over a second more each time. DESIGN may also be a file."""
import itertools
import os
import pathlib
import shutil
import signal
import statistics
import subprocess
import time

from measuring import DESIGNS, FORMS, HERE, PROVE, compile_aigprove, heads, new_folder, parser, row

PROCESSOR = "read_verilog {}; synth -flatten; dffunmap; abc -g AND; opt_clean; aigmap; write_aiger -zinit {}"
# The largest number of measurements of a pair.
TIMES = 3
DONE = ["was asserted in frame", "Property proved", "Explored all reachable states"]


def timed(words, seconds, errors=subprocess.DEVNULL):
    """Returns the wall-clock and processor seconds of a program with all programs that it runs, and its output, or no output if it takes
    too long."""
    begun, before = time.monotonic(), os.times()
    with subprocess.Popen(words, stdout=subprocess.PIPE, stderr=errors, encoding="utf-8", start_new_session=True) as child:
        try:
            printed, _ = child.communicate(timeout=seconds)
        except subprocess.TimeoutExpired:
            os.killpg(child.pid, signal.SIGKILL)
            printed = ""
    after = os.times()
    return time.monotonic() - begun, sum(after[2:4]) - sum(before[2:4]), printed


def abc(file, command, seconds):
    """Returns the seconds of a command of ABC, or None if it doesn't answer. Constraints and resets are removed from its file first."""
    *took, printed = timed(["berkeley-abc", "-q", f"read_aiger {file}; logic; undc; strash; zero; fold; {command}"], seconds)
    return took if any(done in printed for done in DONE) else None


def shown(took):
    return "-" if took is None else " / ".join(f"{seconds:.2f}" for seconds in took)


def compared(file, form, folder, seconds):
    """Returns the seconds of `dsec` and of aigprove for a design and the circuit that ABC derives from it, and both answers."""
    plain, made = folder / "plain.aig", folder / "made.aig"
    made.unlink(missing_ok=True)
    read = f"read_aiger {file}; logic; undc; strash; zero"
    timed(["berkeley-abc", "-q", f"{read}; write_aiger {plain}; {form}; zero; write_aiger {made}"], seconds)
    calls = [["berkeley-abc", "-q", f"dsec {plain} {made}"], [PROVE, "-v", "--timeout", str(seconds), "--equal", made, plain]]
    tries = []
    while len(tries) < TIMES and (not tries or is_over(*best(tries))):
        tries.append([timed(words, seconds + 5, subprocess.STDOUT) for words in calls])
    return *best(tries), *(said for *_, said in tries[0])


def best(tries):
    """Returns the least seconds of each of two programs, among the runs in which it gives the same answer as in the first."""
    return [min(took[:2] for took in own if answers(took[2]) == answers(own[0][2])) for own in zip(*tries)]


def answers(said):
    """Returns the lines of an answer of aigprove or `dsec`."""
    return [line for line in said.splitlines() if line.startswith(("equal at every", "a difference", "Networks are"))]


def is_over(by_abc, ours):
    """Returns whether aigprove takes over a second more."""
    return ours[0] > by_abc[0] + 1


def compare(files, seconds):
    """Prints the table of comparisons."""
    heads("design", "form", "dsec", "answer", "aigprove", "answer")
    both, slow = [], []
    with new_folder() as folder:
        if shutil.which("yosys") and not files:
            files = [*sorted(DESIGNS.glob("*.aig")), folder / "processor.aig"]
            subprocess.run(["yosys", "-q", "-p", PROCESSOR.format(HERE / "processor.v", files[-1])], check=True)
        for file, (form, commands) in itertools.product(files, FORMS.items()):
            by_abc, ours, said, printed = compared(file, commands, folder, seconds)
            answer = next((word for word in ["NOT EQUIVALENT", "equivalent"] if f"are {word}" in said), "-")
            lines = [line for line in printed.splitlines() if " answered after " in line or line.startswith(("equal at every", "a difference"))]
            row(file.stem, form, shown(by_abc), answer, shown(ours), "; ".join(lines) or "-")
            if answer != "-" and " don't fit: " not in printed:
                both.append((by_abc[0], ours[0]))
                slow += [f"{file.stem} {form}"] * (is_over(by_abc, ours) or not lines)
    medians = ", ".join(f"{statistics.median(it):.2f}" for it in zip(*both))
    print(f"{len(both) - len(slow)} of {len(both)} pairs that dsec answers take at most a second more; median seconds: {medians}")
    print("".join(f"not within a second more: {name}\n" for name in slow), end="")


def main():
    words = parser(__doc__)
    words.add_argument("--equal", action="store_true")
    words.add_argument("seconds", metavar="SECONDS", nargs="?", type=float, default=60)
    words.add_argument("designs", metavar="DESIGN", nargs="*")
    options = words.parse_args()
    seconds, beyond = options.seconds, {}
    compile_aigprove()
    files = [pathlib.Path(name) if name.endswith(".aig") else DESIGNS / f"{name}.aig" for name in options.designs]
    if options.equal:
        compare(files, seconds)
        return
    heads("design", "bmc3", "pdr", "aigprove", "answer")
    for file in files or sorted(DESIGNS.glob("*.aig")):
        by_abc = [abc(file, command, seconds) for command in ["bmc3 -F 2000000", "pdr"]]
        *took, printed = timed([PROVE, "--timeout", str(seconds), file], seconds + 5)
        answers = [line for line in printed.splitlines() if line.startswith(("a bad", "no bad state at any", "no bad state up"))]
        row(file.stem, *map(shown, by_abc), shown(took), (answers or "-")[-1])
        if by_abc != [None, None]:
            beyond[file.stem] = took[0] - min(it[0] for it in by_abc if it is not None)
    if beyond:
        worst = max(beyond, key=beyond.get)
        print(f"aigprove takes at most {beyond[worst]:.2f} s more ({worst}), of {len(beyond)} designs")


if __name__ == "__main__":
    main()
