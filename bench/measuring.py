"""Programs, measurements of their runs, and files for them."""
from __future__ import annotations

import os
import pathlib
import subprocess
import sys
from collections.abc import Sequence
from typing import IO

HERE = pathlib.Path(__file__).resolve().parent
sys.path.append(str(HERE.parent / "tests" / "support"))
from harness import CHECK, EDIT, FORMS, PROVE, TESTS, TOOL, TOP, compile_aigprove, new_folder, numbers, parser

DESIGNS = TESTS / "designs"


def run(words: Sequence[object], out: int | IO[bytes] = subprocess.DEVNULL) -> tuple[int, float, int]:
    """Returns the status, the processor seconds and the peak kilobytes of one run. A peak below that of this script, some 12 MiB, can't
    be measured."""
    child = subprocess.Popen(list(map(str, words)), stdout=out, stderr=subprocess.DEVNULL)
    _, status, usage = os.wait4(child.pid, 0)
    return os.waitstatus_to_exitcode(status), usage.ru_utime + usage.ru_stime, usage.ru_maxrss


def instructions(words: Sequence[object]) -> int:
    """Returns the number of instructions that callgrind counts in a run."""
    with new_folder() as folder:
        counts = folder / "counts"
        status, _, _ = run(["valgrind", "--tool=callgrind", f"--callgrind-out-file={counts}", *words])
        if status != 0:
            sys.exit(f"{' '.join(map(str, words))} ended with status {status}")
        return next(int(line.split()[1]) for line in counts.read_text().splitlines() if line.startswith(("totals:", "summary:")))


def row(*words: object) -> None:
    """Returns a row of a table."""
    print(f"| {' | '.join(map(str, words))} |", flush=True)


def heads(*words: object) -> None:
    """Returns the first two rows of a table."""
    row(*words)
    row(*["---"] * len(words))


def make(kind: str, count: int, file: str | pathlib.Path) -> None:
    """Generates a file of circuits.py in a separate process, because the peak of memory of a child process includes that of its parent.
    """
    subprocess.run([sys.executable, HERE / "circuits.py", kind, str(count), file], check=True)
