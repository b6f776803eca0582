#!/usr/bin/env python3
"""Counts the instructions of calls on circuits in memory with callgrind: run handles [GATES
[STEPS]]

A file of GATES (100000) random gates is read, written, unrolled for STEPS (5) further steps, and
encoded as clauses. Each call is compared with the command that does the same. The script fails if
the ratio is above 1.05. It also fails if a call of `aig_circuit_new_and_node` takes more than 150
instructions in addition to the library's own function.

Files and texts are copied from memory to memory, whereas the operating system copies those of a
program. The C library copies large pieces with one instruction, which callgrind counts once for
each byte. So the script makes it copy with other instructions.
"""
from __future__ import annotations

import dataclasses
import os
import re
import subprocess
import sys
from collections.abc import Sequence
from pathlib import Path

from measuring import HERE, heads, make, row, run
# Which measuring finds.
from harness import EDIT, TESTS, TOOL, TOP, new_folder, parser

MOST_RATIO, MOST_BESIDE = 1.05, 150
COPYING = {"GLIBC_TUNABLES": "glibc.cpu.x86_rep_movsb_threshold=1000000000"}
COUNT = 20_000
CALL, FUNCTION = "aig_circuit_new_and_node", "aig_build::build::new_and_node"
# The instructions of a function, including those of the functions that it calls, and its name
# without its types.
COST = re.compile(r"^ *([\d,]+) .*?:((?:aig|main)[\w:]*)(?:::<#\w+>)? \[", re.MULTILINE)


@dataclasses.dataclass
class Compared:
    """A call, the arguments of the program that makes it and of the command with which it is
    compared, and functions of the command. The instructions of these functions are added up, or
    those of the last function are subtracted if `less` is true."""

    call: str
    words: list[str]
    command: list[str]
    functions: list[str]
    less: bool = False

    def cost_of_command(self, costs: dict[str, int]) -> int:
        found = [costs[name] for name in self.functions]
        return found[0] - found[1] if self.less else sum(found)


def compared(path: str, steps: str) -> list[Compared]:
    """Returns the comparisons for a file."""
    reading = ["aig_reader::reader::read"]
    printing = ["aig_writer::form::write_form", "aig::graph::Aig::check_writable"]
    unrolling = ["aig_edit_commands::acting::write_made", "aig_writer::form::write_text"]
    clauses = ["aig_tool_commands::clauses::print_clauses"]
    text, unroll, cnf = ["text", path], ["unroll", path, steps], ["cnf", path, "0"]
    return [
        Compared("from_aiger", text, [TOOL, *text], reading),
        Compared("write_text", text, [TOOL, *text], printing),
        Compared("unroll_to", unroll, [EDIT, *unroll], unrolling, less=True),
        Compared("cnf", cnf, [TOOL, *cnf], clauses),
    ]


def build(library: Path, folder: Path) -> str:
    """Builds the program that makes calls."""
    program = folder / "handles"
    words: list[str | Path] = ["cc", "-O2", f"-I{TOP / 'include'}", HERE / "handles.c"]
    subprocess.run([*words, library / "libaig.a", "-o", program], check=True)
    return str(program)


def costs(words: Sequence[str], folder: Path) -> dict[str, int]:
    """Returns the instructions of each function of a run, including those of the functions that it
    calls."""
    counts = folder / "counts"
    run(["valgrind", "--tool=callgrind", f"--callgrind-out-file={counts}", *words])
    annotate = ["callgrind_annotate", "--inclusive=yes", "--threshold=100", str(counts)]
    shown = subprocess.run(annotate, capture_output=True, text=True, check=True)
    return {name: int(cost.replace(",", "")) for cost, name in COST.findall(shown.stdout)}


def main() -> bool:
    words = parser(__doc__, GATES=100_000, STEPS=5)
    words.add_argument("--library", metavar="FOLDER", type=Path, help="where libaig.a is")
    given, failed = words.parse_args(), False
    os.environ.update(COPYING)
    with new_folder() as folder:
        if not given.library:
            subprocess.run([TESTS / "archive.py", folder], check=True)
        program, path = build(given.library or folder, folder), str(folder / "random.aag")
        make("random", given.GATES, path)
        heads("call", "instructions", "the command's", "ratio")
        for it in compared(path, str(given.STEPS)):
            mine = costs([program, *it.words], folder)[f"aig_circuit_{it.call}"]
            its = it.cost_of_command(costs(it.command, folder))
            row(it.call, mine, its, f"{mine / its:.3f}")
            failed |= mine > MOST_RATIO * its
        found = costs([program, "and", str(COUNT)], folder)
    mine, its = found[CALL] // COUNT, found[FUNCTION] // COUNT
    row("new_and_node", mine, its, f"{mine - its} beside")
    return failed or mine - its > MOST_BESIDE


if __name__ == "__main__":
    sys.exit(main())
