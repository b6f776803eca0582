"""Compares the calls on circuits in memory with a plain model of them.

Random scripts of calls are run by the driver of tests/circuits over the library for C. The model in
tests/support/reference says what each call has to print: its status, what it tells, and a sum of
all that is held, which a refused call has to leave as it was. The commands of aigtool and aigedit
that do the same are compared with the model, too.

Each request for memory of each call is refused in turn, too. If valgrind is installed, the driver
is run by it, and built with the sanitizers of addresses and of undefined behaviour; and two threads
make calls, each on handles of its own, under the sanitizer of threads.
"""
from __future__ import annotations

import collections
import os
import pathlib
import random
import shlex
from collections.abc import Callable, Iterator, Sequence
from typing import NamedTuple

import harness
import pytest
from damaged import made_file
from harness import Checks
from hypothesis import given
from reference import files, header, transforms
from reference.circuit import Circuit
from reference.clauses import clauses
from reference.scripts import END, Script, Writer
from strategies import cases, choices

SOURCES = harness.TESTS / "circuits"
LINES = 40
# How many scripts have requests for memory refused, are run by sanitizers, and by valgrind; and how
# many seconds a driver and two threads have.
REFUSED, SANITIZED, CHECKED, SECONDS, THREADS = 300, 2000, 50, 1000, 5
# The calls that ask for no memory, whatever they are given.
QUIET = set("""
free set_next set_init set_node set_edge clear_edges clear_justice num_nodes inputs num_justice
has_node has_edge is_free_leaf is_closed fits_lits admits begins_with simulation_free
simulation_has_value simulation_value unrolling_free unrolling_steps unrolling_added_inputs
""".split())
SANITIZERS = ["-fsanitize=address,undefined", "-fno-sanitize-recover=all"]
REFUSING = [f"-Wl,--wrap={name}" for name in ("malloc", "realloc", "calloc", "free")]


def short(name: str) -> str:
    """Returns a call's name, without `circuit_` where it begins so."""
    return name.removeprefix("circuit_")


class Library:
    """The library in a folder, and what is built over it there."""

    def __init__(self, folder: pathlib.Path, include: pathlib.Path) -> None:
        self.folder, self.include = folder, include
        self.calls = {call.name: call for call in header.calls(include)}
        self.statuses = header.statuses(include)
        (folder / "made.h").write_text(header.table([*self.calls.values()]), encoding="utf-8")

    def build(self, name: str, *flags: str, suffix: str = "") -> pathlib.Path:
        """Builds a file of C over the archive, as a program of its name and the suffix."""
        words = [*shlex.split(os.environ.get("CC") or "cc"), "-O2", "-Wall", "-Wextra", "-Werror"]
        words += [f"-I{self.include}", f"-I{self.folder}", str(SOURCES / f"{name}.c")]
        program = self.folder / f"{name}{suffix}"
        words += [str(self.folder / "libaig.a"), *flags, "-o", str(program)]
        harness.build(words)
        return program


class Ended(NamedTuple):
    """What differed in some scripts, and how many refusals of memory each call saw."""

    faults: list[str]
    refusals: collections.Counter[str]


def script_of(library: Library, rng: random.Random) -> Script:
    """Returns a random script."""
    return Writer(rng, library.calls, Script(library.statuses), made_file).fill(LINES)


def run_all(driver: Sequence[str], scripts: Sequence[Script]) -> Ended:
    """Runs scripts by a driver, and returns the first line of each that differs, if any."""
    text = "".join(line.text + "\n" for one in scripts for line in [*one.lines, END])
    status, out, said = harness.run(driver, input=text.encode(), timeout=SECONDS)
    printed = iter(out.decode().splitlines())
    found = [fault for one in scripts if (fault := first_fault(one, printed))]
    if status or said:
        ended = f"the driver ended with {status}: {said.decode(errors='replace')[-3000:]}"
        found.insert(0, ended)
    pairs = (line.partition(": ") for line in printed)
    return Ended(found, collections.Counter({short(name): int(count) for count, _, name in pairs}))


def first_fault(script: Script, printed: Iterator[str]) -> str | None:
    """Returns the first line of a script that prints something else, with those before it."""
    lines, found = [*script.lines, END], list[tuple[int, str]]()
    for place, line in enumerate(lines):
        given = next(printed, "nothing")
        while given.startswith("request"):
            found.append((place, given))
            given = next(printed, "nothing")
        if given != line.wanted:
            found.append((place, given))
    if not found:
        return None
    place, given = found[0]
    before = "\n".join(line.text for line in lines[:place + 1])
    return f"{before}\n  wanted {lines[place].wanted}\n  given  {given}"


# ---- the programs

# The words of a command, and what it prints of a circuit, if it takes it.
Answer = tuple[list[str], Callable[[Circuit], "bytes | None"]]
# What aigtool says of a file but for the faults of a section.
FAULTS = {"HEADER": "bad header line", "TOO_MANY": "too many variables"}
FAULTS |= {"DELTA": "bad difference", "NAME": "bad name line"}


def dimacs(circuit: Circuit, optimize: bool) -> bytes:
    """Returns the clauses of a circuit as a file."""
    found = [clause for given in clauses(circuit, optimize) for clause in given]
    rows = ["".join(f"{'-' * (it % 2)}{it // 2 + 1} " for it in clause) + "0\n" for clause in found]
    return f"p cnf {len(circuit.nodes)} {len(found)}\n{''.join(rows)}".encode()


def commands(steps: int) -> list[Answer]:
    """Returns the commands that are compared, each with what it prints of a circuit."""
    k = str(steps)
    return [
        ([harness.TOOL, "text", "FILE"], files.text),
        ([harness.TOOL, "strash", "FILE"], lambda it: files.text(transforms.hashed(it))),
        ([harness.TOOL, "cnf", "FILE", k], lambda it: dimacs(transforms.unrolled(it, steps), True)),
        ([harness.TOOL, "cnf", "FILE", k, "raw"],
         lambda it: dimacs(transforms.unrolled(it, steps), False)),
        ([harness.EDIT, "refine", "FILE"], lambda it: files.text(transforms.refined(it))),
        ([harness.EDIT, "reencode", "FILE"], lambda it: files.text(transforms.reencoded(it))),
        ([harness.EDIT, "unroll", "FILE", k],
         lambda it: files.text(transforms.unrolled(it, steps))),
        ([harness.EDIT, "merge", "FILE", "FILE"], lambda it: files.text(doubled(it))),
        ([harness.EDIT, "compress", "FILE"], lambda it: files.text(compressed(it))),
        ([harness.EDIT, "move", "FILE"], moved),
    ]


def fault_text(status: str) -> str:
    """Returns what aigtool says of a file that is refused with a status."""
    kind, _, section = status.lower().partition("_")
    return FAULTS.get(status) or f"bad {'line' if kind == 'syntax' else kind} in {section}"


def doubled(circuit: Circuit) -> Circuit:
    """Returns a circuit with itself beside it."""
    made = circuit.copy()
    transforms.merge(made, circuit)
    return made


def compressed(circuit: Circuit) -> Circuit:
    made = circuit.copy()
    transforms.compress(made)
    return made


def moved(circuit: Circuit) -> bytes | None:
    """Returns what aigedit prints without constraints, where there aren't several bad literals."""
    if circuit.constraints and len(circuit.bads) > 1:
        return None
    return files.text(transforms.moved(circuit))


def check_file(checks: Checks, data: bytes, steps: int, folder: pathlib.Path) -> None:
    """Compares the commands with the model on a file of these bytes."""
    path, out = folder / "FILE", folder / "OUT"
    path.write_bytes(data)
    try:
        circuit = files.read(data, 1 << 24)
    except files.Refusal as refusal:
        refused = 1, b"", f"aigtool: {fault_text(str(refusal))}\n".encode()
        checks.wants(f"{data!r}", refused, harness.run([harness.TOOL, "text", path]))
        return
    for words, answer in commands(steps):
        status, printed, _ = harness.run([path if word == "FILE" else word for word in words])
        wanted = answer(circuit)
        ended = int(wanted is None), wanted or b""
        checks.wants(f"{words[1:]} of {data!r}", ended, (status, printed))
    harness.run([harness.TOOL, "binary", path, out])
    checks.wants(f"the binary form of {data!r}", files.binary(circuit), out.read_bytes())


# ---- the tests


@pytest.fixture(scope="module")
def built(library: pathlib.Path) -> Library:
    """The library for C, over which drivers are built."""
    return Library(library, harness.TOP / "include")


@pytest.fixture(scope="module")
def driver(built: Library) -> str:
    """The driver of scripts, which may refuse requests for memory."""
    return str(built.build("driver", *REFUSING))


def seeded(library: Library, count: int) -> list[Script]:
    """Returns so many random scripts, the same ones each time."""
    return [script_of(library, random.Random(1_000_003 + number)) for number in range(count)]


@cases(300, 20000)
@given(rng=choices())
def test_script(built: Library, driver: str, checks: Checks, rng: random.Random) -> None:
    """A random script prints what the model says."""
    checks.wants("a script", [], run_all([driver], [script_of(built, rng)]).faults)


@cases(30, 200)
@given(rng=choices())
def test_file(folder: pathlib.Path, checks: Checks, rng: random.Random) -> None:
    """The commands of aigtool and aigedit print what the model says of a random file."""
    check_file(checks, made_file(rng), rng.randrange(4), folder)


@pytest.mark.valgrind
def test_memory(built: Library, driver: str, checks: Checks) -> None:
    """A call whose memory is refused leaves all as it was. Each call that asks is refused some."""
    ended = run_all([driver, "memory"], seeded(built, REFUSED))
    checks.wants("scripts", [], ended.faults)
    asking = set(map(short, built.calls)) - QUIET
    checks.wants("calls that ask for memory", sorted(asking), sorted(ended.refusals))


@pytest.mark.valgrind
def test_sanitizers(built: Library, checks: Checks) -> None:
    """Scripts run under the sanitizers of addresses and of undefined behaviour."""
    words = [str(built.build("driver", *REFUSING, *SANITIZERS, suffix="-sanitized"))]
    checks.wants("scripts", [], run_all(words, seeded(built, SANITIZED)).faults)


@pytest.mark.valgrind
def test_valgrind(driver: str, built: Library, checks: Checks) -> None:
    """Scripts run under valgrind."""
    words = ["valgrind", "-q", "--error-exitcode=9", "--leak-check=full", driver]
    checks.wants("scripts", [], run_all(words, seeded(built, CHECKED)).faults)


@pytest.mark.valgrind
def test_threads(built: Library) -> None:
    """Two threads make calls under the sanitizer of threads."""
    words = [str(built.build("threads", "-fsanitize=thread", "-pthread")), str(THREADS)]
    assert harness.run(words, timeout=None) == (0, b"", b"")
