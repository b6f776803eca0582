"""Compares circuits in C++, Rust and Python with a plain model.

Random scripts of calls, as those of test_circuits.py, are run by an interpreter in each language
over what it has of the library: tests/clients/circuits.cpp over include/aig.hpp, circuits.rs over
lib/rust, and circuits.py over lib/python. The model in tests/support/reference says what each call
has to print: its status, what it tells, and a sum of all that is held.

Clients get memory for answers as these need it, so that no call ends with SMALL here. C++ is
compiled with and without exceptions, by each of g++ and clang++ that there is. Signals are checked,
too (signals.cpp, signals.py), and of Python that threads may share a circuit (threads.py) and that
numpy takes lists as they are (arrays.py). A script depends on its number and on --seed alone.
"""
from __future__ import annotations

import dataclasses
import os
import pathlib
import random
import sys
from collections.abc import Sequence

import harness
import pytest
import strategies
from damaged import made_file
from harness import Checks
from languages import CLIENTS, INCLUDE, cpp_programs, rust_program
from reference import header
from reference.calls import Told
from reference.header import Call
from reference.scripts import END, GREATEST_NUMBER, Script, Word, Writer
from test_circuits import LINES, first_fault

# How many scripts a client runs, how many with --long, and how many of them in one process, which
# has so many seconds.
SCRIPTS, MANY, BATCH, SECONDS = 150, 10_000, 500, 1000


class Roomy(Script):
    """A script whose calls have room for any answer."""

    def add(self, call: Call, words: list[Word]) -> Told:
        has_room = call.parameters[-1].role == "out"
        return super().add(call, [*words[:-1], GREATEST_NUMBER] if has_room else words)


@dataclasses.dataclass(frozen=True)
class Client:
    """An interpreter of scripts: its name, the words that run it, and its environment."""

    name: str
    words: tuple[str, ...]
    environment: tuple[tuple[str, str], ...] = ()


def made(calls: dict[str, Call], statuses: dict[str, int], number: int) -> Script:
    """Returns the script of a number."""
    rng = random.Random(1_000_003 * strategies.seed + number)
    return Writer(rng, calls, Roomy(statuses), made_file).fill(LINES)


def faults(client: Client, scripts: Sequence[Script]) -> list[str]:
    """Returns the first line of each script that a client prints otherwise."""
    text = "".join(line.text + "\n" for script in scripts for line in [*script.lines, END])
    environment = {**os.environ, **dict(client.environment)}
    status, out, said = harness.run(
        client.words, input=text.encode(), timeout=SECONDS, env=environment)
    printed = iter(out.decode().splitlines())
    found = [fault for script in scripts if (fault := first_fault(script, printed))]
    if status or said:
        words = said.decode(errors="replace")[:2000]
        found.append(f"{client.name} ended with {status}: {words}")
    return found


def check_scripts(checks: Checks, *clients: Client) -> None:
    """Has each client run all scripts."""
    calls = {call.name: call for call in header.calls(INCLUDE)}
    statuses = header.statuses(INCLUDE)
    count = MANY if strategies.is_long else SCRIPTS
    for first in range(0, count, BATCH):
        numbers = range(first, min(first + BATCH, count))
        scripts = [made(calls, statuses, number) for number in numbers]
        for client in clients:
            checks.wants(f"scripts in {client.name}", [], faults(client, scripts)[:2])
            checks.passed += len(scripts) - 1


def environment_of(library: pathlib.Path) -> dict[str, str]:
    """Returns the variables by which the module for Python finds a library."""
    module = str(harness.TOP / "lib" / "python")
    return {**os.environ, "LIBAIG": str(library / "libaig.so"), "PYTHONPATH": module}


@pytest.mark.cpp
def test_cpp(library: pathlib.Path, checks: Checks) -> None:
    """Scripts in C++, by each compiler, with exceptions and without."""
    programs = cpp_programs(library, "circuits")
    check_scripts(checks, *(Client(how, (program,)) for how, program in programs))


@pytest.mark.cpp
def test_signals(library: pathlib.Path, checks: Checks) -> None:
    """What scripts don't reach in C++."""
    for how, program in cpp_programs(library, "signals"):
        checks.wants(f"signals by {how}", (0, b"all hold\n", b""), harness.run([program]))


@pytest.mark.rust
def test_rust(library: pathlib.Path, checks: Checks) -> None:
    """Scripts in Rust."""
    check_scripts(checks, Client("Rust", (rust_program(library, CLIENTS / "circuits.rs"),)))


def test_python(library: pathlib.Path, checks: Checks) -> None:
    """Scripts in Python."""
    words = (sys.executable, str(CLIENTS / "circuits.py"))
    check_scripts(checks, Client("Python", words, tuple(environment_of(library).items())))


@pytest.mark.parametrize("name, line", [("threads", b"none lost\n"), ("signals", b"all hold\n")])
def test_python_alone(library: pathlib.Path, name: str, line: bytes) -> None:
    """Threads may share a circuit in Python, and signals are what their operators say."""
    words = [sys.executable, str(CLIENTS / f"{name}.py")]
    assert harness.run(words, env=environment_of(library)) == (0, line, b"")


@pytest.mark.numpy
def test_arrays(library: pathlib.Path) -> None:
    """Numpy takes lists without a copy."""
    pythons = [sys.executable, "/usr/bin/python3"]
    having = [it for it in pythons if harness.run([it, "-c", "import numpy"])[0] == 0]
    if not having:
        pytest.skip("not installed: python3-numpy")
    words = [having[0], "-W", "error", str(CLIENTS / "arrays.py")]
    assert harness.run(words, env=environment_of(library)) == (0, b"shared\n", b"")
