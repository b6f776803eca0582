"""The types and the layout of Python, and how much of aigprove's trusted modules their unit tests
run."""
from __future__ import annotations

import os
import pathlib
import sys

import harness
import mutants
import pytest
from harness import TESTS, TOP

SUPPORT = TESTS / "support"
# Modules of tests/support, and others of tests, whose types fit.
TYPED_SUPPORT = """aiger archive commands faults fixtures kit languages lines promises reasons room
scripts shown sources strategies surface tables theorems trials""".split()
TYPED_TESTS = """oracles/test_circuits oracles/test_circuit_clients oracles/test_incremental
oracles/test_stepwise oracles/test_subjects prove/test_promises prove/test_widths rows/test_answers
rows/test_calling rows/test_completion rows/test_drop_in rows/test_first_commands rows/test_memory
rows/test_outs rows/test_packages rows/test_process rows/test_release rows/test_repeats
rows/test_scripts rows/test_told rows/test_viewer rows/test_waves support/fresh_root
unit/test_messages unit/test_reasons unit/test_scheduling unit/test_strategies
unit/test_types""".split()
REFERENCE = sorted(map(str, (SUPPORT / "reference").glob("*.py")))
# The modules whose types fit, by the folder that they are read in.
TYPED = {
    TOP / "lib": ["-p", "aigprove", "-p", "dist"],
    SUPPORT: ["--follow-imports=silent", *(f"{name}.py" for name in TYPED_SUPPORT), *REFERENCE],
    TESTS: [
        "--follow-imports=silent", "conftest.py", "support/harness.py",
        *(f"{name}.py" for name in TYPED_TESTS),
    ],
    TOP / "lib" / "python": ["-p", "aig"],
    TOP / "examples": ["--follow-imports=silent", "incremental.py"],
    TESTS / "clients": ["--follow-imports=silent", "circuits.py", "threads.py", "signals.py"],
}
LAID_OUT = {
    TOP / "lib": ["aigprove", "dist"],
    TESTS: ["--exclude", "failed"],
    TOP / "lib" / "python": ["--exclude", "_calls.py", "aig"],
    TOP / "examples": ["incremental.py"],
}


@pytest.mark.typed
@pytest.mark.parametrize("place", TYPED, ids=[path.name for path in TYPED])
def test_types(folder: pathlib.Path, place: pathlib.Path) -> None:
    """mypy finds that types fit."""
    harness.output([TOP / "lib" / "clients.py"])
    path = ":".join(map(str, [SUPPORT, TESTS / "oracles", TOP / "lib", TOP / "lib" / "python"]))
    environment = {**os.environ, "MYPYPATH": path}
    words: list[str | os.PathLike[str]] = [
        "mypy", "--strict", "--ignore-missing-imports", "--cache-dir", folder / "types",
        *TYPED[place],
    ]
    status, printed, said = harness.run(words, cwd=place, env=environment, timeout=600)
    assert status == 0, (printed + said).decode()


@pytest.mark.typed
def test_installed(folder: pathlib.Path) -> None:
    """mypy finds the types of the package aig where it is installed, without a path to it."""
    harness.output([TOP / "lib" / "clients.py"])
    python = folder / "made" / "bin" / "python"
    harness.output([sys.executable, "-m", "venv", "--without-pip", folder / "made"])
    site, = (folder / "made" / "lib").glob("python*/site-packages")
    (site / "aig").symlink_to(TOP / "lib" / "python" / "aig")
    words: list[str | os.PathLike[str]] = ["mypy", "--strict", "--cache-dir", folder / "types"]
    words += ["--python-executable", python, "threads.py", "signals.py"]
    status, printed, said = harness.run(words, cwd=TESTS / "clients", timeout=600)
    assert status == 0, (printed + said).decode()


@pytest.mark.typed
@pytest.mark.parametrize("place", LAID_OUT, ids=[path.name for path in LAID_OUT])
def test_layout(place: pathlib.Path) -> None:
    """flake8 finds no line that is too long, and no name that isn't used."""
    status, printed, _ = harness.run(
        ["flake8", "--max-line-length", "100", *LAID_OUT[place]], cwd=place
    )
    assert status == 0, printed.decode()


@pytest.mark.coverage
def test_coverage(folder: pathlib.Path) -> None:
    """The unit tests of aigprove's trusted modules run at least nine tenths of their lines."""
    modules = ",".join(str(TOP / "lib" / "aigprove" / name) for name in mutants.UNITS)
    environment = {**os.environ, "COVERAGE_FILE": str(folder / "coverage")}
    words = [sys.executable, "-m", "coverage"]
    units = sorted(
        {f"{TESTS}/unit/{module}.py" for parts in mutants.UNITS.values() for module, _ in parts}
    )
    run = [
        *words, "run", f"--include={modules}", "-m", "pytest", "-q", "-p", "no:cacheprovider", "-m",
        "not tools", *units,
    ]
    status, printed, said = harness.run(run, cwd=TOP, env=environment, timeout=600)
    assert status == 0, (printed + said).decode()
    status, printed, _ = harness.run([*words, "report", "--fail-under=90"], env=environment)
    assert status == 0, printed.decode()
