"""Fixtures and rules that all tests share.

Each test counts its checks with the fixture `checks`. A test that doesn't use the fixture counts as
one check. The last line of a run has the sums of the counts, and `--by-module` prints the counts
and the seconds of each module.

There is a marker for each tool that may be missing (pytest.ini has the list). If a tool is missing,
the tests that need it are skipped. A skip for any other reason counts as a failure. `-m "not
tools"` leaves out all tests that need such tools.
"""
from __future__ import annotations

import collections
import fcntl
import gc
import os
import pathlib
import shutil
import sys
from collections.abc import Generator, Iterator
from typing import Any

import archive
import fresh_root
import harness
import hypothesis
import pytest
import reasons
import strategies
import tables
from hypothesis.database import DirectoryBasedExampleDatabase

# The bytecode of tests is kept even if Python is configured not to write bytecode. Without it,
# pytest would spend most of its start on compiling all modules.
sys.dont_write_bytecode = False
PROGRAMS = ["aigtool", "aigedit", "aigcheck", "aig_script"]
# The programs of each tool.
TOOLS = {
    "abc": ["berkeley-abc"],
    "cadical": ["cadical"],
    "cargo": ["cargo"],
    "chromium": ["mkdocs", "chromium"],
    "coverage": ["python3-coverage"],
    "cpp": ["g++"],
    "debian": ["dpkg", "dpkg-deb"],
    "fish": ["fish"],
    "gtkwave": ["gtkwave", "vcd2fst", "fst2vcd", "Xvfb"],
    "iverilog": ["iverilog", "vvp"],
    "network": ["apt-get"],
    "parallel": ["parallel"],
    "pkgconfig": ["pkg-config"],
    "rust": ["rustc"],
    "typed": ["mypy", "flake8"],
    "valgrind": ["valgrind"],
    "yosys": ["yosys"],
    "zsh": ["zsh"],
}
# Files that a tool needs in addition to its programs.
FILES = {"cpp": pathlib.Path("/usr/include/cadical.hpp")}
# Things other than programs that may be missing. A test detects this itself, and skips.
CONDITIONS = ["acl", "numpy", "pip", "root"]
# The folder in which pytest and hypothesis store failing cases. The same test tries them first when
# it runs again.
FAILED = harness.TESTS / "failed"
# The number of seconds that a command may take which builds something for tests.
SECONDS = 1800
repeated = reasons.Repeated()


def pytest_addoption(parser: pytest.Parser) -> None:
    group = parser.getgroup("aig", "tests of this repository")
    for name in PROGRAMS:
        path = harness.TOP / "crates" / name / "out" / name
        group.addoption(f"--{name}", metavar="PATH", default=str(path), help="the built program")
    group.addoption("--library", metavar="FOLDER", help="where libaig.a and libaig.so are built")
    group.addoption("--root", metavar="FOLDER", default="/", help="the system on which packages "
                    "are tried, such as debootstrap makes one (this one)")
    group.addoption("--by-module", action="store_true", help="print counts and seconds by module")
    group.addoption("--long", action="store_true", help="try many random cases")
    group.addoption("--seed", type=int, default=1, help="which random cases are tried (1)")


def pytest_configure(config: pytest.Config) -> None:
    """Sets how many random cases are tried, and where failing cases are stored."""
    strategies.is_long = bool(config.getoption("--long"))
    strategies.seed = int(config.getoption("--seed"))
    fresh_root.lower = pathlib.Path(str(config.getoption("--root"))).resolve()
    hypothesis.settings.register_profile(
        "aig",
        deadline=None,
        database=DirectoryBasedExampleDatabase(str(FAILED / "examples")),
        suppress_health_check=list(hypothesis.HealthCheck),
        print_blob=False,
    )
    hypothesis.settings.load_profile("aig")


@pytest.hookimpl(hookwrapper=True)  # type: ignore[misc]
def pytest_collection() -> Generator[None, None, None]:
    """Keeps the garbage collector from traversing thousands of tests, which are never freed."""
    gc.disable()
    yield
    gc.enable()


@pytest.hookimpl(tryfirst=True)  # type: ignore[misc]
def pytest_collection_modifyitems(items: list[pytest.Item]) -> None:
    """Marks the tests that need tools, and lets `-k` find rows by the comments above them."""
    for item in items:
        if any(mark.name in TOOLS for mark in item.iter_markers()):
            item.add_marker("tools")
        row = item.callspec.params.get("row") if hasattr(item, "callspec") else None
        if isinstance(row, tables.Row):
            item.extra_keyword_matches.update(row.keywords)


def missing(tool: str) -> list[str]:
    """Returns the programs and files of a tool that aren't installed."""
    absent = [program for program in TOOLS[tool] if not shutil.which(program)]
    if tool in FILES and not FILES[tool].is_file():
        absent.append(str(FILES[tool]))
    return absent


def pytest_runtest_setup(item: pytest.Item) -> None:
    for mark in item.iter_markers():
        if mark.name in TOOLS and (absent := missing(mark.name)):
            pytest.skip(f"not installed: {', '.join(absent)}")


# ---- what is counted


@pytest.fixture
def checks() -> harness.Checks:
    """Counts the checks of a test."""
    return harness.Checks()


def may_be_skipped(item: pytest.Item) -> bool:
    names = {mark.name for mark in item.iter_markers()}
    return bool(names & (TOOLS.keys() | set(CONDITIONS)))


@pytest.hookimpl(hookwrapper=True)  # type: ignore[misc]
def pytest_runtest_makereport(item: pytest.Item) -> Generator[None, Any, None]:
    """Notes in the report how many checks passed and failed; a skip without a marker fails."""
    report = (yield).get_result()
    if report.skipped and not may_be_skipped(item):
        report.outcome = "failed"
        report.longrepr = f"skipped without the marker of a tool: {report.longrepr}"
    made = getattr(item, "funcargs", {}).get("checks")
    passed = made.passed if made else 0
    if report.failed:
        report.counts = passed if report.when == "call" else 0, 1
    elif report.when == "call" and report.passed:
        report.counts = passed or 1, 0


@pytest.hookimpl(tryfirst=True)  # type: ignore[misc]
def pytest_report_teststatus(report: Any) -> tuple[str, str, str] | None:
    """Counts an error separately if it was already printed for another test."""
    return (reasons.AS_BEFORE, "E", "ERROR") if repeated.is_repeated(report) else None


def pytest_collectreport(report: pytest.CollectReport) -> None:
    """Counts a module that can't be read as a failure."""
    if report.failed:
        setattr(report, "counts", (0, 1))


class Sums:
    """The tests of a module, the checks that passed and failed, and the seconds of all tests."""

    def __init__(self) -> None:
        self.tests = self.passed = self.failed = 0
        self.seconds = 0.0

    def add(self, report: Any) -> None:
        passed, failed = getattr(report, "counts", (0, 0))
        self.tests += getattr(report, "when", "") == "call"
        self.passed += passed
        self.failed += failed
        self.seconds += getattr(report, "duration", 0.0)


def sums_of(reporter: Any) -> dict[str, Sums]:
    """Returns the counts, by module."""
    found: dict[str, Sums] = collections.defaultdict(Sums)
    for reports in reporter.stats.values():
        for report in reports:
            if hasattr(report, "nodeid"):
                found[report.nodeid.partition("::")[0]].add(report)
    return dict(sorted(found.items()))


def pytest_terminal_summary(terminalreporter: Any, config: pytest.Config) -> None:
    """Prints the number of checks, and the reasons why tests failed or were skipped."""
    found = sums_of(terminalreporter)
    if config.getoption("--by-module"):
        for module, own in found.items():
            counts = f"{own.tests} tests, {own.passed} checks passed, {own.failed} failed"
            terminalreporter.write_line(f"{module}: {counts}, {own.seconds:.1f} s")
    for line in reasons.summary(terminalreporter.stats):
        terminalreporter.write_line(line)
    failed = sum(own.failed for own in found.values())
    if failed and (FAILED / "examples").is_dir():
        place = FAILED.relative_to(harness.TOP)
        line = f"{place} keeps random cases that failed: their tests try them first"
        terminalreporter.write_line(line)
    passed = sum(own.passed for own in found.values())
    terminalreporter.write_line(f"checks: {passed} passed, {failed} failed")


# ---- what tests are given


def make(*words: str | os.PathLike[str]) -> None:
    """Runs a command that builds something which tests need. If the command fails, these tests fail
    with the last line of its output. The complete output is printed for the first of them."""
    status, printed, said = harness.run(words, timeout=SECONDS)
    if status != 0:
        told = (printed + said).decode("utf-8", "replace").strip()
        print(told, file=sys.stderr)
        last = told.rpartition("\n")[2] or f"status {status}"
        pytest.fail(f"{pathlib.Path(words[0]).name} failed: {last}", pytrace=False)


def built(config: pytest.Config, name: str) -> pathlib.Path:
    """Returns the path of a program, which has to be built."""
    path = pathlib.Path(str(config.getoption(f"--{name}"))).resolve()
    if not path.is_file():
        pytest.fail(f"{path} isn't built: tests/run builds it, or `rt run` in crates/{name}", False)
    return path


@pytest.fixture(scope="session")
def programs(request: pytest.FixtureRequest) -> dict[str, pathlib.Path]:
    """Returns the paths of aigtool, aigedit and aigcheck, by name."""
    return {name: built(request.config, name) for name in PROGRAMS[:3]}


@pytest.fixture(scope="session")
def aigtool(request: pytest.FixtureRequest) -> pathlib.Path:
    """Returns the path of aigtool."""
    return built(request.config, "aigtool")


@pytest.fixture(scope="session")
def aigedit(request: pytest.FixtureRequest) -> pathlib.Path:
    """Returns the path of aigedit."""
    return built(request.config, "aigedit")


@pytest.fixture(scope="session")
def aigcheck(request: pytest.FixtureRequest) -> pathlib.Path:
    """Returns the path of aigcheck."""
    return built(request.config, "aigcheck")


@pytest.fixture(scope="session")
def aig_script(request: pytest.FixtureRequest) -> pathlib.Path:
    """Returns the path of aig_script."""
    return built(request.config, "aig_script")


@pytest.fixture(scope="session")
def library(request: pytest.FixtureRequest) -> Iterator[pathlib.Path]:
    """Returns a folder with libaig.a and libaig.so, and builds them if necessary."""
    given = request.config.getoption("--library")
    with harness.new_folder() as made, open(archive.__file__, encoding="utf-8") as held:
        # Only one of several workers builds the library.
        fcntl.flock(held, fcntl.LOCK_EX)
        if given:
            make(harness.TOP / "lib" / "clients.py")
            for name in archive.BUILT:
                shutil.copy(pathlib.Path(str(given)) / name, made)
        else:
            make(archive.__file__, made)
        fcntl.flock(held, fcntl.LOCK_UN)
        yield made


@pytest.fixture
def folder() -> Iterator[pathlib.Path]:
    """Yields a new folder, which other users can read, and removes it after the test."""
    with harness.new_folder() as made:
        os.chmod(made, 0o755)
        yield made
