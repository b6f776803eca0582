"""Common parts of all tests: the paths of programs, running a program, escaped bytes, and counted
checks."""
from __future__ import annotations

import argparse
import compileall
import contextlib
import hashlib
import os
import pathlib
import re
import resource
import shlex
import shutil
import signal
import subprocess
import sys
import tempfile
from collections.abc import Callable, Iterator, Mapping, Sequence
from typing import Any

# An argument of a command.
Word = str | bytes | os.PathLike[str]
TESTS = pathlib.Path(__file__).resolve().parent.parent
TOP = TESTS.parent
# So that scripts find the package of aigprove.
sys.path.append(str(TOP / "lib"))
# The message of each program about wrong arguments.
USAGE = {
    "aigtool": (
        b"usage: aigtool text FILE, binary FILE OUT, strash FILE, cnf FILE K [raw], query FILE K"
        b" [raw]\n"
    ),
    "aigedit": (
        b"usage: aigedit [--limit N] refine FILE, reencode FILE, unroll FILE K, move FILE, compress"
        b" FILE, bads FILE, property FILE N, possible FILE, reduce FILE, cone FILE N, question FILE"
        b" K, live FILE J, rounds FILE J N, info FILE, [--constraints first|compared] miter FILE"
        b" OTHER, [--constraints first|compared] miter-alike-by-order FILE OTHER, [--constraints"
        b" first|compared] miter-alike-by-name FILE OTHER, join FILE CERT, merge FILE OTHER\n"
    ),
    "aigcheck": (
        b"usage: aigcheck [--limit N] [--property N | --possible | --outputs | (--justice J |"
        b" --endless) [--rounds N]] clauses FILE K [raw], window FILE K [distinct] [raw], refuted"
        b" FILE K PROOF [raw], inductive FILE K PROOF [distinct] [raw], witness FILE K SOLUTION"
        b" [raw], run FILE WITNESS, certified FILE CERT BASE STEP [raw], [--constraints"
        b" first|compared] equal FILE OTHER K PROOF [raw], obligations FILE CERT [raw], bounded"
        b" FILE K [raw], refuted FILE to K PROOF [raw], witness FILE to K SOLUTION [raw], safe FILE"
        b" to K BASE STEP [distinct] [raw | raw-base | raw-step], safe FILE each K P0 .. PK STEP"
        b" [distinct] [raw | raw-base | raw-step], [--constraints first|compared] equal FILE OTHER"
        b" to K BASE STEP [distinct] [raw | raw-base | raw-step], [--constraints first|compared]"
        b" equal FILE OTHER by CERT BASE STEP [raw], equal-alike-by-order and equal-alike-by-name"
        b" as equal, certified FILE WITNESS RESET TRANSITION PROPERTY BASE STEP [raw], obligations"
        b" FILE WITNESS CONDITION [raw]\n"
    ),
}
TOOL, EDIT, CHECK = (
    str(TOP / "crates" / name / "out" / name) for name in ["aigtool", "aigedit", "aigcheck"]
)
PROVE = str(TOP / "bin" / "aigprove")
# The commands of ABC that write a circuit in another format, with an inverter after each latch that
# is initially 1.
RESYN = (
    "balance; rewrite; refactor; balance; rewrite; rewrite -z; balance; refactor -z; rewrite -z;"
    " balance"
)
FORMS = {
    "dc2": "dc2",
    "resyn2": RESYN,
    "dch": "dch; strash",
    "scorr, dc2": "scorr; dc2",
    "retime, dc2": "retime; strash; dc2",
    "retime -M 1": "retime -M 1; strash",
    "retime -M 2": "retime -M 2; strash",
    "dretime, dc2": "dretime; strash; dc2",
}
# The number of seconds in which a program has to end.
SECONDS = 100
REPEATED = re.compile(r"\{([^{}]*)\}\*(\d+)")
SPELLED = re.compile(r"\\n|\\x([0-9a-f]{2})")
# The name of a file and the location in it, which follow the name of the program in a message.
NAMED = re.compile(
    (
        rb"^(aigcheck|aigedit): (?!query: |window: |base: |step: |reset: |transition: |property:"
        rb" )[^ :]+: (?:(?:line|byte) \d+: )?"
    ),
    re.M,
)
# The notes about files that a program prints with its answer.
NOTICES = [
    b"justice and fairness were not looked at", b"compared only on runs that its constraints allow",
]
BESIDE = re.compile(rb"^aig(?:check|edit): (?:.*: )?(?:%s)\n" % b"|".join(NOTICES), re.M)
# The end of aigcheck's message if it refuses a proof that may belong to other clauses, and the
# advice that follows.
MISFITS = (
    b"proof step does not follow\n",
    b"proof step has not the RAT property\n",
    b"literal of no variable in proof\n",
    b"number of no clause in proof\n",
    b"proof ends before the empty clause\n",
)
ADVICE = (
    b"aigcheck: it may be a proof of other clauses: of another K, another file, or the other"
    b" setting (raw)\n"
)


def compile_aigprove() -> None:
    """Compiles aigprove's modules, as ./install does, before aigprove is measured. Python may be
    configured not to write bytecode by itself."""
    compileall.compile_dir(TOP / "lib" / "aigprove", quiet=1)


def parser(doc: str | None, *programs: str, **numbers: int) -> argparse.ArgumentParser:
    """Returns the arguments of a script. For each of the given programs there is an option for its
    path, such as `--aigtool PATH`, whose default is the program that `rt run` builds. The given
    numbers follow, and the last ones may be left out."""
    made = argparse.ArgumentParser(
        description=doc, formatter_class=argparse.RawDescriptionHelpFormatter
    )

    def path(word: str) -> pathlib.Path:
        return pathlib.Path(word).resolve()

    for name in programs:
        built = TOP / "crates" / name / "out" / name
        made.add_argument(
            f"--{name}", metavar="PATH", type=path, default=built, help="the built program"
        )
    for name, default in numbers.items():
        made.add_argument(name, nargs="?", type=int, default=default)
    return made


class Checks:
    """Counts the checks of a test. The first check that fails ends the test."""

    def __init__(self) -> None:
        self.passed = 0

    def check(self, holds: object, what: str) -> None:
        """Fails with the given message unless a condition is true."""
        __tracebackhide__ = True
        if not holds:
            raise AssertionError(what)
        self.passed += 1

    def wants(self, what: object, wanted: object, given: object) -> None:
        """Fails unless the given value is the wanted one. `what` names the case."""
        __tracebackhide__ = True
        if given != wanted:
            raise AssertionError(f"{what}\n  wanted {wanted}\n  given  {given}")
        self.passed += 1


def run(words: Sequence[Word], **how: Any) -> tuple[int | None, bytes, bytes]:
    """Runs a program, and returns its status, its standard output and its standard error, as bytes.
    If the program doesn't end, the status is None."""
    streams = {"stdout": subprocess.PIPE, "stderr": subprocess.PIPE}
    options: dict[str, Any] = {**streams, "timeout": SECONDS, **how}
    try:
        done = subprocess.run(words, **options)
    except subprocess.TimeoutExpired:
        return None, b"", b"it did not end"
    return done.returncode, done.stdout or b"", done.stderr or b""


def unnamed(said: bytes) -> bytes:
    """Returns a message of a program without the names of files and the locations in them."""
    return NAMED.sub(rb"\1: ", said)


def alone(said: bytes) -> bytes:
    """Returns the messages of a program without the notes about files that follow its answer."""
    return BESIDE.sub(b"", said)


def advised(said: bytes) -> bytes:
    """Returns a message of a program, with the advice that aigcheck prints after it."""
    return said + ADVICE * said.endswith(MISFITS)


def output(
    words: Sequence[Word], statuses: Sequence[int] = (0,), **how: Any
) -> str:
    """Runs a program, which has to end with one of the given statuses, and returns its standard
    output as text."""
    status, printed, said = run(words, **how)
    if status not in statuses:
        why = f"ended with status {status}: {said.decode('utf-8', 'replace')}"
        raise AssertionError(f"{words[0]!s} {why}\n{shlex.join(map(str, words))}")
    return printed.decode()


def build(words: Sequence[Word]) -> None:
    """Runs a compiler, which gets more time than other programs, because the machine may be busy.
    """
    output(words, timeout=10 * SECONDS)


def shown_again(folder: str | os.PathLike[str]) -> str | None:
    """Runs check.sh in a folder that aigprove wrote, and returns its output as text, or None if it
    fails."""
    environment = {**os.environ, "AIGCHECK": CHECK, "AIGEDIT": EDIT}
    status, printed, _ = run([os.path.join(folder, "check.sh")], env=environment)
    return printed.decode() if status == 0 else None


def limit(what: int, count: int) -> Callable[[], None]:
    """Returns a function for `preexec_fn` that limits a process."""
    return lambda: resource.setrlimit(what, (count, count))


def limit_files(count: int, ignore: bool = True, most: int | None = None) -> Callable[[], None]:
    """Returns a function that limits the size of files. A write beyond the limit fails if the
    signal is ignored. By default, the signal ends the program. The process may raise the limit to
    `most`."""

    def before() -> None:
        if ignore:
            signal.signal(signal.SIGXFSZ, signal.SIG_IGN)
        resource.setrlimit(resource.RLIMIT_FSIZE, (count, most or count))

    return before


@contextlib.contextmanager
def limited_files(count: int) -> Iterator[None]:
    """Limits the size of files for programs that are started meanwhile. A write past that fails in
    a program that is started with `restore_signals=False`, since Python ignores the signal. This is
    faster than `limit_files`, for which the process of the tests is copied."""
    before = resource.getrlimit(resource.RLIMIT_FSIZE)
    resource.setrlimit(resource.RLIMIT_FSIZE, (count, before[1]))
    try:
        yield
    finally:
        resource.setrlimit(resource.RLIMIT_FSIZE, before)


def shim(source: str, folder: pathlib.Path) -> pathlib.Path:
    """Builds a library from a C file in the folder tests, which LD_PRELOAD loads before the
    system's libraries, and returns its path. The compiler is $CC, cc, clang or gcc."""
    library = folder / f"{pathlib.Path(source).stem}.so"
    compiler = next(filter(shutil.which, [os.environ.get("CC", "cc"), "clang", "gcc"]), "cc")
    build([compiler, "-O2", "-shared", "-fPIC", "-o", library, TESTS / source, "-ldl"])
    return library


def write_files(folder: pathlib.Path, files: Mapping[str, bytes]) -> None:
    for name, data in files.items():
        (folder / name).write_bytes(data)


def repeated(line: str) -> str:
    """Returns the line with each piece in braces, `{PIECE}*N`, repeated N times. A `#` in a piece
    becomes 2, 4 and so on."""

    def all_of(piece: re.Match[str]) -> str:
        return "".join(piece[1].replace("#", str(2 * i)) for i in range(1, int(piece[2]) + 1))

    return REPEATED.sub(all_of, line)


def spelled(text: str) -> bytes:
    """The bytes of a text in which `\\n` is a line feed and `\\x` a byte in hexadecimal."""

    def said(found: re.Match[str]) -> str:
        return chr(int(found[1], 16)) if found[1] else "\n"

    return SPELLED.sub(said, text).encode("latin-1")


def rows(path: pathlib.Path) -> list[list[str]]:
    """Returns the cells of each row of a table, except empty lines and lines that begin with #."""
    lines = path.read_text(encoding="utf-8").splitlines()
    return [line.split("\t") for line in lines if line and line[0] != "#"]


def title(words: str, *files: bytes) -> bytes:
    """Returns the header comment of the clauses that aigcheck prints for these arguments and files
    with these bytes."""
    sums = " ".join(hashlib.sha256(data).hexdigest() for data in files)
    return f"c aigcheck {words} sha256 {sums}\n".encode()


def files(path: pathlib.Path) -> dict[str, bytes]:
    """Returns the bytes of files, by the names that a table uses."""
    return {name: spelled(text) for name, text in rows(path)}


def numbers(*defaults: int) -> list[int]:
    """Returns the numbers of the command line, followed by the default values of the missing ones.
    """
    named = {f"NUMBER{place}": default for place, default in enumerate(defaults, 1)}
    made = parser(sys.modules["__main__"].__doc__, **named)
    return list(vars(made.parse_args()).values())


@contextlib.contextmanager
def new_folder() -> Iterator[pathlib.Path]:
    """Yields the path of a new folder, and removes the folder afterwards."""
    with tempfile.TemporaryDirectory() as name:
        yield pathlib.Path(name)


def crates() -> dict[str, str]:
    """The lines of crates.txt, by the names of the crates. The crates on which a crate depends
    follow the colon."""
    lines = (TOP / "crates.txt").read_text().splitlines()
    return {line.split(":")[0].split()[0]: line for line in lines if line and line[0] != "#"}
