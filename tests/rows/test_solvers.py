"""Runs bin/aigprove with engines that lie, meddle or break, and under closed outputs and signals.

The engines are shell scripts that were written by hand: a SAT solver, and one in the place of ABC.
Each row of solvers/rows.tsv says what is wanted: the exit status, the lines of standard output and
standard error (its first line, where more follow). After each nothing is left in the temporary
folder, and no program that was started by an engine runs."""
from __future__ import annotations

import contextlib
import gzip
import json
import os
import pty
import re
import shlex
import signal
import subprocess
import sys
import time
from collections.abc import Callable, Iterator, Sequence
from pathlib import Path
from typing import Any

import harness
import pytest
from harness import CHECK, EDIT, PROVE, TOOL, TOP, spelled
from tables import Row, by_row

PIECE = re.compile(r"\{([A-Z_]+)\}")
TABLES = harness.TESTS / "solvers"
PIECES = dict(harness.rows(TABLES / "pieces.tsv"))
# The programs, by the options that name them.
GIVEN = {"aigtool": TOOL, "aigedit": EDIT, "aigcheck": CHECK}
TOOLS = [word for name, path in GIVEN.items() for word in (f"--{name}", path)]


def filled(text: str) -> str:
    """A cell with pieces in the place of their names."""
    return PIECE.sub(lambda found: filled(PIECES[found[1]]), text)


# Kilobytes of memory in which aigprove runs on small files.
MEMORY = 400_000
TOGGLE, STUCK, OLD, REACHED, SAFE = (
    spelled(PIECES[name]).decode() for name in ["TOGGLE", "STUCK", "OLD", "REACHED", "SAFE_LINE"]
)
FILES, REFUTES, SOLVES, ANYTHING, RUN = (
    filled(PIECES[name]) for name in ["FILES", "REFUTES", "SOLVES", "ANYTHING", "RUN"]
)


class Run:
    """A folder with a file and engines, which are scripts, and a temporary folder in it."""

    def __init__(
        self, folder: Path, file: bytes | str, solver: str, abc: str, files: dict[str, bytes | str]
    ) -> None:
        self.folder, self.temporary = folder, folder / "temporary"
        self.temporary.mkdir()
        for name, text in {
            "t.aag": file,
            "solver": f"#!/bin/sh\n{solver}\n",
            "abc": f"#!/bin/sh\n{abc}\n",
            **files,
        }.items():
            (folder / name).write_bytes(text if isinstance(text, bytes) else text.encode())
        for name in ["solver", "abc"]:
            (folder / name).chmod(0o755)
        self.words = [PROVE, *TOOLS, "--solver", "./solver", "--abc", "./abc", "t.aag"]
        self.environment = {**os.environ, "TMPDIR": str(self.temporary), "FOLDER": str(folder)}

    def start(
        self, words: list[str], stdout: int = subprocess.PIPE, stderr: int = subprocess.PIPE
    ) -> subprocess.Popen:
        streams = {
            "stdout": stdout,
            "stderr": stderr,
            "encoding": "ascii",
            "errors": "backslashreplace",
        }
        return subprocess.Popen(words, cwd=self.folder, env=self.environment, **streams)

    def started(self, **streams: Any) -> Any:
        """The process, once an engine has said that it runs."""
        process = self.start(self.words, **streams)
        wait(lambda: (self.folder / "started").exists())
        return process

    def result(
        self, options: list[str], words: Sequence[str] | None = None, **streams: Any
    ) -> tuple[int, str, str, list[Any]]:
        """The status, standard output and standard error with further words, and what is left."""
        process = self.start([*(words or self.words), *options], **streams)
        given, said = finish(process)
        return process.returncode, given, said, self.left()

    def left(self) -> list[Any]:
        """What is left in the temporary folder, and the programs that still run with this one's
        environment."""
        return os.listdir(self.temporary) + [
            name for name in os.listdir("/proc") if name.isdecimal() and self.is_ours(name)
        ]

    def is_ours(self, process: str) -> bool:
        """Whether a process has the environment of this run."""
        try:
            return f"FOLDER={self.folder}".encode() in Path(
                "/proc", process, "environ"
            ).read_bytes().split(b"\0")
        except OSError:
            return False

    def is_program(self, process: Any, names: Any) -> Any:
        """Whether a process runs one of these programs."""
        try:
            return Path("/proc", process, "comm").read_text().strip() in names
        except OSError:
            return False


@contextlib.contextmanager
def running(
    file: bytes | str,
    solver: str = "exit 3",
    abc: str = "exit 3",
    files: dict[str, bytes | str] = {},
) -> Iterator[Run]:
    """A run in a new folder."""
    with harness.new_folder() as folder:
        yield Run(folder, file, solver, abc, files)


def asked(
    options: list[str], *run: bytes | str | dict[str, bytes]
) -> tuple[int, str, str, list[Any]]:
    with running(*run) as made:
        return made.result(options)


def wait(until: Any, seconds: Any = 100) -> None:
    """Waits until something holds, or so many seconds."""
    begun = time.monotonic()
    while not until() and time.monotonic() - begun < seconds:
        time.sleep(0.01)


def finish(process: subprocess.Popen) -> tuple[str, str]:
    """What a process writes, which is ended after a while if it doesn't end."""
    try:
        return process.communicate(timeout=100)
    except subprocess.TimeoutExpired:
        # It ends its engines then.
        process.terminate()
        process.wait(60)
        process.stdout and process.stdout.close()
        return "", "it did not end"


def compared(
    what: bytes | tuple[str, str, str, str, str],
    wanted: tuple[int, str, str],
    given: tuple[int, str, str, list[Any]],
) -> tuple[
    bytes | tuple[str, str, str, str, str],
    tuple[int, str, bool, list[Any]],
    tuple[int, str, bool, list[Any]],
]:
    """What a run is about, what is wanted of it, and what it gave, with whether standard error
    begins so, or else its first line."""
    (wanted_status, wanted_out, error), (status, out, said, left) = wanted, given
    first = said.partition("\n")[0]
    same = first.startswith(error) if error else said == ""
    return what, (wanted_status, wanted_out, True, []), (status, out, same or first, left)


def files() -> (
    Iterator[
        tuple[
            bytes | str,
            tuple[int, str, bool | str, list[Any]],
            tuple[int, str, bool | str, list[Any]],
        ]
    ]
):
    """A file that is refused and one that is packed, whose names would drive a terminal."""
    with running("", files={"\x1b[2J.aag": "aag\n"}) as run:
        yield "a path", (1, "", "aigprove: \\x1b[2J.aag: bad header line\n", []), run.result(
            ["\x1b[2J.aag"], run.words[:-1]
        )
    named = TOGGLE + "l0 a\x1b[2J\nb0 \x1b]0;t\x07\n"
    shown = (
        'a bad state at step 1: b0 "\\u001b]0;t\\u0007"\nstart: "a\\u001b[2J"=0\nstep 0:\nstep 1: |'
        ' "a\\u001b[2J"=1\n'
    )
    for data in [named.encode(), gzip.compress(named.encode())]:
        yield compared(data, (10, shown, ""), asked(["--engine", "bmc3"], data, "exit 3", RUN))


def fed() -> Iterator[tuple[str, tuple[int, str, str, list[Any]], tuple[int, str, str, list[Any]]]]:
    """Files from pipes, and such as have no end: devices, and one that is packed and would fill the
    memory."""
    with running(TOGGLE, abc=RUN) as run:
        words = [*run.words[:-1], "--engine", "bmc3"]
        line, dash = shlex.join([*words, "/dev/stdin"]), shlex.join([*words, "-"])
        scripts = [
            f"cat t.aag | {line}",
            f"gzip -c t.aag | {line}",
            f"{line} < t.aag",
            f"cat t.aag | {dash}",
            f"gzip -c t.aag | {dash}",
        ]
        for script in scripts:
            yield script, (10, REACHED, "", []), run.result([], ["sh", "-c", script])
        for device in ["/dev/zero", "/dev/null"]:
            yield device, (1, "", f"aigprove: {device} is a device\n", []), run.result(
                [device], words
            )
        (run.folder / "bomb").write_bytes(
            gzip.compress(f"{TOGGLE}c\n".encode()) + gzip.compress(bytes(1 << 20)) * 1024
        )
        said = f"aigprove: bomb has more than {1 << 30} bytes\n"
        yield "a bomb", (1, "", said, []), run.result([], within(MEMORY, [*words, "bomb"]))
        with open(run.folder / "given", "wb") as given:
            given.truncate(MEMORY << 10)
        said = "aigprove: run: out of memory\n"
        yield "a long run", (1, "", said, []), run.result(
            [], within(MEMORY, [*words[:-2], "t.aag", "--run", "given"])
        )


def within(kilobytes: int, words: list[str]) -> list[str]:
    """Words that run a program with so much memory."""
    return ["sh", "-c", f"ulimit -v {kilobytes}; exec {shlex.join(words)}"]


# Words that are refused, and why.
WRONG = [
    ["--equal -- -x.aag t.aag", "argument --equal: expected one argument"],
    ["t.aag top \x1b[2J", "unrecognized arguments: \\x1b[2J"],
    ["--limit 2147483649 t.aag", "argument --limit: 2147483649 isn't a number of nodes"],
    ["--limit 0 t.aag", "argument --limit: 0 isn't a number of nodes"],
    ["--starts by-name t.aag", "--starts needs --equal"],
    ["--constraints both t.aag", "--constraints needs --equal"],
    [
        "--reset 1x t.aag",
        (
            "argument --reset: 1x isn't SIGNAL, SIGNAL=V or SIGNAL=V:N with V 0 or"
            " 1, such as rst_n=0:2"
        ),
    ],
    [
        "-D 1x t.aag",
        "argument -D/--define: 1x isn't NAME or NAME=TEXT in one line, such as WIDTH=8",
    ],
    ["--black-box 1x t.aag", "argument --black-box: 1x isn't a name of a module"],
    [
        "--parameter 1x t.aag",
        (
            "argument --parameter: 1x isn't NAME=NUMBER, such as WIDTH=8 or"
            " MODE=2'b10 (-D takes a text)"
        ),
    ],
    [
        "--engine no t.aag",
        (
            "argument --engine: unknown engine no; known engines: bmc3, pdr,"
            " bounded, steps, windows, scorr, registers, rounds, abc"
        ),
    ],
    [
        "--justice 0 --each t.aag",
        (
            "--justice can't be combined with --equal, --certificate, --run, --each"
            " or --property"
        ),
    ],
    [
        "--run t --write-certificate c t.aag",
        (
            "--write-certificate can't be combined with --certificate or --run: it"
            " writes a certificate of aigprove's own answer"
        ),
    ],
    ["--json j t.aag", "--json needs --each"],
    ["--each --property 0 t.aag", "--property can't be combined with --each"],
    ["--tasks t.aag", "--tasks needs --keep FOLDER"],
    [
        "--gather f --keep k t.aag",
        "--gather can't be combined with --keep or --tasks: --keep FOLDER continues FOLDER",
    ],
]
# Options whose words are names of files.
NAMING = [
    "--keep", "--equal", "--run", "--certificate", "--write-certificate", "--witness", "--vcd",
]


def worded() -> (
    Iterator[tuple[str, tuple[int | str | list[str], ...], tuple[int | str | list[str], ...]]]
):
    """Words behind --, which are no options, and words that are refused, which can't drive a
    terminal."""
    with running(TOGGLE, abc=RUN, files={"-x.aag": TOGGLE}) as run:
        words = [*run.words[:-1], "--engine", "bmc3"]
        yield "--", (10, REACHED, "", []), run.result(["--", "-x.aag"], words)
        equal = run.result(
            ["--engine", "steps", "--bound", "0", "--equal=-x.aag", "--", "-x.aag"], words
        )
        yield "--equal=-x.aag --", (
            0,
            "equal at step 0\nundecided: equal up to step 0\n",
            "",
            [],
        ), equal
        for wrong, why in WRONG:
            status, out, said, left = run.result(wrong.split(" "), words)
            yield wrong, (2, "", [f"aigprove: error: {why}"], []), (
                status,
                out,
                said.splitlines()[-1:],
                left,
            )
        for option in NAMING:
            status, _, said, _ = run.result([option, ""])
            yield option, (
                2,
                [f"aigprove: error: argument {option}: the name of the file is empty"],
            ), (status, said.splitlines()[-1:])


def faulty() -> (
    Iterator[
        tuple[str | list[str], tuple[int, str, str, list[Any]], tuple[int, str, str, list[Any]]]
    ]
):
    """What can't be read or written: one line, which names it."""
    with running(TOGGLE, abc=RUN, files={"itself": "-f itself", "listed": "-x t.aag"}) as run:
        (run.folder / "locked").mkdir(mode=0)
        words = [*run.words[:-1], "--engine", "bmc3"]
        for given, why in [
            ["missing", "missing: No such file or directory"],
            [".", ".: Is a directory"],
            ["t.aag/t", "t.aag/t: Not a directory"],
            ["\udcff\n", "\\udcff\\n: No such file or directory"],
            ["a" * 300, f"{'a' * 300}: File name too long"],
            ["-f itself", "itself includes itself"],
            ["-f listed", "listed: -x is neither a file nor -D, -I or -f"],
            ["t.aag --top nope", "t.aag isn't a design, so it has no module nope"],
            ["t.aag --keep locked", "locked: File exists"],
            ["t.aag --keep a/b", "a/b: No such file or directory"],
            ["t.aag --run missing", "missing: No such file or directory"],
            ["t.aag --solver ./none", "./none was not found"],
            [
                "t.aag --aigcheck t.aag",
                (
                    "t.aag was not found; ./build builds aigcheck, and so does `rt run` in"
                    " crates/aigcheck"
                ),
            ],
        ]:
            yield given, (1, "", f"aigprove: {why}\n", []), run.result(given.split(" "), words)
        for option, path, why in [
            ["--witness", "/dev/full", "No space left on device"],
            ["--vcd", "/dev/full", "No space left on device"],
            ["--vcd", ".", "Is a directory"],
        ]:
            yield [option, path], (1, REACHED, f"aigprove: {path}: {why}\n", []), run.result(
                [option, path, "t.aag"], words
            )


def kept() -> Iterator[Any]:
    """What is kept in a folder whose name begins with a dash and ends with a line feed, shown again
    by a program that is named by its place from where one stands, though CDPATH names another
    folder of that name."""
    with running(STUCK, REFUTES, ANYTHING) as run:
        folder = "-x\n"
        (run.folder / "decoy" / folder).mkdir(parents=True)
        yield "kept", (20, SAFE, "", []), run.result(["--engine", "pdr", f"--keep={folder}"])
        run.environment |= {
            "AIGCHECK": os.path.relpath(GIVEN["aigcheck"], run.folder),
            "CDPATH": "decoy",
        }
        yield "shown again", (0, SAFE, "", []), run.result(["--", f"{folder}/check.sh"], ["sh"])


# Words that a shell would take for patterns and commands.
COMMANDS = ["*", "$(touch $FOLDER/made)", "; touch $FOLDER/made", "`touch $FOLDER/made`"]


def strange() -> Iterator[Any]:
    """What somebody else wrote in evidence.json: words are no commands and no patterns, and names
    lead to no other folder."""
    with running(STUCK, REFUTES, ANYTHING) as run:
        yield "kept", (20, SAFE, "", []), run.result(["--engine", "pdr", "--keep", "kept"])
        run.environment |= {"AIGCHECK": GIVEN["aigcheck"], "AIGEDIT": GIVEN["aigedit"]}
        script, path = (run.folder / "kept" / name for name in ["check.sh", "evidence.json"])
        yield "one script", (TOP / "lib/aigprove/output/check.py").read_bytes(), script.read_bytes()
        good = json.loads(path.read_text())
        first = {**good["steps"][0], "by": ["certified", *COMMANDS]}
        odd = {**good["steps"][0], "shows": "no bad state\x1b[2J"}
        sums = {name: "0" * 64 for name in good["files"]}
        for change, status, printed, why in [
            ({}, 0, SAFE, ""),
            ({"steps": [first]}, 1, "", "not shown: no bad state at any step\n"),
            ({"steps": [odd]}, 1, "", "not shown: no bad state\\x1b[2J\n"),
            ({"files": sums}, 1, "", f"not shown: {list(sums)[0]} is another file\n"),
            ({"parts": [".."]}, 1, "", "not shown: .. is no folder in this one\n"),
            ({"parts": ["a/../.."]}, 1, "", "not shown: a/../.. is no folder in this one\n"),
            ({"steps": [], "table": ["\x1b]0;t\x07"]}, 0, "\\x1b]0;t\\x07\n", ""),
            ({"steps": [{"says": "no bad state at any step"}]}, 1, "", "not shown: 'by'\n"),
            ({"steps": 1}, 1, "", "not shown: "),
        ]:
            path.write_text(json.dumps({**good, **change}))
            given = run.result(["kept/check.sh"], ["sh"])
            yield compared(
                change,
                (status, printed, why.rstrip("\n")),
                (given[0], given[1], last_of(given[2]), given[3]),
            )
        path.write_text("[")
        yield "no evidence", (1, "", True), (*run.result(["kept/check.sh"], ["sh"])[:2], True)
        run.environment["AIGCHECK"] = "./none"
        path.write_text(json.dumps(good))
        yield "no program", (1, "", "not shown: ./none is not there\n", []), run.result(
            ["kept/check.sh"], ["sh"]
        )
        yield "nothing was made", False, (run.folder / "made").exists()


def last_of(said: Any) -> Any:
    """The last line of what is said, behind what aigcheck says itself."""
    return said.splitlines()[-1] if said else ""


# A program in the place of aigcheck or aigedit, which wants a limit of nodes as its first words.
LIMITED = '#!/bin/sh\n[ "$1 $2" = "--limit 9" ] || exit 9\nshift 2\nexec {} "$@"\n'


def limited() -> Iterator[Any]:
    """A limit of nodes: each program that is asked gets it, and so by check.sh. Aigtool takes none,
    and isn't asked."""
    programs = {name: f"./{name}-9" for name in ["aigedit", "aigcheck"]}
    files = {f"{name}-9": LIMITED.format(GIVEN[name]) for name in programs} | {"other.aag": STUCK}
    for options, *run in [
        ["--engine windows --bound 0", STUCK, REFUTES],
        ["--engine bounded --bound 0", STUCK, REFUTES],
        ["--engine pdr", STUCK, REFUTES, ANYTHING],
        ["--engine steps", OLD, SOLVES],
        ["--engine steps --bound 0 --equal other.aag", STUCK, REFUTES],
        ["--engine windows --bound 0 --equal other.aag", STUCK, REFUTES],
    ]:
        with running(*run, files=files) as run:
            for name in programs.values():
                (run.folder / name).chmod(0o755)
            words = [*run.words, *options.split()]
            given = [
                "--limit",
                "9",
                "--aigtool",
                "./solver",
                *(f"--{name}={path}" for name, path in programs.items()),
                "--keep",
                "kept",
            ]
            yield options, run.result([], words), run.result(given, words)
            run.environment |= {"AIGEDIT": programs["aigedit"], "AIGCHECK": programs["aigcheck"]}
            status, _, said, left = run.result(["kept/check.sh"], ["sh"])
            yield options, (0, "", []), (status, said, left)


def bounded_memory() -> Iterator[Any]:
    """A limit of memory: an engine's program has it, and one that is too small for a program is
    told of as its fault."""
    with running(STUCK, f"sleep 0.2; ulimit -v > $FOLDER/memory; {REFUTES}") as run:
        words = ["--engine", "windows", "--bound", "0"]
        yield "memory", run.result(words), run.result([*words, "--memory", "300"])
        yield "kilobytes of memory", f"{300 << 10}\n", (run.folder / "memory").read_text()
    with running(STUCK, f"sleep 0.3; sleep 0 2> /dev/null || exit 1; {REFUTES}") as run:
        status, printed, said, left = run.result([*words, "--memory", "1"])
        yield "too little memory", (1, "", True, []), (status, printed, "aigprove: " in said, left)


def hung() -> Iterator[Any]:
    """An engine that hangs, where there is a limit of time, and where standard error is a
    terminal."""
    hangs = TOGGLE, "exit 3", "sleep 1000"
    yield compared(
        "a limit of time",
        (0, "undecided: nothing was shown\n", ""),
        asked(["--engine", "pdr", "--timeout", "0.5"], *hangs),
    )
    with running(*hangs) as run:
        own, other = pty.openpty()
        given = run.result(["--engine", "pdr", "--timeout", "2"], stderr=other)[1]
        said = read(own)
        shown = "pdr: 0 s" in said, "pdr: 1 s" in said, said.endswith("\r\x1b[K")
        yield "a terminal", ((True, True, True), "undecided: nothing was shown\n"), (shown, given)


def read(terminal: Any) -> Any:
    """What was written to a terminal, up to where a line is cleared: it may come a moment later."""
    os.set_blocking(terminal, False)
    said, end = "", time.monotonic() + 2
    while not said.endswith("\r\x1b[K") and time.monotonic() < end:
        with contextlib.suppress(BlockingIOError):
            said += os.read(terminal, 4096).decode()
    return said


def together() -> Iterator[Any]:
    """Engines of which all but one lie, break or hang: the answer of that one comes, and the others
    are ended."""
    hang = "trap '' TERM INT; setsid sleep 1000 & sleep 1000"
    runs = [
        ([], "sleep 1; " + SOLVES, abc)
        for abc in [
            hang,
            ANYTHING,
            f"{FILES} kill -SEGV $$",
            "printf 'l0@0=0\\n' > run",
            "while :; do mkdir d; cd d; done",
        ]
    ]
    runs += [
        (["--jobs", "1"], solver, f"sleep 1; {RUN}")
        for solver in [hang, "exit 0", f"{FILES} {REFUTES}", "kill -KILL $$"]
    ]
    for options, *scripts in runs:
        status, out, _, left = asked(options, TOGGLE, *scripts)
        yield scripts, (10, REACHED, []), (status, out[-len(REACHED):], left)


def yielding() -> Iterator[Any]:
    """An engine whose program waits while the answer of another is checked, and goes on where that
    takes long."""
    first, waits = (
        "echo $$ > $FOLDER/first; sleep 2",
        "while [ ! -s $FOLDER/first ]; do sleep 0.01; done",
    )
    state, window = (
        "sed 's/.*) //' /proc/$(cat $FOLDER/first)/stat > $FOLDER/state",
        "no bad state at any step, if none up to step 0\n",
    )
    for check, engine, printed, wanted in [
        (state, "pdr", SAFE, "T"),
        ("sleep 1000", "windows", window + SAFE, ""),
    ]:
        solver = f"if mkdir $FOLDER/asked 2> /dev/null; then {first}; else {check}; fi; {REFUTES}"
        with running(STUCK, solver, f"{waits}; {ANYTHING}", {"state": ""}) as run:
            given = run.result(["--engine", "windows,pdr", "--jobs", "4", "-v"])
            yield compared(check, (20, printed, f"aigprove: {engine} answered after "), given)
            yield check, wanted, (run.folder / "state").read_text()[:1]


def closed() -> Iterator[Any]:
    """Standard output that is closed, or takes nothing: one line, and no traceback. Standard error
    that is so changes nothing."""
    with running(TOGGLE, "exit 3", RUN) as run:
        line = shlex.join(run.words)
        for words in [
            f"{option} {redirection}"
            for option in ["--engine steps", "--help"]
            for redirection in [">&-", "> /dev/full"]
        ]:
            status, _, said, left = run.result([], ["sh", "-c", f"{line} {words}"], stdout=None)
            yield words, (1, 1, "aigprove:", []), (status, said.count("\n"), said[:9], left)
        for redirection in ["2>&-", "2> /dev/full"]:
            yield redirection, (10, REACHED, "", []), run.result(
                [], ["sh", "-c", f"{line} --engine windows,bmc3 {redirection}"]
            )


def gone() -> Iterator[Any]:
    """Engines that hang, and what they left running, are gone before the last line is printed."""
    hang = "trap '' TERM INT; setsid sleep 1000 & touch $FOLDER/started; sleep 1000"
    waits = "while [ ! -e $FOLDER/started ]; do sleep 0.01; done"
    for file, solver, options, last in [
        (TOGGLE, f"{waits}; {SOLVES}", ["-q"], "a bad state at step 1: b0\n"),
        (
            STUCK,
            f"{waits}; {REFUTES}",
            ["-q", "--engine", "pdr,windows"],
            "no bad state at any step\n",
        ),
        (
            STUCK,
            "exit 3",
            ["-q", "--engine", "pdr", "--timeout", "1"],
            "undecided: nothing was shown\n",
        ),
    ]:
        with running(file, solver, hang) as run:
            process = run.start([*run.words, *options])
            line, left = process.stdout.readline(), [
                it for it in run.left() if run.is_program(it, ["sh", "sleep"])
            ]
            finish(process)
            yield options, (last, []), (line, left)


def ended() -> Iterator[Any]:
    """Signals while engines run: all is ended and removed in time, and the status tells which. On a
    quiet machine that is a tenth of a second."""
    for number in [signal.SIGTERM, signal.SIGHUP, signal.SIGINT]:
        with running(
            TOGGLE, "touch $FOLDER/started; setsid sleep 1000 & sleep 1000", "sleep 1000"
        ) as run:
            process = run.started(stdout=subprocess.DEVNULL)
            process.send_signal(number)
            begun = time.monotonic()
            _, said = finish(process)
            yield number.name, (128 + number, "", [], True), (
                process.returncode,
                said,
                run.left(),
                time.monotonic() - begun < 5,
            )


def killed() -> Iterator[Any]:
    """A prover that is killed: its engines end too, though its folder is left."""
    with running(TOGGLE, "sleep 2; touch $FOLDER/started; sleep 1000", "sleep 1000") as run:
        process = run.started(stdout=subprocess.DEVNULL, stderr=None)
        process.kill()
        process.wait()
        wait(lambda: len(run.left()) <= 1, 10)
        yield "SIGKILL", 1, len(run.left())


def missing() -> Iterator[Any]:
    """Engines that aren't installed: each is passed over with a line."""
    with running(TOGGLE) as run:
        run.environment["PATH"] = str(run.temporary)
        solver, abc = (
            "passed over: cadical is not installed",
            "passed over: none of berkeley-abc, yosys-abc, abc is installed",
        )
        engines = {"bmc3": abc, "pdr": abc, "bounded": solver, "steps": solver, "windows": solver}
        wanted = "".join(f"aigprove: {name}: {why}\n" for name, why in engines.items())
        yield "nothing is installed", (1, "", wanted, []), run.result(
            ["t.aag"], [sys.executable, *run.words[:7]]
        )


def installed() -> Iterator[Any]:
    """Programs that are installed, and run with nothing but their folder in PATH."""
    with running(TOGGLE, abc=RUN) as run:
        programs = run.folder / "prefix" / "bin"
        status = subprocess.run([TOP / "install", "prefix"], cwd=run.folder).returncode
        names = ["aigcheck", "aigedit", "aigprove", "aigtool", "aigwaves"]
        yield "install", (0, names), (status, sorted(os.listdir(programs)))
        words = ["--abc", "./abc", "--engine", "bmc3", "--witness", "w", "t.aag"]
        yield "installed aigprove", (10, REACHED, "", []), run.result(
            words, [programs / "aigprove"]
        )
        status, given, said, _ = run.result(["t.aag", "w"], [programs / "aigwaves"])
        yield "installed aigwaves", (0, True, ""), (status, given.endswith("#2\n"), said)


@pytest.fixture(autouse=True)
def interrupts() -> Iterator[None]:
    """Lets what is started here end by SIGINT, even where tests run in the background."""
    before = signal.signal(signal.SIGINT, signal.default_int_handler)
    yield
    signal.signal(signal.SIGINT, before)


@by_row("solvers/rows.tsv")
def test_row(checks: harness.Checks, row: Row) -> None:
    """aigprove ends as a row says, and prints that."""
    options, status, printed, said, file, solver, abc, other, data = [
        *map(filled, row.cells),
        *[""] * 9,
    ][:9]
    wanted = int(status), spelled(printed).decode(), harness.repeated(said)
    files = {"other.aag": spelled(other), "given": spelled(data)}
    given = asked(options.split(), spelled(file), solver or "exit 3", abc or "exit 3", files)
    checks.wants(*compared((options, file, solver, abc, other), wanted, given))


PARTS = [
    files,
    fed,
    worded,
    faulty,
    kept,
    strange,
    limited,
    bounded_memory,
    hung,
    together,
    yielding,
    closed,
    gone,
    ended,
    killed,
    missing,
    installed,
]


@pytest.mark.parametrize("part", PARTS)
def test_part(checks: harness.Checks, part: Callable[..., Any]) -> None:
    """aigprove where its engines, files, streams or limits are out of the ordinary."""
    for what, wanted, given in part():
        checks.wants(what, wanted, given)
