"""Checks what stands between aigcheck's answer and a printed line.

Scripts take the place of aigcheck and aigedit, and say what they are told to. A line is believed
only where the script ends with status 0 and has printed this line alone; a proof that doesn't
follow is told apart from a failure; and an answer is printed, and kept, as it was checked."""
from __future__ import annotations

import contextlib
import hashlib
import io
import json
import pathlib
import sys
import types
from collections.abc import Callable
from typing import Any

import pytest
from harness import Checks

from aigprove.circuits.aiger import LIMIT, Fault
from aigprove.circuits.witness import Witness
from aigprove.equality import program
from aigprove.output import check
from aigprove.output.evidence import Evidence, EvidenceFolder
from aigprove.output.messages import escaped, plain, unnamed
from aigprove.processes.files import Sealed
from aigprove.processes.scheduler import Scheduler, Scope
from aigprove.questions.checker import STEP, Checker, Claim, Question, Subject, header_of
from aigprove.questions.target import Statements, Target, statements_about

SAFE = "no bad state at any step"
# What the script does: the line of the claim, and what has to become of it: None where it is shown,
# a refusal, or a fault behind `!`.
REFUSALS = [
    (f"echo '{SAFE}'", None),
    (f"echo '{SAFE}'; exit 1", "!{} ended with status 1"),
    (f"echo '{SAFE}' >&2", "!aigcheck printed ''"),
    (f"printf '{SAFE}'", f"!aigcheck printed '{SAFE}'"),
    (f"echo '{SAFE}'; echo more", f"!aigcheck printed '{SAFE}\\nmore\\n'"),
    (f"echo more; echo '{SAFE}'", f"!aigcheck printed 'more\\n{SAFE}\\n'"),
    ("echo 'no bad state at step 0'", "!aigcheck printed 'no bad state at step 0\\n'"),
    ("exit 0", "!aigcheck printed ''"),
    (
        "echo 'aigcheck: base: proof step does not follow' >&2; exit 1",
        "aigcheck: base: proof step does not follow",
    ),
    (
        "echo 'aigcheck: base: proof step does not follow' >&2; echo advice >&2; exit 1",
        "aigcheck: base: proof step does not follow",
    ),
    (
        f"echo 'aigcheck: proof step does not follow' >&2; echo '{SAFE}'; exit 1",
        "aigcheck: proof step does not follow",
    ),
    (f"echo 'aigcheck: proof step does not follow' >&2; echo '{SAFE}'", None),
    ("echo 'proof step does not follow: no' >&2; exit 1", "!proof step does not follow: no"),
    ("kill -KILL $$", "!{} was ended by SIGKILL"),
    ("[ \"$1 $2 $3\" = 'certified FILE 0' ] || exit 3; exit 4", "!{} ended with status 3"),
]


class File(Target):
    """A file that is asked about."""

    name = "file.aag"

    def __init__(self, data: bytes) -> None:
        self.subject = Subject(Sealed(data))


def programs(
    folder: pathlib.Path, four_jobs: Scheduler, text: str, limit: int | None = None
) -> Checker:
    """A checker whose aigcheck and aigedit are this script."""
    path = folder / "program"
    path.write_text(f"#!/bin/sh\n{text}\n")
    path.chmod(0o755)
    return Checker.begin(Scope(four_jobs).task("main"), str(path), str(path), str(path), limit)


def called(call: Callable[..., Any], *given: Any) -> Any:
    """What a call returns, or why it is a fault."""
    try:
        return call(*given)
    except Fault as why:
        return f"!{why}"


def test_refusals(checks: Checks, four_jobs: Scheduler, folder: pathlib.Path) -> None:
    """A line is believed only where the script ends well and has printed it alone."""
    claim = Claim(SAFE, ["certified", "FILE", "0"], {"FILE": Sealed(b"aag 0 0 0 0 0\n")})
    for text, wanted in REFUSALS:
        checker = programs(folder, four_jobs, text)
        wanted = wanted and wanted.format(checker.aigcheck[0])
        is_fault = wanted is not None and wanted.startswith("!")
        checks.wants(text, wanted, called(checker.refusal, claim))
        checks.wants(
            f"{text}, shown", wanted if is_fault else wanted is None, called(checker.shows, claim)
        )
        checks.wants(
            f"{text}, checked",
            None if wanted is None else f"!{wanted.lstrip('!')}",
            called(checker.check, claim),
        )


# A file, and a script that prints its words, where F is a file that it is given.
FILE = Sealed(b"aag 1 0 1 0 0 1\n2 2\n2\n")
ECHO = 'echo "$@" | sed "s#/dev/fd/[0-9]*#F#g"'


def printed_question(
    folder: pathlib.Path, checker: Checker, question: Question, subject: Subject
) -> str:
    """What a checker prints of a question."""
    with open(folder / "out", "w+b") as out:
        checker.print_question(question, subject, out)
        out.seek(0)
        return out.read().decode()


@pytest.mark.parametrize(
    "limit, before, text, clauses",
    [(None, "", "text", "query"), (9, "--limit 9 ", "--limit 9 reencode", "--limit 9 clauses")],
)
def test_words(
    checks: Checks,
    four_jobs: Scheduler,
    folder: pathlib.Path,
    limit: int | None,
    before: str,
    text: str,
    clauses: str,
) -> None:
    """The words that our programs get."""
    checker = programs(folder, four_jobs, ECHO, limit)
    checks.wants("text", f"{text} F\n".encode(), checker.text(FILE).data())
    live = checker.transformed("live", FILE, 3)
    checks.wants("transformed", f"{before}live F 3\n".encode(), live.data())
    for question, wanted in [
        (Question("query", 2), f"{clauses} F 2\n"),
        (Question("bounded", 2), f"{before}bounded F 2\n"),
        (Question("window", 0, ("distinct",)), f"{before}window F 0 distinct\n"),
    ]:
        given = printed_question(folder, checker, question, Subject(FILE))
        checks.wants(question, wanted, given)
    checks.check(checker.machine(Subject(FILE)) is FILE, "FILE isn't its own machine")
    checks.wants(
        "a witness",
        f"{before}witness F 4 F\n".encode(),
        checker.witness(Subject(FILE), Question("query", 4), FILE),
    )
    checks.wants(
        "a joint file", f"{before}join F F\n".encode(), checker.joint(FILE, FILE, False).data()
    )


@pytest.mark.parametrize("limit, before", [(None, ""), (9, "--limit 9 ")])
def test_words_of_a_subject(
    checks: Checks,
    four_jobs: Scheduler,
    folder: pathlib.Path,
    limit: int | None,
    before: str,
) -> None:
    """The words that our programs get of one property."""
    checker = programs(folder, four_jobs, ECHO, limit)
    chosen = Subject(FILE, ["--property", "3"], ["property", "3"])
    for question, wanted in [
        (Question("query", 2), "clauses F 2"),
        (Question("window", 0, ("raw",)), "window F 0 raw"),
    ]:
        given = printed_question(folder, checker, question, chosen)
        checks.wants(question, f"{before}--property 3 {wanted}\n", given)
    checks.wants("a machine", f"{before}property F 3\n".encode(), checker.machine(chosen).data())
    checks.wants(
        "a witness up to",
        f"{before}--property 3 witness F to 4 F\n".encode(),
        checker.witness(chosen, Question("bounded", 4), FILE),
    )


def test_joint(checks: Checks, four_jobs: Scheduler, folder: pathlib.Path) -> None:
    """When there is no joint file, and when that is a fault."""
    failing = programs(
        folder, four_jobs, "echo 'aigedit: files do not fit: 1 and 2 inputs' >&2; exit 1"
    )
    checks.wants(
        "no joint file",
        (None, "!aigedit: files do not fit: 1 and 2 inputs"),
        (failing.joint(FILE, FILE, False), called(failing.joint, FILE, FILE, True)),
    )
    failing = programs(
        folder, four_jobs, "echo 'aigedit: other file: bad literal in latches' >&2; exit 1"
    )
    checks.wants("no resets", None, failing.joint(FILE, FILE, False))
    failing = programs(folder, four_jobs, "echo 'aigedit: out of memory' >&2; exit 1")
    checks.wants("no memory", "!aigedit: out of memory", called(failing.joint, FILE, FILE, False))


def test_facts(checks: Checks, four_jobs: Scheduler, folder: pathlib.Path) -> None:
    """What a checker knows of itself, of a file and of questions."""
    echo = programs(folder, four_jobs, ECHO)
    checks.wants("proofs", (b"0\n", b""), (echo.empty_clause.data(), echo.nothing.data()))
    checks.wants("limits", (LIMIT, 9), (echo.limit, programs(folder, four_jobs, ECHO, 9).limit))
    checks.wants(
        "a header",
        (2, "!bad header line in FILE"),
        (header_of(Sealed(b"aag 3 2 1 0 0\n")).inputs, called(header_of, Sealed(b"no\n"))),
    )
    names = [
        Question(command, 3, form).name
        for command, form in [("query", ()), ("bounded", ()), ("window", ("distinct",))]
    ]
    checks.wants("names", ["step-3", "steps-3", "window-3-distinct"], names)


def test_lasso(checks: Checks, four_jobs: Scheduler, folder: pathlib.Path) -> None:
    """What is taken of a line about a lasso."""
    question = programs(folder, four_jobs, "[ $1 = run ] && echo 'from step 2 to 5?'")
    checks.wants(
        "a lasso's line", ("from step 2 to 5?", (2, 5)), question.lasso(Subject(FILE), FILE)
    )
    half = programs(folder, four_jobs, "echo 'from step 2 to '")
    checks.wants(
        "half a lasso",
        "!aigcheck printed 'from step 2 to '",
        called(half.lasso, Subject(FILE), FILE),
    )
    lasso = programs(folder, four_jobs, "echo 'j0: from step 2 to 5'")
    checks.wants("a lasso", ("j0: from step 2 to 5", (2, 5)), lasso.lasso(Subject(FILE), FILE))
    lasso = programs(folder, four_jobs, "[ $1 = --endless ] && echo 'from step 2 to 2'")
    checks.wants(
        "a lasso of a subject",
        ("from step 2 to 2", (2, 2)),
        lasso.lasso(Subject(FILE, ["--endless"]), FILE),
    )
    checks.wants(
        "no lasso",
        "!aigcheck printed 'b0 at step 2'",
        called(programs(folder, four_jobs, "echo 'b0 at step 2'").lasso, Subject(FILE), FILE),
    )


def test_claims(checks: Checks) -> None:
    """What is claimed of a file, and by which words."""
    file, proof = File(b"aag 0 0 0 0 0\n"), Sealed(b"0\n")
    rows = [
        (
            file.unsolvable(Question("query", 2), proof),
            "no bad state at step 2",
            "refuted file.aag 2 step-2",
        ),
        (
            file.unsolvable(Question("bounded", 2), proof),
            "no bad state up to step 2",
            "refuted file.aag to 2 steps-2",
        ),
        (
            file.unsolvable(Question("window", 2, ("distinct",)), proof),
            f"{SAFE}, if none up to step 2",
            "inductive file.aag 2 window-2-distinct distinct",
        ),
        (
            file.proved(Question("bounded", 1), proof, Question("window", 1), proof),
            SAFE,
            "safe file.aag to 1 steps-1 window-1",
        ),
        (
            file.certified(proof, {"base": proof, "step": proof}, "raw"),
            SAFE,
            "certified file.aag certificate base step raw",
        ),
    ]
    for claim, line, asked in rows:
        checks.wants(line, (line, asked.split(" ")), (claim.line, list(claim.words)))
        checks.check(claim.files["file.aag"] is file.subject.file, f"{line} is about another file")
        others = [word for word in claim.words if word in claim.files and word != "file.aag"]
        checks.check(
            others and all(claim.files[it] is proof for it in others), f"{line} has other files"
        )
    checks.wants("up to", "no bad state up to step 7", file.up_to(7))


def test_claims_of_justice(checks: Checks) -> None:
    """What is claimed of a justice property."""
    file, proof = File(b"aag 0 0 0 0 0\n"), Sealed(b"0\n")
    file.subject = Subject(file.subject.file, ["--justice", "2"])
    file.lines = statements_about("j", 2)
    for claim, line, asked in [
        (
            file.unsolvable(Question("query", 2), proof),
            "no fair lasso of j2 of 3 steps",
            "--justice 2 refuted file.aag 2 step-2",
        ),
        (
            file.proved(Question("bounded", 1), proof, Question("window", 1), proof),
            "no fair run of j2",
            "--justice 2 safe file.aag to 1 steps-1 window-1",
        ),
    ]:
        checks.wants(line, (line, asked.split(" ")), (claim.line, list(claim.words)))
    checks.wants(
        "told", "no bad state at step 2", file.unsolvable(Question("query", 2), proof).printed
    )


def test_runs(checks: Checks, four_jobs: Scheduler, folder: pathlib.Path) -> None:
    """What is claimed of a run: only what aigcheck says of its witness is, and nothing else is a
    fault."""
    file, trace = File(b"aag 0 0 0 0 0\n"), Witness(3, "0", ["", ""])
    for text, wanted in [
        ("echo 'b3 at step 1'", True),
        ("echo 'b3 at step 2'", False),
        ("echo 'b3 at step 1'; exit 1", False),
        (f"echo 'aigcheck: {STEP}' >&2; exit 1", False),
        ("[ $1 = run ] && echo 'b3 at step 1'", True),
    ]:
        checker = programs(folder, four_jobs, text)
        checks.wants(text, wanted, file.holds(checker, trace))
        claim = called(file.run, checker, trace)
        checks.wants(
            f"{text}: claim",
            wanted and ("b3 at step 1", ["run", "file.aag", "witness"], trace.text().encode()),
            wanted and (claim.line, list(claim.words), claim.files["witness"].data()),
        )


def test_statements(checks: Checks) -> None:
    """Which question a line is about."""
    for letter, command, text, wanted in [
        ("b", "query", "b1: no bad state at step 12", 12),
        ("b", "query", "no bad state at step 12", None),
        ("b", "query", "b2: no bad state at step 12", None),
        ("b", "bounded", "b1: no bad state at step 12", None),
        ("c", "bounded", "b1: no bad state up to step 0", 0),
        ("j", "query", "no fair lasso of j1 of 1 steps", 0),
        ("j", "bounded", "no fair lasso of j1 of at most 3 steps", 2),
        ("j", "query", "no fair lasso of j1 of at most 3 steps", None),
        ("j", "query", "no fair lasso of j1 of 1 steps\n", None),
    ]:
        checks.wants(text, wanted, statements_about(letter, 1).last_step(command, text))
    checks.wants("of all", 7, Statements().last_step("query", "no bad state at step 7"))


@pytest.fixture
def checker(four_jobs: Scheduler, folder: pathlib.Path) -> Checker:
    """A checker whose programs say that all is safe."""
    return programs(
        folder,
        four_jobs,
        f"case $1 in --version) echo 'program 1';; bads) echo made;; *) echo '{SAFE}';; esac",
    )


@pytest.fixture
def evidence(checker: Checker, folder: pathlib.Path) -> EvidenceFolder:
    """A folder with evidence, and a part of it."""
    evidence = EvidenceFolder(str(folder / "kept"), checker, None)
    evidence.makes("bads.aag", Sealed(b"made\n"), "bads", "file.aag")
    evidence.shows(
        Claim(SAFE, ["certified", "bads.aag", "p"], {"p": Sealed(b"0\n"), "../f": Sealed(b"")})
    )
    part = Evidence(str(folder / "kept" / evidence.new("one")), checker, 9)
    part.shows(Claim(SAFE, ["certified", "../bads.aag", "p"], {"p": Sealed(b"0\n")}))
    part.note("pdr", 1.26)
    part.end()
    evidence.end()
    return evidence


def read(folder: pathlib.Path, name: str) -> Any:
    """What is kept in a folder."""
    return json.loads((folder / name / "evidence.json").read_text())


def test_kept(
    checks: Checks, checker: Checker, evidence: EvidenceFolder, folder: pathlib.Path
) -> None:
    """What is kept."""
    given = read(folder, "kept")
    checks.wants("files", {"bads.aag", "p"}, set(given["files"]))
    checks.wants("versions", "program 1", given["versions"]["aigcheck"])
    inner = read(folder, "kept/one")
    checks.wants(
        "a part",
        ("pdr", 1.3, 9, ["one"]),
        (inner["engine"], inner["seconds"], inner["limit"], given["parts"]),
    )
    checks.wants("another name", "one-1", evidence.new("one"))
    checks.wants(
        "the same file",
        False,
        ends(
            lambda: EvidenceFolder(str(folder / "kept"), checker).put("bads.aag", Sealed(b"made\n"))
        ),
    )
    checks.wants(
        "a changed file",
        True,
        ends(
            lambda: EvidenceFolder(str(folder / "kept"), checker).put(
                "bads.aag", Sealed(b"other\n")
            )
        ),
    )


@pytest.mark.usefixtures("evidence")
def test_shown_again(
    checks: Checks, checker: Checker, folder: pathlib.Path, monkeypatch: pytest.MonkeyPatch
) -> None:
    """What is kept is shown again by the script that goes with it, and what was changed isn't."""
    given = read(folder, "kept")
    for name in "AIGCHECK", "AIGEDIT":
        monkeypatch.setenv(name, checker.aigcheck[0])
    checks.wants("shown again", [SAFE, SAFE], check.check(str(folder / "kept")))
    given["parts"] = []
    for change, is_shown in [
        ({}, True),
        ({"table": ["a row"]}, True),
        ({"files": {"p": "0"}}, False),
        ({"steps": [{"makes": "p", "by": ["bads"]}]}, False),
        ({"steps": [{"shows": "other", "by": ["x"]}]}, False),
        ({"parts": [".."]}, False),
        ({"parts": ["."]}, False),
        ({"parts": [""]}, False),
        ({"parts": ["a/b"]}, False),
    ]:
        (folder / "kept/evidence.json").write_text(json.dumps({**given, **change}))
        checks.wants(change, is_shown, not ends(lambda: check.check(str(folder / "kept"))))
    (folder / "program").write_text("#!/bin/sh\nprintf '%s\\n' \"$*\"; exit 0\n")
    limited = {
        **given,
        "limit": 7,
        "steps": [{"shows": "--limit 7 a * $b", "by": ["a", "*", "$b"]}],
    }
    (folder / "kept/evidence.json").write_text(json.dumps(limited))
    checks.wants("words", ["--limit 7 a * $b"], check.check(str(folder / "kept")))


def test_escaped(checks: Checks) -> None:
    """Texts as they are printed."""
    checks.wants(
        "texts",
        ("a\\x1b[2J\\n", "\\x1b\nb", "x: y"),
        (
            escaped("a\x1b[2J\n"),
            plain(b"\x1b\nb"),
            unnamed("x: /dev/fd/3: line 4: y", ["/dev/fd/3"]),
        ),
    )


# What is changed in evidence that has nothing, and what the script ends with, prints and says.
PRINTED: list[tuple[dict[str, Any], tuple[int, bytes, str]]] = [
    ({}, (0, b"", "")),
    (
        {"steps": [{"shows": "aigcheck run f", "by": ["run", "f"]}]},
        (0, b"aigcheck run f\n", ""),
    ),
    (
        {"steps": [{"shows": "aigedit run f", "by": ["run", "f"]}]},
        (1, b"", "not shown: aigedit run f\n"),
    ),
    ({"steps": [{"makes": "made", "by": ["bads", "f"]}]}, (0, b"", "")),
    ({"steps": [{"makes": "made", "by": ["bads", "g"]}]}, (1, b"", "not shown: made\n")),
    ({"table": ["a\x1b[2J\n", "\xe4"]}, (0, "a\\x1b[2J\\n\n\xe4\n".encode(), "")),
    ({"steps": [{"says": "a"}]}, (1, b"", "not shown: 'by'\n")),
    ({"files": {"made": "0"}}, (1, b"", "not shown: made is another file\n")),
    ({"files": {"made": hashlib.sha256(b"aigedit bads f\n").hexdigest()}}, (0, b"", "")),
    ({"parts": [".."]}, (1, b"", "not shown: .. is no folder in this one\n")),
    ({"parts": ["a/b"]}, (1, b"", "not shown: a/b is no folder in this one\n")),
    ({"steps": [{"by": ["bads", "f"]}]}, (1, b"", "not shown: 'makes'\n")),
    (
        {"table": ["one", "two"], "steps": [{"shows": "aigcheck run f", "by": ["run", "f"]}]},
        (0, b"aigcheck run f\none\ntwo\n", ""),
    ),
    (
        {"table": ["one"], "steps": [{"shows": "aigcheck run g", "by": ["run", "f"]}]},
        (1, b"", "not shown: aigcheck run g\n"),
    ),
    ({"vacuous": None}, (0, b"", "")),
    (
        {"vacuous": "empty\x1b", "steps": [{"shows": "aigcheck run f", "by": ["run", "f"]}]},
        (0, b"aigcheck run f\nempty\\x1b\n", ""),
    ),
    ({"vacuous": "two", "table": ["one", "two"]}, (0, b"one\ntwo\n", "")),
]


@pytest.fixture
def shown(folder: pathlib.Path, monkeypatch: pytest.MonkeyPatch) -> Callable[..., Any]:
    """What the script does with evidence that has nothing but this, and a file."""
    place = folder / "kept"
    place.mkdir()
    for name in "aigcheck", "aigedit":
        path = folder / name
        path.write_text(f'#!/bin/sh\necho {name} "$*"\n')
        path.chmod(0o755)
        monkeypatch.setenv(name.upper(), str(path))
    (place / "made").write_text("aigedit bads f\n")
    good: dict[str, Any] = {"limit": None, "files": {}, "steps": [], "parts": [], "table": None}

    def shown(change: dict[str, Any]) -> tuple[int, bytes, str]:
        (place / "evidence.json").write_text(json.dumps({**good, **change}))
        return said_by(place, monkeypatch)

    return shown


@pytest.mark.parametrize("change, wanted", PRINTED)
def test_printed(checks: Checks, shown: Callable[..., Any], change: Any, wanted: Any) -> None:
    """What the script prints, says and ends with, as the words of a step and the program that shows
    it are."""
    checks.wants(change, wanted, shown(change))


def test_printed_without_program(
    checks: Checks, shown: Callable[..., Any], monkeypatch: pytest.MonkeyPatch
) -> None:
    """The script says that a program isn't there."""
    monkeypatch.setenv("AIGCHECK", "./nowhere")
    given = shown({"steps": [{"shows": "b", "by": ["c"]}]})
    checks.wants("no program", (1, b"", "not shown: ./nowhere is not there\n"), given)


def said_by(folder: pathlib.Path, monkeypatch: pytest.MonkeyPatch) -> tuple[int, bytes, str]:
    """The status of the script in a folder, what it prints and what it says."""
    monkeypatch.setattr(check, "__file__", str(folder / "check.sh"))
    status, written = 0, io.BytesIO()
    out, error = io.TextIOWrapper(written), io.StringIO()
    with contextlib.redirect_stdout(out), contextlib.redirect_stderr(error):
        try:
            check.main()
        except SystemExit as end:
            status = int(end.code or 0)
    out.flush()
    return status, written.getvalue(), error.getvalue()


def ends(call: Callable[..., Any]) -> bool:
    """Whether a call fails, or ends the program."""
    with contextlib.redirect_stderr(io.StringIO()):
        try:
            call()
        except (Fault, SystemExit, OSError, LookupError, TypeError):
            return True
    return False


def test_program(checks, monkeypatch, capsys):
    """A module that is run as a program of its own: its words, its status, and why it ends."""

    def ended(*words):
        if words:
            raise Fault(" and ".join(words))
        return 7

    monkeypatch.setitem(sys.modules, "aigprove.equality.made", types.SimpleNamespace(main=ended))
    checks.wants("a status", (7, ("", "")), (program.main("made"), tuple(capsys.readouterr())))
    checks.wants(
        "a fault",
        (1, ("", "a and b\n")),
        (program.main("made", "a", "b"), tuple(capsys.readouterr())),
    )
    checks.wants(
        "words",
        [sys.executable, "-IS", program.__file__, "made", "a"],
        program.words_of("made", "a"),
    )
