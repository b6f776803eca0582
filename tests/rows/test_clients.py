"""Runs the clients of the library for C: the rows of the programs' tables again, from C, Python and
Rust, and a model checker in C++.

The rows were worked by hand (test_answers.py), and so were those of clients/rows.tsv, of the calls
that no program makes. From C each answer is asked for with no room, with as much as it takes and
with one item less, and nothing else may be written; and each request for memory of each call is
refused in turn, as test_memory.py does it to the programs. The header and the exports are held
together, with the words of each status (clients/statuses.tsv), and the names that libaig.so has for
others.

C and Python are run everywhere, C++ and Rust where there are g++ and cadical's header, and rustc.
"""
import functools
import importlib
import os
import pathlib
import re
import shlex
import sys
from collections.abc import Iterator, Sequence
from typing import NamedTuple

import archive
import commands
import harness
import pytest
import tables
from _pytest.mark import ParameterSet
from aiger import AND
from harness import TESTS, TOP, repeated, spelled
from languages import rust_program

CLIENTS = TESTS / "clients"
# What a status can't tell: the number of a step, counts that don't fit, and what the other file is.
NUMBERED = [
    (rb"\bwitness circuit: ", b"other file: "),
    (rb"\bstep \d+ has another number", b"a step has another number"),
    (rb"\bhold at step \d+\n", b"hold at a step\n"),
    (rb"\bup to step \d+\n", b"up to the step\n"),
    (rb"\bdo not fit: \d+ and \d+ [a-z ]+\n", b"do not fit\n"),
    (rb"\bliteral \d+ of the justice", b"a literal of the justice"),
    (rb"\bfairness literal \d+ is", b"a fairness literal is"),
]
# The calls of the programs' commands, where these have other names: behind ` to` those for all
# steps up to one, and behind ` by` that by a certificate.
SAME = """text strash cnf query clauses window witness bounded miter join merge obligations
refine reencode unroll possible cone reduce question info live rounds""".split()
CALLS = {name: name for name in SAME}
CALLS |= {
    "move": "move_constraints",
    "compress": "compress_bads",
    "bads": "outputs_as_bads",
    "property": "property_alone",
}
CALLS |= {
    name: f"check_{name}"
    for name in "refuted inductive run lasso certified simulated equal".split()
}
CALLS |= {
    "refuted to": "check_refuted_to",
    "witness to": "witness_to",
    "safe to": "check_safe",
    "equal to": "check_always_equal",
}
CALLS["equal by"] = "check_equal_by"
CALLS |= {
    "no_lasso": "check_no_lasso",
    "no_lasso to": "check_no_lasso_to",
    "no_run": "check_no_fair_run",
}
CALLS |= {"numbers": "query_numbers", "binary": "binary"}
# Those that return nothing, whose line is the program's.
SILENT = "refuted inductive certified simulated equal safe no_lasso no_run".split()
# The settings that they take: of clauses, and of windows.
SET = (
    "cnf query clauses numbers window bounded refuted inductive witness certified simulated equal"
    " obligations no_lasso".split()
)
DISTINCT = ["window", "inductive", "safe to", "equal to", "no_run"]
# Those with a setting for each of two proofs.
SET_TWICE = ["safe to", "equal to", "no_run"]
# The statuses that say what another one is about.
ADDED = [
    "OTHER", "QUERY", "WINDOW", "BASE", "STEP", "CERTIFICATE", "RESET", "TRANSITION", "PROPERTY",
]
# The words of a command that name no file.
WORDS = ["raw", "distinct", "to", "by"]
# The types of C that parameters have, by those of Rust; a slice is followed by its length, and is a
# pointer to its caller.
C_TYPES = {
    "&mut usize": "size_t*",
    "usize": "size_t",
    "u64": "uint64_t",
    "u32": "uint32_t",
    "bool": "bool",
}
SLICES = {"&[u8]": "const uint8_t*", "&mut [u8]": "uint8_t*", "&mut [i32]": "int32_t*"}
# The statuses of a section or of a kind are told by the first of these.
FIRST = {
    "PROOF": "PROOF_CLAUSES",
    "WITNESS": "WITNESS_STATUS",
    "SHOW": "SHOW_LATCHES",
    "SOLUTION": "SOLUTION_UNSATISFIABLE",
}
FIRST["LASSO"] = "LASSO_NO_JUSTICE"
SECTIONS = ["INPUTS", "LATCHES", "OUTPUTS", "BADS", "CONSTRAINTS", "JUSTICE", "FAIRNESS", "GATES"]
# The title of clauses in a table, which numbers haven't.
TITLE = re.compile(r"^c aigcheck [^\\]*\\n")
# The step at which a bad state is first reached, as other tools found (tests/designs/answers.tsv;
# of the example, README).
REACHED = {"examples/permits.aag": 2, "tests/designs/alu_bug.aig": 4, "tests/designs/sha4.aig": 4}
# And one of which they found that none is.
SAFE_DESIGN = "tests/designs/msi.aig"


class Call(NamedTuple):
    """A row as a call: the folder of its files, the program or `calls`, its words, the bytes of its
    file GIVEN, and what is printed."""

    place: pathlib.Path
    program: str
    words: Sequence[str]
    given: bytes
    printed: str

    @property
    def wanted(self):
        return told(self.program, self.words, self.printed)


@functools.cache
def is_known(word: str, place: pathlib.Path) -> bool:
    """Whether a word is a file that can be read, a number, or another word of a call."""
    return word in ("GIVEN", *WORDS) or word.isdigit() or (place / word).is_file()


def calls_of(row: tables.Row, form: str) -> Iterator[Call]:
    """Returns the calls of a row of a program's table: not of wrong words, and not of paths that
    can't be read. A row of clauses is one of `numbers` too, but for the title: the comments that
    the map says are those that the program prints."""
    line, given, printed = (repeated(row.cell(place)) for place in range(3))
    program, *rest = shlex.split(form.format(line))
    command, *words = rest or [""]
    # Each kind of property has a call of its own, which refuses the other's witnesses.
    if row.table.name == "lassos.tsv":
        command = "lasso" if "bad state" not in printed else ""
    place = row.table.parent
    if (
        printed != "usage"
        and words
        and all(is_known(word, place) for word in words)
        and name_of(command, words) in CALLS
    ):
        yield Call(place, program, [command, *words], spelled(given), printed)
        if command == "clauses":
            yield Call(place, program, ["numbers", *words], spelled(given), TITLE.sub("", printed))


def calls_by_name() -> Iterator[ParameterSet]:
    """Yields each call of the rows of the programs' tables, with the name of its test."""
    for table, form in tables.TABLES.items():
        for row in tables.rows_of(TESTS / table):
            for call in calls_of(row, form):
                name = " ".join(call.words)[: tables.NAME]
                yield pytest.param(call, id=f"{row.table.name}:{row.line}: {name}")


def name_of(command, words):
    """The name of a command and of its form, as CALLS has it. With a proof for each condition
    `certified` is of a witness circuit."""
    files = [word for word in words if word not in (command, *WORDS)]
    if command == "certified" and len(files) > 4:
        return "simulated"
    return command + "".join(f" {word}" for word in ("to", "by") if word in words)


# Makes a test of each call of the rows of the programs' tables, and of each row of calls that no
# program makes.
by_call = pytest.mark.parametrize("call", list(calls_by_name()))
by_own_row = tables.by_row("clients/rows.tsv")


def told(program, words, printed):
    """What a row's words give through a call: the status, the output and what is said, without what
    a status can't tell and what a program tells beside its answer."""
    status, out, said = tables.wanted_of(program, spelled(printed))
    out = b"" if words[0] in SILENT else out
    said = harness.alone(said)
    if name_of(words[0], words) == "equal to":
        # The status says that it is of the miter's window.
        said = said.replace(b": no bad state property", b": window: no bad state property")
    for numbered, plain in NUMBERED:
        said = re.sub(numbered, plain, said)
    return status, out, said


def arguments(text):
    """The arguments in a declaration."""
    return re.sub(r"\s+", " ", text).strip(" ,").split(", ")


def declared(pattern, text):
    """The calls that a text declares, with their arguments."""
    return {name: arguments(found) for name, found in re.findall(pattern, text, re.M)}


def exported(argument):
    """The names and types of C of a parameter in Rust."""
    name, form = argument.split(": ")
    return (
        [(name, SLICES[form]), (f"{name}_len", "size_t")]
        if form in SLICES
        else [(name, C_TYPES[form])]
    )


def source(*path):
    return TOP.joinpath(*path).read_text(encoding="utf-8")


def header_statuses():
    """The numbers of the header's statuses by their names, as it has them."""
    return dict(re.findall(r"^  AIG_(\w+) = (\d+)", source("include", "aig.h"), re.M))


def text_of(clauses):
    """The text of clauses that Python was given as numbers, with the comments of `aigcheck
    clauses`."""
    inputs = [
        f"c i{i} at step {t} is {lit}\n"
        for t, row in enumerate(clauses.inputs)
        for i, lit in enumerate(row)
    ]
    latches = [f"c l{i} at step 0 is {lit}\n" for i, lit in enumerate(clauses.latches)]
    bads = [
        f"c b{i} at step {len(clauses.inputs) - 1} is {lit}\n" for i, lit in enumerate(clauses.bads)
    ]
    lines = " ".join(map(str, clauses.numbers)).replace(" 0 ", " 0\n")
    return "".join(
        [
            *inputs, *latches, *bads,
            f"p cnf {clauses.variables} {clauses.numbers.count(0)}\n{lines}\n",
        ]
    )


def by_python(aig, place, program, words, given):
    """How a command ends through the Python module, as its program would. Its calls take what the
    words name in the same order."""
    command, file, *rest = words
    name = name_of(command, words)
    settings = (
        {"optimize": "raw" not in rest}
        if name in SET or name in ("refuted to", "witness to", "no_lasso to", "equal by")
        else {}
    )
    if name in SET_TWICE:
        settings = {"base_optimize": "raw" not in rest, "step_optimize": "raw" not in rest}
    if name in DISTINCT:
        settings["distinct"] = "distinct" in rest

    def read(path):
        return given if path == "GIVEN" else (place / path).read_bytes()

    taken = [
        read(file),
        *(int(word) if word.isdigit() else read(word) for word in rest if word not in WORDS),
    ]
    try:
        out = getattr(aig, CALLS[name])(*taken, **settings)
    except aig.Refused as refusal:
        return 1, b"", f"{program}: {refusal}\n".encode()
    if command == "numbers":
        out = text_of(out).encode()
    elif command == "run":
        out = b"b%d at step %d\n" % out
    elif command == "lasso":
        out = b"j%d in a loop from step %d to %d\n" % out
    return 0, out or b"", b""


@pytest.fixture(scope="module")
def place(library):
    """The folder of the library, with the files of the rows of calls."""
    harness.write_files(library, harness.files(CLIENTS / "files.tsv"))
    return library


def build_c(place, name, *flags):
    """A client in C over the archive."""
    compiler = shlex.split(os.environ.get("CC") or "cc")
    words = [
        *compiler, "-O2", "-Wall", "-Wextra", "-Werror", f"-I{TOP / 'include'}",
        CLIENTS / f"{name}.c",
    ]
    harness.build([*words, place / "libaig.a", *flags, "-o", place / name])
    return place / name


@pytest.fixture(scope="module")
def c_client(place):
    return build_c(place, "calls")


def given_by(client, call, folder):
    """What a client gives for a call, with its file GIVEN in a folder."""
    (folder / "GIVEN").write_bytes(call.given)
    placed = [str(folder / word) if word == "GIVEN" else word for word in call.words[1:]]
    return harness.run(
        [*client, CALLS[name_of(call.words[0], call.words)], *placed], cwd=call.place
    )


@by_call
def test_c(c_client, folder, checks, call):
    """A row from C."""
    checks.wants(call.words, call.wanted, given_by([c_client, call.program], call, folder))


@by_own_row
def test_c_alone(place, c_client, checks, row):
    """A row of calls that no program makes, from C."""
    words = row.cell(0).split()
    given = harness.run([c_client, "calls", CALLS[name_of(words[0], words)], *words[1:]], cwd=place)
    checks.wants(words, told("calls", words, row.cell(1)), given)


def test_memory(place, checks):
    """Refuses each request for memory of each call."""
    fed = (TESTS / "witnesses" / "fed.aag").read_bytes()
    harness.write_files(
        place, commands.FILES | {"and.aag": AND, "fed.aag": fed, "lasso": b"1\nj0\n0\n1\n1\n.\n"}
    )
    refusing = build_c(place, "memory", "-Wl,--wrap=malloc,--wrap=realloc,--wrap=free")
    files = (
        "whole.aag waiting.aag conflict hints delayed.aag solution counter.aag witness apart.aag"
        " solved and.aag"
    )
    status, out, said = harness.run([refusing, *files.split(), "fed.aag", "lasso"], cwd=place)
    checks.check(status == 0, f"refused memory: status {status}\n{out.decode()}{said.decode()}")
    made = dict(re.findall(r"^(\w+): (\d+) requests", out.decode(), re.M))
    checks.wants(
        "calls whose memory is refused",
        sorted(name.removeprefix("aig_") for name in archive.names()), sorted(made),
    )
    checks.check(all(int(count) > 0 for count in made.values()), f"each call takes memory: {made}")


def test_header(place, checks):
    """Holds the header, the exports and the names of libaig.so together."""
    in_c = declared(r"^uint32_t (\w+)\(([^)]*)\);", source("include", "aig.h"))
    types = {
        name: [re.sub(r"\s*\w+$", "", it).replace(" *", "*") for it in found]
        for name, found in in_c.items()
    }
    names = {name: [re.findall(r"\w+", it)[-1] for it in found] for name, found in in_c.items()}
    text = "".join(
        path.read_text(encoding="utf-8")
        for path in sorted((TOP / "crates" / "aig_calls" / "src").glob("*.rt"))
    )
    exports = declared(r'^pub extern "C" fn (\w+)\(([^)]*)\) -> u32', text)
    pairs = {
        name: [pair for it in found[1:] for pair in exported(it)] for name, found in exports.items()
    }
    for i, what, wanted in [(1, "types", types), (0, "names", names)]:
        given = {name: [pair[i] for pair in found] for name, found in pairs.items()}
        checks.wants(f"the header's {what} and the exports'", given, wanted)
    shared = harness.output(["nm", "-D", "--defined-only", str(place / "libaig.so")])
    wanted = sorted(name for crate in archive.HEADERS for name in archive.names(crate))
    checks.wants(
        "the names of libaig.so", wanted, sorted(line.split()[-1] for line in shared.splitlines())
    )


def test_statuses(checks):
    """Holds the header's statuses and the library's together."""
    values = header_statuses()
    text = "".join(
        source("crates", crate, "src", "status.rt") for crate in ["aig_giving", *archive.HEADERS]
    )
    constants = dict(re.findall(r"^(?:pub(?:\(crate\))? )?const (\w+): u32 = (\d+);", text, re.M))
    first = FIRST | {name: f"{name}_{SECTIONS[0]}" for name in ("SYNTAX", "LITERAL")}
    given = {name: values.get(first.get(name, name)) for name in constants}
    checks.wants("the header's statuses and the library's", constants, given)
    for name in ("SYNTAX", "LITERAL"):
        wanted = [str(int(constants[name]) + i) for i in range(len(SECTIONS))]
        checks.wants(
            f"the sections of {name}", wanted,
            [values.get(f"{name}_{section}") for section in SECTIONS],
        )


@pytest.fixture(scope="module")
def aig(place):
    """The Python module over the library, in this process."""
    os.environ["LIBAIG"] = str(place / "libaig.so")
    sys.path.insert(0, str(TOP / "lib" / "python"))
    yield importlib.import_module("aig")
    sys.path.remove(str(TOP / "lib" / "python"))
    del os.environ["LIBAIG"]


def test_words(aig, checks):
    """Each status of the header has its words, but for those that are added to others."""
    words, values = dict(harness.rows(CLIENTS / "statuses.tsv")), header_statuses()
    checks.wants("statuses with words", [name for name in values if name not in ADDED], [*words])
    for name, text in words.items():
        checks.wants(f"the words of AIG_{name}", text, str(aig.Refused(int(values[name]))))


@by_call
def test_python(aig, checks, call):
    """A row from Python."""
    checks.wants(
        call.words, call.wanted, by_python(aig, call.place, call.program, call.words, call.given)
    )


@by_own_row
def test_python_alone(aig, place, checks, row):
    """A row of calls that no program makes, from Python."""
    words = row.cell(0).split()
    checks.wants(
        words, told("calls", words, row.cell(1)), by_python(aig, place, "calls", words, b"")
    )


@pytest.fixture(scope="module")
def rust_client(place):
    return rust_program(place, CLIENTS / "rows.rs")


@pytest.mark.rust
@by_call
def test_rust(rust_client, folder, checks, call):
    """A row from Rust."""
    status, out, said = call.wanted
    wanted = status, out, said.replace(call.program.encode() + b":", b"rows:", 1)
    checks.wants(call.words, wanted, given_by([rust_client], call, folder))


@pytest.fixture(scope="module")
def model_checker(place):
    """The model checker in C++ of the examples."""
    words = [
        "g++", "-O2", "-Wall", "-Wextra", "-Werror", f"-I{TOP / 'include'}",
        TOP / "examples" / "bmc.cpp",
    ]
    harness.build([*words, place / "libaig.a", "-lcadical", "-o", place / "bmc"])
    return place / "bmc"


@pytest.mark.cpp
@pytest.mark.parametrize("name, step", REACHED.items())
def test_cpp_reached(model_checker, checks, name, step):
    """The model checker in C++ finds the step at which a machine is bad."""
    status, out, said = harness.run([model_checker, TOP / name, "10"])
    wanted = (
        "".join(f"no bad state at step {k}\n" for k in range(step)) + f"b0 at step {step}\n1\nb0\n"
    )
    checks.wants(name, (1, wanted, b""), (status, out.decode()[: len(wanted)], said))


@pytest.mark.cpp
@pytest.mark.parametrize(
    "words, wanted",
    [
        (
            [TOP / SAFE_DESIGN, "6"],
            (0, b"".join(b"no bad state at step %d\n" % k for k in range(7)), b""),
        ),
        (["missing"], (2, b"", b"bmc: cannot open\n")),
        (
            [tables.FILES / "no_bads.aag"],
            (2, b"", b"bmc: no bad state property (aigedit bads makes outputs such)\n"),
        ),
    ],
)
def test_cpp_ends(model_checker, folder, checks, words, wanted):
    """The model checker in C++ on a safe machine, and on files that it refuses."""
    checks.wants(words, wanted, harness.run([model_checker, *words], cwd=folder))
