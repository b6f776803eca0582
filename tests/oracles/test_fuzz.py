"""Damages files at random, and checks what holds of the programs whatever a file says.

Files are made at random and damaged by bytes, by numbers and by lines. Of each: aigtool ends with
status 0 or 1, with nothing or with one line of a known text on standard error; it takes no more
memory than the file and its header account for; what it prints is read again as the same; the text
and the binary form of a file are one circuit, and have its counts and names; hashing twice is
hashing once; clauses have the counts that their first line says, and variables of it alone; and
aigedit and aigcheck take it or refuse it by one line, too. Those of fuzz/rows.tsv are tried first.
"""
import re
import resource

import harness
import pytest
from damaged import made_file
from hypothesis import given
from strategies import cases, choices, note

SECTIONS = ["inputs", "latches", "outputs", "bads", "constraints", "justice", "fairness", "gates"]
TEXTS = {
    *("out of memory", "bad header line", "too many variables", "bad difference", "bad name line"),
    *(f"bad {what} in {section}" for what in ("line", "literal") for section in SECTIONS),
}
TOO_LARGE = "unrolled circuit may pass the limit"
# The bytes of memory that each run may take, those for each byte of its file, and those that a
# variable of a header may take.
MEMORY = 64 << 20
OF_A_BYTE = 200
OF_A_VARIABLE = 200

# Files that are tried first.
ROWS = harness.files(harness.TESTS / "fuzz" / "rows.tsv")

# ---- what holds

# Commands of the other programs, and their step.
BESIDE = [
    [harness.EDIT, "reduce"],
    [harness.EDIT, "info"],
    [harness.EDIT, "question", "2"],
    [harness.CHECK, "bounded", "2"],
]


def wants(holds, what):
    """Fails unless something holds of a file."""
    assert holds, what


class Tool:
    """The program, in a folder of its own."""

    def __init__(self, tool, folder):
        self.tool, self.folder = tool, folder

    def ended(self, data, program, command, *further):
        """How a program ends on a file of these bytes, with as much memory as it may take."""
        (self.folder / "file").write_bytes(data)
        before = harness.limit(resource.RLIMIT_AS, MEMORY + OF_A_BYTE * len(data))
        return harness.run([program, command, "file", *further], cwd=self.folder, preexec_fn=before)

    def run(self, data, command, *further):
        """Runs a command on a file of these bytes. Returns what it prints, or nothing if it was
        refused."""
        status, out, error = self.ended(data, self.tool, command, *further)
        what = f"{command} {' '.join(further)}: status {status}, {error}"
        if status == 0 and not error:
            return out
        told, header = re.fullmatch(r"aigtool: (.*)\n", error.decode()), re.match(
            rb"a[ai]g (\d+)", data
        )
        wants(status == 1 and not out and told, what)
        wants(told[1] in TEXTS or (command in ["cnf", "query"] and told[1] == TOO_LARGE), what)
        wants(
            told[1] != "out of memory" or (header and int(header[1]) * OF_A_VARIABLE >= MEMORY),
            what,
        )
        return None

    def binary(self, data):
        """The binary form of a file, or nothing if it was refused."""
        out = self.folder / "out"
        out.unlink(missing_ok=True)
        printed = self.run(data, "binary", "out")
        wants(
            not printed and (printed is not None or not out.exists()),
            "binary: prints, or leaves a file",
        )
        return None if printed is None else out.read_bytes()

    def check_beside(self, data, is_accepted):
        """What aigedit and aigcheck say of the same file: reductions and counts of what is
        accepted, questions where it has bad literals too, and else one line. Beside an answer they
        tell of justice and fairness, if the header counts such."""
        for program, command, *further in BESIDE:
            status, out, error = self.ended(data, program, command, *further)
            told, error = harness.NOTICES[0] in error, harness.alone(error)
            wants(
                told == (status == 0 and command != "info" and is_live(data)),
                f"{command}: of justice it tells {told}",
            )
            done = (status, error) == (0, b"")
            refused = out == b"" and re.fullmatch(rb"aig(edit|check): .*\n", error)
            wants(done or (refused and status in (1, 20)), f"{command}: status {status}, {error}")
            if not is_accepted:
                wants(status == 1, f"{command} takes it")
            elif not further or b"no bad state property" not in error:
                wants(done or status == 20, f"{command} refuses it: {error}")


def is_live(data):
    """Whether a file's header counts justice properties or fairness constraints."""
    return any(map(int, data.partition(b"\n")[0].split()[8:]))


def check_clauses(printed, what):
    """The counts of the first line, and variables of it alone."""
    lines = [list(map(int, line.split())) for line in printed.decode().splitlines()[1:]]
    variables, clauses = map(int, re.match(rb"p cnf (\d+) (\d+)\n", printed).groups())
    wants(
        len(lines) == clauses and all(line[-1] == 0 and 0 not in line[:-1] for line in lines),
        f"{what}: clauses",
    )
    wants(
        all(abs(literal) <= variables for line in lines for literal in line), f"{what}: variables"
    )


def counts_and_names(text):
    """The numbers of the header, and the lines of names."""
    lines = text.split(b"\n")
    return lines[0], [line for line in lines if line[:1] in (b"i", b"l")]


def check(tool, data, steps, setting):
    """What holds of a file, with so many steps of clauses and this setting."""
    text = tool.run(data, "text")
    tool.check_beside(data, text is not None)
    answers = [tool.binary(data), tool.run(data, "strash")]
    answers += [tool.run(data, command, steps, *setting) for command in ["cnf", "query"]]
    wants(
        all((answer is None) == (text is None) for answer in answers),
        "commands differ in what they accept",
    )
    if text is None:
        return
    binary, hashed, *clauses = answers
    wants(tool.run(text, "text") == text, "the text is read as another")
    wants(tool.binary(text) == binary, "the text is another circuit than the file")
    again = tool.run(binary, "text")
    wants(again is not None and tool.binary(again) == binary, "the binary form is read as another")
    wants(
        counts_and_names(again) == counts_and_names(text),
        "the binary form has other counts or names",
    )
    wants(tool.run(hashed, "strash") == hashed, "hashing twice is another circuit")
    for printed, what in zip(clauses, ["cnf", "query"]):
        check_clauses(printed, what)


@pytest.fixture
def tool(aigtool, folder):
    """The program aigtool, with a folder for files."""
    return Tool(aigtool, folder)


@pytest.mark.parametrize("name", ROWS)
def test_row(tool, name):
    """A file that was damaged by hand."""
    check(tool, ROWS[name], "1", [])


@cases(600, 20000)
@given(rng=choices())
def test_damaged(tool, checks, rng):
    """A random file, damaged a few times or not at all."""
    data, steps, setting = made_file(rng), str(rng.choice([0, 1, 3])), rng.choice([[], ["raw"]])
    note(f"{steps} {setting} {data!r}")
    check(tool, data, steps, setting)
    checks.passed += 1
