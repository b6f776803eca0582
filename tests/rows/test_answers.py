"""Runs aigtool, aigedit and aigcheck on small files, proofs, solutions and witnesses, and compares
what they print, byte for byte.

Rows stand in the tables `tests/answers/*.tsv` and `tests/witnesses/*.tsv`, and were worked by hand.
A row is the words of a command, which is run in the table's folder, with the bytes of the second
cell as its file GIVEN; what is printed; and what the row is about, where that has to be said.
`usage` ends with status 2, a line that begins with the program's name with status 1, both to
standard error, and all else goes to standard output with status 0, but for lines at its end that
begin so, which are told beside it. The file that such a line names, and the place there, are left
out but in places.tsv, and everywhere the line behind that of a refused proof. In these cells `\\n`
is a line feed, `\\x` a byte in hexadecimal, and `{PIECE}*N` the piece N times.

What aigtool and aigedit print is cut at each length, too, by a limit on the size of files: then a
beginning of it is there, and the last write is told to have failed. And rows that are made here
have long clauses, limits on time and memory, and full devices.
"""
from __future__ import annotations

import pathlib
import resource
import shlex
import subprocess
from typing import Any

import harness
import pytest
from harness import Checks, limit, repeated, spelled
from tables import FILES, TABLES, Row, by_row, wanted_of

# The programs whose printed texts are cut.
CUT = ["aigtool", "aigedit"]

# opposed.aag, which has two inputs, with 1,100 further ones, whose variables are 4 to 1103, and
# proofs with a clause of these. As in proofs.tsv SPLIT and OPPOSED are proofs about opposed.aag
# without hints and with them.
SPLIT = "2 0\n0\n"
OPPOSED = "{0} 2 0 13 10 11 2 6 0\n{1} 0 {0} 13 10 11 3 7 0\n"
WIDE = "aag 1109 1102 0 0 7 1\n" + repeated("{#\n}*1102") + "2218\n"
WIDE += "2206 4 2\n2208 5 3\n2210 2209 2207\n2212 5 2\n2214 4 3\n2216 2215 2213\n2218 2216 2210\n"
MANY = " ".join(str(i) for i in range(4, 1104))
# What costs no more than it touches: proofs about opposed.aag with so many steps, literals or
# hints, and a machine that at so many steps has two literals that follow: a latch that is 1 where
# it was and an input is, from any start, and is bad where it is 1. Where each cost what is there
# already, these took a minute; CPU seconds are enough.
COUNT, CPU = 200_000, 10
# A proof with hints that makes clauses and deletes 2,000 of them in one step.
LISTED = "".join(f"{number} 2 0 13 10 11 2 6 0\n" for number in range(14, 2015))
LISTED += f"2014 d {' '.join(map(str, range(14, 2014)))} 0\n2015 0 2014 13 10 11 3 7 0\n"
# 600 gates over 601 latches that keep what they have, each the and of the gate before it and a
# latch, of which the last is bad; and the question about two steps, in which both have the same
# gates.
GATES = "1204 4 2\n" + "".join(
    f"{1202 + 2 * i} {1200 + 2 * i} {2 * i + 2}\n" for i in range(2, 601)
)
KEPT = (
    "aag 1201 0 601 0 600 1\n"
    + "".join(f"{2 * i} {2 * i} {2 * i}\n" for i in range(1, 602))
    + "2402\n"
    + GATES
)
ASKED = "aag 1201 601 0 1 600\n" + "".join(f"{2 * i}\n" for i in range(1, 602)) + "2402\n" + GATES
# A chain of 201 latches, of which the first is bad and the last takes what a chain of 100,000 gates
# over two inputs gives: a bad state reads that after 201 steps. All steps of the gates up to step
# 200 would be more than 2^24.
AHEAD = (
    "aag 100203 2 201 0 100000 1\n2\n4\n"
    + "".join(f"{6 + 2 * i} {8 + 2 * i}\n" for i in range(200))
    + "406 200406\n6\n408 4 2\n"
)
AHEAD += "".join(f"{408 + 2 * i} {406 + 2 * i} {2 + i % 2}\n" for i in range(1, 100_000))
MADE = {
    "wide": WIDE,
    "many": f"2 {MANY} 0\nd {MANY} 2 0\nd {MANY} 0\n" + SPLIT,
    "many_numbered": f"14 2 {MANY} 0 13 10 11 2 6 0\n14 d 14 0\n" + OPPOSED.format(16, 17),
    "many_deleted": f"14 2 {MANY} 0 13 10 11 2 6 0\n14 d 14 0\n15 2 0 14 0\n",
    "deletions": "10 2 3 0\n" * COUNT + "d 10 2 3 0\n" * COUNT + SPLIT,
    "listed": LISTED,
    "kept": KEPT,
    "asked": ASKED,
    "ahead": AHEAD,
    "inputs": "aig 1100000 1100000 0 0 0 1\n2\n",
    "outputs": "aag 1 1 0 5000 0\n2\n" + "2\n" * 5000,
    "first": "s SATISFIABLE\nv 2 0\n",
    "last": "s SATISFIABLE\nv -3 1100002 0\n",
    "late": (
        f"s SATISFIABLE\nv -2 -3 {' '.join(str(-2 * i) for i in range(2, 3000))} 6000 -6002 0\n"
    ),
    "repeats": (
        f"14 10{' 2' * COUNT} 0 13 0\n15 2 0{' 14' * COUNT} 13 10 11 2 6 0\n16 0 15 13 10 11 3"
        " 7 0\n"
    ),
    "staying": "aig 3 1 1 0 1 1\n6 4\n4\n\2\2",
    "conflict": "0\n",
    "solved": "s SATISFIABLE\nv -1 2 -3 -4 0\n",
    "shown": "1\nb0\n00\n1\n1\n1\n0\n.\n",
}
# What limits the programs of limits.tsv: CPU seconds, and 4 GB of memory for 100,000 steps, which
# grows with the steps and not with the pairs of them.
LIMITS = {
    "": None,
    "cpu": limit(resource.RLIMIT_CPU, CPU),
    "memory": limit(resource.RLIMIT_AS, 4 << 30),
}
# The comments of the query of permits.aag for step 0: each leaf and gate is the variable of its
# number in the file, and one more.
PERMITS = "../../examples/permits.aag"
COMMENTS = (
    b"c i0 at step 0 is 2\nc i1 at step 0 is 3\nc l0 at step 0 is 4\nc l1 at step 0 is 5\nc b0 at"
    b" step 0 is 20\n"
)


class Answers:
    """The programs, a folder of files, and what is counted."""

    def __init__(
        self, programs: dict[str, pathlib.Path], folder: pathlib.Path, checks: Checks
    ) -> None:
        self.programs, self.folder, self.checks = programs, folder, checks

    def check(
        self,
        line: str,
        wanted: tuple[int, bytes, bytes],
        place: pathlib.Path,
        given: str = "",
        **how: Any
    ) -> None:
        """Checks how a command ends in a place, and what it prints, with a file of these bytes."""
        status, out, said = self.given_by(line, place, **how)
        wanted = *wanted[:2], harness.advised(wanted[2])
        self.checks.wants(f"{line}: {given}", wanted, (status, out, harness.unnamed(said)))

    def given_by(
        self, line: str, place: pathlib.Path, **how: Any
    ) -> tuple[int | None, bytes, bytes]:
        """The status of a command, what it prints and what it says."""
        program, *words = shlex.split(line)
        given: list[harness.Word] = [
            spelled(word) if word != "GIVEN" else self.folder / word for word in words
        ]
        return harness.run([self.programs[program], *given], cwd=place, **how)

    def check_cut(self, line: str, printed: bytes, place: pathlib.Path) -> None:
        """Checks what is there of a printed text where there is room for less."""
        unwritten = f"{line.split()[0]}: write failed\n".encode()
        for room in range(len(printed)):
            with open(self.folder / "printed", "wb") as out, harness.limited_files(room):
                self.check(line, (1, b"", unwritten), place, stdout=out, restore_signals=False)
            held = (self.folder / "printed").read_bytes()
            assert held == printed[:room], f"{line}, room for {room}"

    def read(self, row: Row) -> tuple[str, str, str]:
        """Returns the words of a row, the bytes of its file, which is there then, and what is
        printed."""
        words, given, printed = (repeated(row.cell(place)) for place in range(3))
        (self.folder / "GIVEN").write_bytes(spelled(given))
        return words, given, printed

    def check_obligations(self, pair: str, form: str) -> None:
        """Checks that the clauses of a certificate's proofs are those of the joint file."""
        joined = self.folder / "joined"
        joined.write_bytes(
            harness.run([self.programs["aigedit"], "join", *pair.split()], cwd=FILES)[1]
        )
        base = harness.run([self.programs["aigtool"], "query", joined, "0", *form.split()])[1]
        window = harness.run([self.programs["aigcheck"], "window", joined, "0", *form.split()])[1]
        step = window.removeprefix(harness.title(f"window 0{form}", joined.read_bytes()))
        title = harness.title(
            f"obligations{form}", *((FILES / name).read_bytes() for name in pair.split())
        )
        self.check(
            f"aigcheck obligations {pair}{form}",
            (0, title + b"c base\n" + base + b"c step\n" + step, b""), FILES,
        )


@pytest.fixture
def answers(programs: dict[str, pathlib.Path], folder: pathlib.Path, checks: Checks) -> Answers:
    """The programs, with a folder for the files of one row."""
    return Answers(programs, folder, checks)


@pytest.fixture(scope="module")
def made(tmp_path_factory: pytest.TempPathFactory) -> dict[str, pathlib.Path]:
    """The paths of the files that are made here, by their names."""
    folder = tmp_path_factory.mktemp("made")
    harness.write_files(folder, {name: text.encode() for name, text in MADE.items()})
    return {name: folder / name for name in MADE}


@by_row(*TABLES)
def test_row(answers: Answers, row: Row) -> None:
    """A command prints what its row says, and a beginning of it where there is room for less."""
    words, given, printed = answers.read(row)
    line = TABLES[f"{row.table.parent.name}/{row.table.name}"].format(words)
    program = line.split()[0]
    wanted = wanted_of(program, spelled(printed))
    answers.check(line, wanted, row.table.parent, given[:500])
    if program in CUT:
        answers.check_cut(line, wanted[1], row.table.parent)


@by_row("answers/places.tsv")
def test_place(answers: Answers, row: Row) -> None:
    """A refusal names the file and the place there; aigedit names it of a pipe, too."""
    words, given, printed = answers.read(row)
    path = str(answers.folder / "GIVEN")
    wanted = harness.advised(spelled(printed.replace("GIVEN", path)))
    ended = answers.given_by(words, row.table.parent, stdin=subprocess.DEVNULL)
    answers.checks.wants(f"{words}: {given}", (1, b"", wanted), ended)
    if words.startswith("aigedit ") and "GIVEN" in words:
        piped, wanted = words.replace("GIVEN", "/dev/stdin"), spelled(
            printed.replace("GIVEN", "/dev/stdin")
        )
        ended = answers.given_by(piped, row.table.parent, input=spelled(given))
        answers.checks.wants(f"{piped}: {given}", (1, b"", wanted), ended)


@by_row("answers/limits.tsv", command=1)
def test_limit(answers: Answers, made: dict[str, pathlib.Path], row: Row) -> None:
    """A command on a large file ends within a limit of time or memory."""
    limited, line, printed = row.cells[:3]
    wanted = wanted_of(line.split()[0], spelled(repeated(printed).format(**MADE)))
    answers.check(line.format(**made), wanted, FILES, preexec_fn=LIMITS[limited])


@by_row("answers/unwritten.tsv")
def test_full_device(answers: Answers, made: dict[str, pathlib.Path], row: Row) -> None:
    """A command whose output is a full device says that the write failed."""
    line = row.cells[0]
    wanted = (1, b"", f"{line.split()[0]}: write failed\n".encode())
    with open("/dev/full", "wb") as full:
        answers.check(line.format(**made), wanted, FILES, stdout=full)


@pytest.mark.parametrize("form", ["", " raw"])
def test_clauses_are_those_of_the_query(answers: Answers, form: str) -> None:
    """`aigcheck clauses` prints the clauses of `aigtool query` behind its comments."""
    query = harness.run(
        [answers.programs["aigtool"], "query", PERMITS, "0", *form.split()], cwd=FILES
    )[1]
    text = harness.title(f"clauses 0{form}", (FILES / PERMITS).read_bytes()) + COMMENTS + query
    answers.check(f"aigcheck clauses {PERMITS} 0{form}", (0, text, b""), FILES)


@pytest.mark.parametrize("form", ["", " raw"])
def test_obligations_are_those_of_the_joint_file(answers: Answers, form: str) -> None:
    """`aigcheck obligations` prints the clauses of the joint file of `aigedit join`."""
    answers.check_obligations("differing.aag held.aag", form)
