"""Steps of aig_script: files of them, how the program takes them, and what it prints for each.

A line is a step with its words; a word in quotes, as Rust writes texts and bytes, is put into a
file, and the step gets the file's name. Other files are made in a folder that is empty at first.
Lines behind `=` are what the step above them prints, a line each: a text or bytes in quotes, or as
it stands. A step with no such line prints nothing; but the edge that a connective answers may be
left out. Below a line `@ WORD ..` the steps are taken once for each of these words, which stands in
the place of `$`, up to the next title, a line that begins with `##`, below which the circuit is a
new one. `{PIECE}*N` is the piece N times, with 2, 4, .. for a `#` in it. Other lines that begin
with `#` say something.
"""
from __future__ import annotations

import ast
import pathlib
import re
from collections.abc import Iterator
from typing import NamedTuple

import harness

EDGE = re.compile(r"AigEdge \{ node_id: (\d+), compl: (true|false) \}")
GATE = re.compile(r"AigNode \{ node_id: \d+, typ: And\(([^,]*), ([^)]*)\) \}")
NODE = re.compile(r"AigNode \{ node_id: \d+, typ: ([FL])\w+ \}")
LATCH = re.compile(r"AigLatch \{ input: (\d+), next: ([^,]*), init: (?:Some\((.*?)\)|None) \}")
LITERAL = re.compile(r"(?:Lit \{ code|Var \{ number): (\d+) \}")
LIST = re.compile(r"(?:(\w+) )?[\[{](.*)[\]}]")
THREE = {"FALSE": "0", "TRUE": "1", "NONE": "x"}
QUOTED = re.compile(r'b?"(?:[^"\\]|\\.)*"')
CONNECTIVES = {
    "and", "or", "imply", "eq", "ands", "ors", "trivial_and", "trivial_or", "trivial_ands",
    "trivial_ors",
}


class Step(NamedTuple):
    """A step: its line's number, the line, and what it prints."""

    number: int
    line: str
    prints: list[str]


def listed(title: str | None, inner: str) -> str:
    """A list behind its title: the sets of a list of them in brackets, the places of what is true,
    or three values as one word."""
    if title == "justice":
        return " ".join(
            [
                "justice",
                *(
                    f"[ {it.replace(',', '')} ]".replace("  ", " ")
                    for it in re.findall(r"\[([^]]*)\]", inner)
                ),
            ]
        )
    words = inner.split(", ") if inner else []
    if words and set(words) <= {"true", "false"}:
        words = [str(i) for i, it in enumerate(words) if it == "true"]
    if words and set(words) <= set(THREE):
        words = ["".join(THREE[it] for it in words)]
    return " ".join(words if title is None else [title, *words])


def plain(line: str) -> str:
    """What a printed line says: an edge as its node's number behind a mark where it is inverted, a
    gate as its operands, a latch as its leaf, its next edge, and its initial edge or a line, a
    literal or a variable as its number, and lists without commas."""
    if line.startswith(('"', "names")):
        return line.rstrip()
    line = EDGE.sub(lambda edge: "!" * (edge[2] == "true") + edge[1], line)
    line = NODE.sub(r"\1", GATE.sub(r"\1&\2", line))
    line = LATCH.sub(lambda latch: f"{latch[1]}:{latch[2]}:{latch[3] or '-'}", line)
    line = re.sub(r"^Some\((.*)\)$", r"\1", LITERAL.sub(r"\1", line))
    found = LIST.fullmatch(line)
    if not found:
        return line
    told = listed(*found.groups())
    return " ".join(sorted(told.split(), key=int)) if line.startswith("{") else told


def answers(out: str) -> list[list[str]]:
    """What is printed for each step."""
    pieces = re.split(r"^> .*\n", out, flags=re.M)[1:]
    return [
        [plain(it) for it in piece.splitlines() if it not in ("call", "answer", "()")]
        for piece in pieces
    ]


def value(quoted: str) -> bytes:
    """The bytes that a quoted word says."""
    read: str | bytes = ast.literal_eval(quoted)
    return read if isinstance(read, bytes) else read.encode()


def wanted(line: str) -> str:
    """What a line behind `=` says is printed."""
    line = harness.repeated(line)
    return " ".join(map(str, value(line))) if line.startswith('b"') else line


def parts(path: pathlib.Path) -> Iterator[tuple[str, list[str], list[Step]]]:
    """The parts of a file: the title of each, and its steps, each with its line's number and what
    it prints."""
    title, words = path.stem, [""]
    steps: list[Step] = []
    for number, line in enumerate(path.read_text().splitlines(), 1):
        if line.startswith("##"):
            yield title, words, steps
            title, words, steps = line.lstrip("# "), [""], []
        elif line.startswith("@ "):
            words = line.split()[1:]
        elif line.startswith("= ") or line == "=":
            steps[-1][2].append(wanted(line[2:]))
        elif line and not line.startswith("#"):
            steps.append(Step(number, line, []))
    yield title, words, steps


def unrolled(words: list[str], steps: list[Step]) -> Iterator[Step]:
    """The steps of a part, with each word in the place of `$`."""
    for word in words:
        yield Step(steps[0].number, "new", [])
        for number, line, prints in steps:
            yield Step(number, harness.repeated(line.replace("$", word)), prints)


def script_of(steps: list[Step], folder: pathlib.Path) -> str:
    """The text that the program reads, where the quoted words are in files of a folder."""
    files: dict[str, pathlib.Path] = {}

    def name(quoted: re.Match[str]) -> str:
        file = files.setdefault(quoted[0], folder / f"word{len(files)}")
        file.write_bytes(value(quoted[0]))
        return str(file)

    return "".join(QUOTED.sub(name, line) + "\n" for _, line, _ in steps)


def printed(
    steps: list[Step], program: pathlib.Path, folder: pathlib.Path
) -> tuple[list[list[str]], int | None, str]:
    """What the program prints for each step, its status, and what it says on standard error."""
    script = folder / "steps"
    script.write_text(script_of(steps, folder))
    status, out, error = harness.run([program, script], cwd=folder)
    return answers(out.decode()), status, error.decode()


def is_as_wanted(line: str, prints: list[str], found: list[str]) -> bool:
    """Whether a step prints what is wanted."""
    if not prints and line.split()[0] in CONNECTIVES:
        return len(found) == 1 and bool(re.fullmatch(r"!?\d+", found[0]))
    return found == prints
