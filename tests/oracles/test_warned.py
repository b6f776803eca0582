"""Holds the table of all that yosys may warn of, and shows with designs what aigprove does about
it.

The texts of warnings are read from the program yosys itself (of x86-64): they are what its calls
that warn are given. Each has to have a row in warned/warnings.tsv, and each row has to be such a
text, or one of ABC's. A row that names a design of warned/designs.txt is shown by it: what is told
stands on standard error, and doesn't with -q; what is hushed doesn't; and what is refused ends with
a fault. The tools are yosys, nm, cadical and ABC.
"""
import re
import shutil
import struct
from pathlib import Path

import harness
import pytest
from harness import PROVE, TESTS, rows

TABLE, DESIGNS = TESTS / "warned" / "warnings.tsv", TESTS / "warned" / "designs.txt"
# The calls that warn, the register in which they are given the text, as what loads it begins, and
# others that it may come from.
CALLS = re.compile(
    (
        r"^([0-9a-f]+) T"
        r" _ZN5Yosys\d+(log_warning|log_warning_noprefix|log_experimental|log_file_warning)E(\S*)$"
    ),
    re.MULTILINE,
)
FIRST, THIRD, OTHERS = (
    b"\x48\x8d\x3d", b"\x48\x8d\x15",
    [b"\x48\x8d\x2d", b"\x4c\x8d\x3d", b"\x4c\x8d\x25"],
)
# How many bytes before a call the text is loaded at most, and from where it may come otherwise.
NEAR, FAR = 80, 170
PART = re.compile(r"%(?:[0-9.]*[a-z%])")
ABC = "Warning: "


def calls(program):
    """The addresses of the calls that warn, with what loads their texts."""
    said = harness.output(["nm", "-D", "--defined-only", program])
    return {
        int(place, 16): THIRD if name == "log_file_warning" else FIRST
        for place, name, _ in CALLS.findall(said)
    }


def code(data):
    """The part of a program with its code: where it begins in the file, at which address, and how
    long it is."""
    start, size, count, names = (
        struct.unpack_from(form, data, place)[0]
        for form, place in [("<Q", 40), ("<H", 58), ("<H", 60), ("<H", 62)]
    )
    sections = [struct.unpack_from("<IIQQQQ", data, start + size * i) for i in range(count)]
    named = {data[sections[names][4] + it[0]:].split(b"\0", 1)[0]: it for it in sections}
    _, _, _, address, offset, length = named[b".text"]
    return offset, address, length


def text_at(data, place):
    """The text that an instruction at a place of a program loads."""
    begin = place + 7 + struct.unpack_from("<i", data, place + 3)[0]
    return data[begin:data.index(b"\0", begin)].decode("latin-1")


def loaded(data, place, instruction):
    """The text that a call at a place is given; empty where it is made."""
    near = data.rfind(instruction, place - NEAR, place)
    if near >= 0:
        return text_at(data, near)
    others = [data.rfind(it, place - FAR, place) for it in OTHERS]
    texts = [text_at(data, other) for other in sorted(others, reverse=True) if other >= 0]
    return next((text for text in texts if text.endswith("\n") and len(text) > 3), "")


def texts(program):
    """All texts of a program's warnings. In this program code and texts have the same address in
    memory as place in the file."""
    data, known = program.read_bytes(), calls(str(program))
    offset, address, length = code(data)
    assert offset == address
    found, place = set(), data.find(b"\xe8", offset)
    while 0 <= place < offset + length:
        target = place + 5 + struct.unpack_from("<i", data, place + 1)[0]
        if target in known:
            found.add(loaded(data, place, known[target]))
        place = data.find(b"\xe8", place + 1)
    return found


def spelled(text):
    """A text as the table has it."""
    return text.replace("\\", "\\\\").replace("\n", "\\n") or "-"


def pattern(text):
    """What a told warning of a text looks like."""
    pieces = PART.split(text.removesuffix("\\n").replace("\\n", " ").replace("\\\\", "\\"))
    return "yosys warns: .*" * (pieces[0] == "") + ".*".join(
        re.escape(" ".join(piece.split())).replace(r"\ ", " *") for piece in pieces
    )


def designs():
    """The texts of the designs and their words, by their names."""
    for part in DESIGNS.read_text().split("\n== ")[1:]:
        name, _, text = part.partition("\n")
        words = re.findall(r"^words: (.*)$", text, re.MULTILINE)
        yield name, (
            re.sub(r"^words: .*$", "", text, flags=re.MULTILINE), words[0].split() if words else [],
        )


def faults(text, what, design, words, folder):
    """What is wrong of what aigprove does about a warning of a design."""
    (folder / "design.sv").write_text(design)
    asked = [PROVE, "--engine", "steps", "--bound", "0", *words, "design.sv"]
    status, _, said = harness.run(asked, cwd=folder)
    is_told = re.search(pattern(text), said.decode()) is not None
    if is_told != (what == "told") or (status == 1) != (what == "refused"):
        yield f"{text} is to be {what}: status {status}, {said.decode()}"
    if what == "told" and (quiet := harness.run([*asked, "-q"], cwd=folder)[2]):
        yield f"{text} is told with -q: {quiet.decode()}"


def shown():
    """The rows that a design shows."""
    known = dict(designs())
    for text, what, _, design in rows(TABLE):
        if design != "-":
            yield pytest.param(text, what, *known[design], id=design)


@pytest.mark.yosys
def test_table(checks):
    """Each text that yosys may warn of has a row, and each design is named by one."""
    table = rows(TABLE)
    listed = {text for text, *_ in table if not text.startswith(ABC)}
    found = set(map(spelled, texts(Path(shutil.which("yosys")).resolve())))
    checks.wants(
        "warnings without a row, and rows without a warning", ([], []),
        (sorted(found - listed), sorted(listed - found)),
    )
    named = {design for *_, design in table}
    checks.wants("designs without a row", [], sorted(dict(designs()).keys() - named))


@pytest.mark.yosys
@pytest.mark.cadical
@pytest.mark.abc
@pytest.mark.parametrize("text, what, design, words", shown())
def test_warning(folder, checks, text, what, design, words):
    """A warning is told, hushed or refused, as its row says."""
    checks.wants(text, [], list(faults(text, what, design, words, folder)))
