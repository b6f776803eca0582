"""Has gtkwave's reader find the same signals and changes in each dump of tests/waves, and gtkwave
draw the picture of the pages."""
from __future__ import annotations

import pathlib

import pytest
from harness import TESTS, TOP, output

DUMPS = sorted((TESTS / "waves").glob("*.vcd"))


def changes(text: str) -> list[str]:
    """The signals of a dump and their changes, by name, in one order."""
    names, found = {}, []
    for line in text.splitlines():
        words = line.split()
        if words[:1] == ["$var"]:
            names[words[3]] = "".join(words[4:6])
            found.append(" ".join([*words[1:3], *words[4:6]]))
        elif line[:1] == "#":
            found.append(line)
        elif line[:1] in ("0", "1", "x"):
            found.append(f"{line[0]} {names.get(line[1:])}")
    return sorted(found)


@pytest.mark.gtkwave
@pytest.mark.parametrize("dump", DUMPS, ids=[path.name for path in DUMPS])
def test_reader(folder: pathlib.Path, dump: pathlib.Path) -> None:
    """gtkwave's reader finds the same signals and changes, though not in one order."""
    output(["vcd2fst", "-v", str(dump), "-f", str(folder / "fst")])
    output(["fst2vcd", "-f", str(folder / "fst"), "-o", str(folder / "vcd")])
    found, wanted = changes((folder / "vcd").read_text()), changes(dump.read_text())
    assert found == wanted


@pytest.mark.gtkwave
@pytest.mark.yosys
@pytest.mark.cadical
def test_picture(folder: pathlib.Path) -> None:
    """The picture of the pages can be drawn."""
    output([str(TOP / "docs" / "picture.py"), str(folder / "picture.png")])
    assert (folder / "picture.png").stat().st_size
