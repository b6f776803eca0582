"""Reads files that yosys and ABC write, writes both forms, and has ABC find what was written
equivalent.

ABC compares files with as many inputs and outputs, and takes bad literals for outputs. Names of
outputs aren't kept, so inputs and outputs are matched by their order.
"""

import pytest
from harness import EDIT, TESTS, TOOL, TOP, output

MAKE = """read_verilog {design}; prep -top arbiter; flatten; opt; techmap; opt; dffunmap;
abc -g AND; clean; aigmap; write_aiger -zinit -symbols yosys.aig;
write_aiger -ascii -zinit -symbols yosys.aag"""
# The commands of aigedit that keep what ABC compares, and the examples that they are tried on.
EDITED = {
    "reencode": "adder arbiter_yosys counter handshake permits pipeline pushes queue",
    "refine": "adder counter handshake permits pipeline pushes queue",
    "bads": "adder arbiter_yosys counter",
}

pytestmark = pytest.mark.abc


def is_equivalent(first, other):
    """Whether ABC finds two binary files equivalent."""
    return "Networks are equivalent" in output(["berkeley-abc", "-q", f"dsec -n {first} {other}"])


@pytest.fixture(scope="module")
def written(tmp_path_factory):
    """A folder with the files that yosys and ABC write of a design."""
    folder = tmp_path_factory.mktemp("written")
    script = MAKE.format(design=TESTS / "arbiter.v").replace("\n", " ")
    output(["yosys", "-q", "-p", script], cwd=folder)
    output(
        [
            "berkeley-abc", "-q",
            f"read_aiger {folder}/yosys.aig; strash; write_aiger -s {folder}/abc.aig",
        ]
    )
    return folder


@pytest.mark.yosys
@pytest.mark.parametrize("name", ["yosys.aig", "yosys.aag", "abc.aig"])
def test_read_and_written(written, folder, name):
    """A file is read, and both forms that are written of it are read again as one circuit, which
    ABC finds equivalent."""
    binary, again, text = folder / "binary.aig", folder / "again.aig", folder / "text.aag"
    text.write_text(output([TOOL, "text", written / name]))
    output([TOOL, "binary", written / name, binary])
    output([TOOL, "binary", text, again])
    assert again.read_bytes() == binary.read_bytes()
    text.write_text(output([TOOL, "text", binary]))
    output([TOOL, "binary", text, again])
    assert again.read_bytes() == binary.read_bytes()
    assert is_equivalent(written / "yosys.aig", binary)


@pytest.mark.parametrize(
    "command, name",
    [(command, name) for command, names in EDITED.items() for name in names.split()],
)
def test_edited(folder, command, name):
    """ABC finds what aigedit prints of an example equivalent to it."""
    example, made = TOP / "examples" / f"{name}.aag", folder / "made.aag"
    made.write_text(output([EDIT, command, example]))
    output([TOOL, "binary", example, folder / "old.aig"])
    output([TOOL, "binary", made, folder / "new.aig"])
    assert is_equivalent(folder / "old.aig", folder / "new.aig")
