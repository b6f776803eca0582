"""Designs of tests/designs as ABC writes them anew, and files with a literal inverted."""
import harness
from harness import RESYN, TESTS

from aigprove.circuits.aiger import Header, Lines

DESIGNS = TESTS / "designs"
# Designs that are compared with what these commands of ABC make of them.
REWRITTEN = [
    ("fifo_ptr", "dc2"),
    ("credit_flow", RESYN),
    ("lru", "dc2; rewrite; refactor"),
    ("sha4", "balance; dc2"),
]


def inverted(data):
    """A file with its first bad literal inverted, or its first output where it has none."""
    header, (_, *lines) = Header(Lines(data, "FILE")), data.split(b"\n")
    place = header.latches + header.inputs * header.is_text + header.outputs * (header.bads > 0)
    lines[place] = str(int(lines[place]) ^ 1).encode()
    return b"\n".join([data.split(b"\n")[0], *lines])


def rewritten(design, command, folder):
    """A design as ABC has it with all latches 0 at first, and what commands of ABC make of that,
    which dsec has to find equal."""
    plain, made = folder / "plain.aig", folder / "made.aig"
    words = (
        f"read_aiger {DESIGNS / design}.aig; logic; undc; strash; zero; write_aiger {plain};"
        f" {command}; write_aiger {made}"
    )
    harness.output(["berkeley-abc", "-q", words])
    said = harness.output(["berkeley-abc", "-q", f"dsec {plain} {made}"])
    return plain, made, "Networks are equivalent" in said
