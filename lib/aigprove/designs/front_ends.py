"""The input formats of designs, the command of yosys that reads each, and the types of cells that
stand for properties."""
from typing import NamedTuple

from aigprove.circuits.aiger import Fault

# The command of yosys that reads a file, by the end of its name; `words` are the options for
# Verilog. In BLIF, a clock may be only a name; latches with such a clock are registers of all
# steps.
VERILOG = "read_verilog {words} -formal -sv {include} {file}"
SCRIPT = "verilog_defaults -push\nverilog_defaults -add {inner}\n" \
    "script {file}\nverilog_defaults -pop"
BLIF = ".blif"
FRONTS = {
    **dict.fromkeys([".v", ".sv", ".vh", ".svh"], VERILOG),
    **dict.fromkeys([".il", ".rtlil"], "read_rtlil {file}"),
    BLIF: "read_blif -wideports {file}\n"
    "formalff -clk2ff t:$dff c:* %co1 w:* %i i:* %u %co1:+[CLK] %d\n"
    "setattr -unset keep a:replaced_by_gclk",
    ".ys": SCRIPT,
}
STANDARD_INPUT = "-"


class Way(NamedTuple):
    """A way of calling yosys's Verilog front end.

    `words` are the options of `read_verilog`, `inner` those that a script's own commands get, and
    `end` is the text appended to each file. The last `default_nettype` line of a file decides
    whether yosys accepts implicit nets in it."""

    words: str
    inner: str
    end: bytes


NONE, WIRE = b"\n\n`default_nettype none\n", b"\n\n`default_nettype wire\n"
# EXPANDING only prints the preprocessed texts. STRICT refuses names without a declaration. LOOKING
# accepts them as nets, and prints the syntax tree; AGAIN does the same with texts that are
# preprocessed already. DECLARED reads texts in which every name is declared, and DECLARED_LATER
# those in which yosys itself declares some of them later.
EXPANDING = Way("-ppdump", "", b"")
STRICT = Way("-ppdump -noautowire", "-ppdump -noautowire", NONE)
LOOKING = Way("-ppdump -dump_ast1", "-dump_ast1", WIRE)
AGAIN = Way("-nopp -dump_ast1", "-dump_ast1", WIRE)
DECLARED, DECLARED_LATER = Way("-nopp -noautowire", "", NONE), Way("-nopp", "", WIRE)
ASSERT, COVER, LIVE, FAIR = "$assert", "$cover", "$live", "$fair"


class TranslationTimeout(Fault):
    """The timeout was reached before yosys had translated the design."""


def overdue(path: str) -> TranslationTimeout:
    """Returns the exception for a design that yosys didn't read in time."""
    return TranslationTimeout.of("timed_out", path=path)


class File(NamedTuple):
    """A file of a design: its path and its contents."""

    path: str
    data: bytes

    @property
    def kind(self) -> str:
        """The file name extension that selects the front end, or "" for an AIGER file."""
        return kind_of(self.path, self.data) or ""


def kind_of(path: str, data: bytes) -> str | None:
    """Returns the file name extension that selects a front end, or None for an AIGER file.

    If `path` is standard input, `data` decides: an AIGER header, or Verilog."""
    if path == STANDARD_INPUT:
        return None if data.startswith((b"aag ", b"aig ")) else ".v"
    return next((end for end in FRONTS if path.endswith(end)), None)
