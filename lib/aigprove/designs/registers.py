"""Replaces one-bit registers and latches of gate-level netlists (`$_DFFE_PP0P_`) by cells of any
width (`$adffe`), which later passes need."""
import re
from collections.abc import Mapping

from aigprove.designs.rtlil import Statement

# The type of a one-bit cell: its kind, and a letter for each control signal: its active level or
# edge (N, P), or the reset value (0, 1).
FINE = re.compile(r"\$_([A-Z]+)_(?:([NP01]+)_)?")
# By the kind and the number of letters: the new type, and the meaning of each letter.
COARSE = {
    ("FF", 0): ("$ff", ""),
    ("SR", 2): ("$sr", "SET CLR"),
    ("DFF", 1): ("$dff", "CLK"),
    ("DFFE", 2): ("$dffe", "CLK EN"),
    ("DFF", 3): ("$adff", "CLK ARST ARST_VALUE"),
    ("DFFE", 4): ("$adffe", "CLK ARST ARST_VALUE EN"),
    ("ALDFF", 2): ("$aldff", "CLK ALOAD"),
    ("ALDFFE", 3): ("$aldffe", "CLK ALOAD EN"),
    ("DFFSR", 3): ("$dffsr", "CLK SET CLR"),
    ("DFFSRE", 4): ("$dffsre", "CLK SET CLR EN"),
    ("SDFF", 3): ("$sdff", "CLK SRST SRST_VALUE"),
    ("SDFFE", 4): ("$sdffe", "CLK SRST SRST_VALUE EN"),
    ("SDFFCE", 4): ("$sdffce", "CLK SRST SRST_VALUE EN"),
    ("DLATCH", 1): ("$dlatch", "EN"),
    ("DLATCH", 3): ("$adlatch", "EN ARST ARST_VALUE"),
    ("DLATCHSR", 3): ("$dlatchsr", "EN SET CLR"),
}
# The new names that a port may have.
PORTS = {"\\C": ["CLK"], "\\E": ["EN"], "\\S": ["SET"], "\\L": ["ALOAD"],
         "\\R": ["ARST", "SRST", "CLR"]}
LEVELS = str.maketrans("NP", "01")


def widened(design: Statement) -> None:
    """Replaces the one-bit registers and latches of a design."""
    for module in design.of("module"):
        for cell in module.of("cell"):
            if found := FINE.fullmatch(cell.type):
                letters = found[2] or ""
                if own := COARSE.get((found[1], len(letters))):
                    widen(cell, own[0], dict(zip(own[1].split(), letters)))


def widen(cell: Statement, kind: str, letters: Mapping[str, str]) -> None:
    """Gives a cell the type `kind`. `letters` has the letter of each control signal."""
    cell.text = f"{kind} {cell.name}"
    parameters = [Statement("parameter", "\\WIDTH 1")]
    for name, letter in letters.items():
        own = name if name.endswith("_VALUE") else f"{name}_POLARITY"
        parameters.append(Statement("parameter", f"\\{own} 1'{letter.translate(LEVELS)}"))
    for it in cell.of("connect"):
        port, _, signal = it.text.partition(" ")
        own = next((name for name in PORTS.get(port, []) if name in letters), port[1:])
        it.text = f"\\{own} {signal}"
    cell.body = [*parameters, *cell.of("connect")]
