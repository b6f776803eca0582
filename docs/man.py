#!/usr/bin/env python3
"""Writes the man pages of the programs into a folder: man.py FOLDER

The man pages of aigtool, aigedit and aigcheck are generated from docs/reference: from the lines of each block `usage`, and the paragraph
below it. The man page of aigprove is generated from the texts in lib/aigprove/options, like aigprove --help."""
import os
import pathlib
import re
import sys
import textwrap
from collections.abc import Iterator

TOP = pathlib.Path(os.path.realpath(__file__)).parent.parent
sys.path.insert(0, str(TOP / "lib"))
sys.dont_write_bytecode = True

from aigprove import VERSION
from aigprove.data import text as text_of
from aigprove.options import parser, tables

ABOUT = {
    "aigtool": "converts AIGER files and prints clauses",
    "aigedit": "changes AIGER files or combines two",
    "aigcheck": "prints clauses of AIGER files, and checks proofs and witnesses",
    "aigprove": "finds out whether a design can reach a bad state, and has each answer checked",
}
# The section about options, and a row of its table.
OPTIONS = re.compile(r"^## Options\n(.*?)^## ", re.DOTALL | re.MULTILINE)
OPTION = re.compile(r"^\| `(--[^`]*)` \| (.*) \|$", re.MULTILINE)
# The lines of a block that has commands, and the paragraph below it.
USAGE = re.compile(r"^```usage\n(.*?)^```\n\n(.*?)\n\n", re.DOTALL | re.MULTILINE)
STATUSES = {
    "0": "The answer was printed or written. If the command checks something, the printed line is true of FILE.",
    "1": "The program refused something, a read or write failed, or memory ran out. Standard error says which.",
    "2": "The command line isn't valid.",
}
FILES = "FILE and OTHER are AIGER files, text or binary. K is a step, counted from 0. PROOF, BASE and STEP are proofs in DRAT or LRAT. " \
    "docs/reference of the repository describes all commands, with examples."


def plain(text: str) -> str:
    """Returns a text of a page in the format of troff."""
    text = re.sub(r" \(\[[^\]]*\]\([^)]*\)\)", "", text)
    text = re.sub(r"\[([^\]]*)\]\([^)]*\)", r"\1", text).replace("*", "").replace("\\", "\\\\").replace("-", "\\-")
    return re.sub(r"(?m)^(?=[.'])", r"\\&", re.sub(r"`([^`]*)`", r"\\fB\1\\fP", text))


def head(program: str) -> list[str]:
    """Returns the first lines of a page."""
    return [f'.TH {program.upper()} 1 "" "aig {VERSION}"', ".SH NAME", f"{program} \\- {plain(ABOUT[program])}", ".SH SYNOPSIS"]


def item(words: str, what: str) -> list[str]:
    """Returns the lines of an item of a list."""
    return [".TP", f".B {plain(words)}", *textwrap.wrap(plain(what), 100)]


def statuses(rows: Iterator[tuple[str, str]]) -> list[str]:
    """Returns the section about exit statuses."""
    return [".SH EXIT STATUS", *(line for number, when in rows for line in item(number, when))]


def of_reference(program: str) -> list[str]:
    """Returns the man page of a program that the reference describes."""
    text = (TOP / "docs" / "reference" / f"{program}.md").read_text(encoding="utf-8")
    lines = [*head(program), f".B {program}", ".I COMMAND FILE ..", ".SH DESCRIPTION", plain(FILES), ".SH COMMANDS"]
    for usage, what in USAGE.findall(text):
        *others, last = [line.removeprefix(f"{program} ") for line in usage.splitlines()]
        lines += [line for words in others for line in [".TP", f".B {plain(words)}", ".PD 0"]]
        lines += [*item(last, what), ".PD"]
    if found := OPTIONS.search(text):
        options = (line for words, what in OPTION.findall(found[1]) for line in item(words, what))
        lines += [".SH OPTIONS", "They stand in front of the command.", *options]
    return [*lines, *statuses(iter(STATUSES.items()))]


def of_options() -> list[str]:
    """Returns the man page of aigprove."""
    about = text_of("options/about.txt").strip().replace("\n\n", "\n.PP\n")
    lines = [*head("aigprove"), ".B aigprove", ".I [OPTION ..] FILE .. [TOP]", ".SH DESCRIPTION", plain(about).replace("\\&.PP", ".PP")]
    lines += [".SH ENGINES", *(line for it in tables.engines() for line in item(it.name, it.does)), ".SH OPTIONS"]
    for section in tables.sections():
        lines.append(f".SS {plain(section.title)}")
        for option in section.options:
            choices = "|".join(parser.made_by().get(option.flags[-1], {}).get("choices") or [])
            words = f"{', '.join(option.flags)} {option.value or choices}".replace("files ", "").strip()
            lines += item(words, option.help_text())
    lines += item("-h, --help", "Prints a help text and exits.")
    return [*lines, *statuses((it.number, it.when) for it in tables.statuses())]


def main() -> None:
    if len(sys.argv) != 2:
        sys.exit("usage: man.py FOLDER")
    folder = pathlib.Path(sys.argv[1])
    folder.mkdir(parents=True, exist_ok=True)
    for program in ABOUT:
        lines = of_options() if program == "aigprove" else of_reference(program)
        lines += [".SH SEE ALSO", ", ".join(f"{other}(1)" for other in ABOUT if other != program)]
        (folder / f"{program}.1").write_text("\n".join(lines) + "\n", encoding="ascii")


if __name__ == "__main__":
    main()
