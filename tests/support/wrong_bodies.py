#!/usr/bin/env python3
"""Counts wrong bodies by crate and kind of fault, in the table of docs/PROOFS.md: wrong_bodies.py
[--write | --list CRATE]

The wrong bodies are the edits in tests/edits and in crates/NAME/must-fail. The kind of an edit is
read off its texts by the first of these rules that fits:

- an error at will: the new text has an error more often than the old one, or another error;
- a setting turned round: a setting, as `optimize` or `distinct`, is inverted, exchanged or fixed;
- a corner: a comparison with a number or a condition is there that the old text hasn't, or a number
  is another;
- a clause left out: what something gives is dropped (`let _`), or all words of the new text are in
  the old one, in their order;
- another subject: words are replaced by others, one for one, change places, or are inverted, or a
  constant takes their place;
- something more: all words of the old text are in the new one, in their order, which does or takes
  more;
- something else.

--write writes the table, and --list prints the kind of each edit of a crate.
"""
from __future__ import annotations

import collections
import difflib
import pathlib
import re
import sys
from collections.abc import Iterator

import harness
from harness import TESTS, TOP

PAGE = TOP / "docs" / "PROOFS.md"
BEGIN, END = "<!-- wrong bodies -->\n", "<!-- end of wrong bodies -->\n"
PAIR = re.compile(r"^(old|new): ?(.*)$", re.MULTILINE)
TOKEN = re.compile(r"\w+|[=!<>]=|&&|\|\||\.\.=?|::|->|=>|[^\w\s]")
ERROR, SETTING, CORNER, LEFT_OUT, SUBJECT, MORE, ELSE = KINDS = [
    "error at will", "setting turned round", "corner", "clause left out", "another subject",
    "something more", "something else",
]
# Names and values of settings.
SETTINGS = {
    "optimize", "base_optimize", "step_optimize", "distinct", "raw", "Distinct", "Any", "is_binary",
    "binary", "First", "Compared", "Both", "Order", "Name", "Apart",
}
COMPARED = {"==", "!=", "<", ">", "<=", ">="}
# What may stand in the place of what is left out, and of a subject.
NOTHING, CONSTANTS = {"{", "}", "let", "_", "_next", ";", "Ok", "(", ")"}, {
    "constant", "true", "false", "[", "]",
}


def tokens(text: str) -> list[str]:
    return TOKEN.findall(text)


def changes(old: list[str], new: list[str]) -> Iterator[tuple[list[str], list[str]]]:
    """Returns the runs of words that differ, each with what takes its place."""
    for tag, i, j, k, m in difflib.SequenceMatcher(None, old, new, autojunk=False).get_opcodes():
        if tag != "equal":
            yield old[i:j], new[k:m]


def errors(words: list[str]) -> collections.Counter[str]:
    """Returns how often each error is in a text, by its name behind `Err(` or `Error::`."""
    text = " ".join(words)
    return collections.Counter(re.findall(r"Err \( [\w: ]+|\w*Error :: \w+", text))


def is_corner(gone: list[str], come: list[str]) -> bool:
    """Whether a run has a new condition, or another number in the place of one."""
    is_compared = any(it in COMPARED for it in come) and not any(it in COMPARED for it in gone)
    numbers = [[it for it in words if it.isdigit()] for words in (gone, come)]
    is_condition = any(it in ("if", "match", "&&", "||") and it not in gone for it in come)
    return is_compared or is_condition or numbers[0] != numbers[1]


def is_other_subject(
    old: list[str], new: list[str], found: list[tuple[list[str], list[str]]]
) -> bool:
    """Whether words are others, stand elsewhere, are inverted, or have a constant in their
    place."""
    is_constant = any(CONSTANTS & set(come) for _, come in found)
    is_inverted = all({*gone, *come} <= {"!"} for gone, come in found)
    in_turn = all(len(gone) == len(come) for gone, come in found)
    return in_turn or is_inverted or is_constant or sorted(old) == sorted(new)


def kind_of(text: str) -> str:
    """Returns the kind of an edit, by its texts."""
    pairs = PAIR.findall(text)
    old, new = (
        tokens(" ".join(given for word, given in pairs if word == kind)) for kind in ("old", "new")
    )
    found = list(changes(old, new))
    changed = {it for gone, come in found for it in [*gone, *come]}
    if errors(new) - errors(old):
        return ERROR
    if changed & SETTINGS or changed == {"!"} and set(old) & SETTINGS:
        return SETTING
    if any(is_corner(*run) for run in found):
        return CORNER
    if (
        "let _ =" in " ".join(new)
        and "let _ =" not in " ".join(old)
        or all(set(come) <= NOTHING for _, come in found)
    ):
        return LEFT_OUT
    if is_other_subject(old, new, found):
        return SUBJECT
    return MORE if not any(gone for gone, _ in found) else ELSE


def edits() -> Iterator[tuple[str, str, str]]:
    """Returns the crate, the name and the kind of each edit."""
    paths = [*TESTS.glob("edits/*/*.edit"), *TOP.glob("crates/*/must-fail/*.edit")]
    for path in sorted(paths, key=lambda path: path.stem):
        crate = path.parent.parent.name if path.parent.name == "must-fail" else path.parent.name
        yield crate, path.stem, kind_of(path.read_text(encoding="utf-8"))


def table() -> str:
    """Returns the table, a row for each crate, which says how many edits of each kind it has."""
    counts = collections.Counter((crate, kind) for crate, _, kind in edits())
    lines = [["Crate", *KINDS], ["---"] * (len(KINDS) + 1)]
    for crate in sorted(harness.crates()):
        row = [counts[crate, kind] for kind in KINDS]
        lines.append([f"`{crate}`", *(str(count) if count else "" for count in row)])
    lines.append(
        ["all", *(str(sum(counts[crate, kind] for crate in harness.crates())) for kind in KINDS)]
    )
    return "".join(f"| {' | '.join(line)} |\n".replace("|  |", "| |") for line in lines)


def parts(page: pathlib.Path) -> tuple[str, str, str]:
    """Returns what stands before the table, the table, and what stands behind it."""
    before, _, rest = page.read_text(encoding="utf-8").partition(BEGIN)
    shown, _, behind = rest.partition(END)
    return before, shown, behind


def main() -> int:
    options = (parser := harness.parser(__doc__)).add_mutually_exclusive_group()
    options.add_argument("--write", action="store_true", help="write the table")
    options.add_argument("--list", metavar="CRATE", help="print the kind of each edit of a crate")
    given = parser.parse_args()
    if given.list:
        print(
            "".join(f"{kind}: {name}\n" for crate, name, kind in edits() if crate == given.list),
            end="",
        )
        return 0
    before, shown, behind = parts(PAGE)
    if given.write:
        PAGE.write_text(f"{before}{BEGIN}{table()}{END}{behind}", encoding="utf-8")
        return 0
    print(table(), end="")
    return 0 if shown == table() else 1


if __name__ == "__main__":
    sys.exit(main())
