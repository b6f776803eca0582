#!/usr/bin/env python3
"""Holds docs/PROMISES.md against the contracts: theorems.py [--write | --list NAME]

Each call that is exported and each law has to stand in a row, and each name of a row has to be one
of them. tests/theorems.tsv has the clauses that their rows tell: a call with another clause fails,
until its row tells that one too and --write has written it. tests/rows.tsv has the words of code of
their rows: one that stands in no row of the call any more, nor outside the rows, fails, until
--write has written it. A definition that the page quotes has to stand so in the file that the link
before it leads to. --list prints the docstring of a call or law, its crate and clauses, and the
words of specs/ that these cite, each with a link to its file.
"""
from __future__ import annotations

import collections
import os
import re
import sys
from collections.abc import Iterator

import harness
import promises
from harness import TOP

PAGE = TOP / "docs" / "PROMISES.md"
CLAUSES = TOP / "tests" / "theorems.tsv"
ROWS = TOP / "tests" / "rows.tsv"
NAMED = re.compile(r"`([^`]+)`")
# A row of a table: names of calls or laws, and what is told of them. Behind `of` stands the crate
# whose names they are.
ROW = re.compile(r"^\| ((?:`[^`]+`(?:, )?)+)(?: of `(\w+)`)? \| (.*) \|$", re.MULTILINE)
BLOCK = re.compile(r"^```.*?^```$", re.DOTALL | re.MULTILINE)
QUOTED = re.compile(r"\]\(([^)\s]+\.antt)\)[^\n]*\n\n?```antt\n(.*?)```", re.DOTALL)


def calls_of(
    code: promises.Code,
) -> tuple[dict[str, list[promises.Part]], set[tuple[str, str, str]]]:
    """The parts of each call and law by its names: `encode`, `Aig::new`, `Aig as Clone`, and with
    the crate's `aigtool::run`; and what has to stand in rows: crate, name, and the name of the
    crate's own parts."""
    named = {crate for _, crates in promises.CALLS for crate in crates}
    calls, needed = collections.defaultdict(list), set()
    for crate, (owner, name) in (
        (crate, item) for crate in code.crates for item in code.exports[crate]
    ):
        for part in code.functions.get((owner, name), ()):
            if crate in named or part.is_law:
                calls[name].append(part)
                calls[f"{crate}::{name}"] = [part]
                if crate != promises.SERVES_PROOFS:
                    needed.add((crate, name, f"{crate}::{name}"))
        for part in code.types.get((owner, name), ()) if crate in named else ():
            if part.name and part.ensures:
                item = name + (" " if part.name.startswith("as ") else "::") + part.name
                calls[item].append(part)
                if owner == crate and not part.name.startswith("as From"):
                    needed.add((crate, item, item))
    return calls, needed


def docstrings_of(part: promises.Part) -> Iterator[str]:
    """The docstrings of the functions of a part's crate that have its name."""
    documented = re.compile(
        rf"((?:^ *///.*\n)+)(?:^ *#\[.*\n)*^ *(?:pub )?(?:extern \S+ )?fn {part.name}\b",
        re.MULTILINE,
    )
    for path in promises.files_below(TOP / "crates" / part.crate / "src", ".rt"):
        yield from (
            re.sub(r"^ */// ?", "", found[1], flags=re.MULTILINE)
            for found in documented.finditer(path.read_text())
        )


def contract_of(
    calls: dict[str, list[promises.Part]], specs: promises.Specs, item: str
) -> Iterator[str]:
    """The docstring and the clauses of a call or law, and the words that these cite, as links."""
    parts = calls.get(item, [])
    yield from (text for part in parts for text in docstrings_of(part))
    yield from (f"{part.name or item} of {part.crate}: {', '.join(part.ensures)}" for part in parts)
    words = {
        specs.constructors.get(word, word)
        for part in parts
        for cited in part.ensures.values()
        for word in cited
    }
    for word in sorted(words & specs.lines.keys(), key=lambda word: (word.name.lower(), word)):
        yield f"[`{word.name}`]({os.path.relpath(specs.paths[word[:2]], PAGE.parent)})"


def rows_of(text: str, calls: dict[str, list[promises.Part]]) -> dict[str, set[str]]:
    """The names of the rows, each with the words of code of what is told: the names of a row that
    has `of` and a crate behind them are that crate's."""
    told: dict[str, set[str]] = collections.defaultdict(set)
    for cell, crate, what in ROW.findall(text):
        for name in NAMED.findall(cell):
            own = f"{crate}::{name}"
            told[own if own in calls else name] |= set(NAMED.findall(what))
    return told


def lost_words(text: str, words: dict[str, set[str]]) -> Iterator[str]:
    """The words of code that the row of a call told, and that stand in its row no more, nor outside
    the rows."""
    outside = set(NAMED.findall(ROW.sub("", BLOCK.sub("", text))))
    for line in ROWS.read_text().splitlines():
        key, *known = line.split("\t")
        for word in known:
            if key in words and word not in words[key] | outside:
                yield f"its row told `{word}`; tell it, or --write: {key}"


def quotation_faults(text: str) -> Iterator[str]:
    """The definitions that the page quotes from specs/ and that don't stand there so: each block
    follows a link to its file."""
    quoted = QUOTED.findall(text)
    for path, block in quoted:
        if "\n" + block not in (PAGE.parent / path).read_text():
            yield f"doesn't stand so in {path}: {block.splitlines()[0]}"
    if text.count("```antt\n") != len(quoted) or not quoted:
        yield "a definition is quoted without a link to its file, or none is"


class Page:
    """The page, and what has to stand in its rows."""

    def __init__(self) -> None:
        self.text, code = PAGE.read_text(), promises.Code()
        self.calls, self.needed = calls_of(code)
        self.told = rows_of(self.text, self.calls)
        self.words = {
            f"{crate} {item}": self.told.get(item, set()) | self.told.get(own, set())
            for crate, item, own in self.needed
        }
        ensured = {
            name: " ".join(label for part in parts for label in part.ensures)
            for name, parts in self.calls.items()
        }
        self.clauses = {
            f"{crate} {item}": f"{crate} {item}\t{ensured[own]}"
            for crate, item, own in self.needed
        }

    def write(self) -> None:
        """Writes the tables of clauses and of words."""
        CLAUSES.write_text("".join(f"{self.clauses[key]}\n" for key in sorted(self.clauses)))
        ROWS.write_text(
            "".join("\t".join([key, *sorted(self.words[key])]) + "\n" for key in sorted(self.words))
        )

    def faults(self) -> Iterator[str]:
        """What is wrong in the page and in the tables."""
        yield from quotation_faults(self.text)
        yield from lost_words(self.text, self.words)
        yield from (f"no call or law: {name}" for name in self.told if name not in self.calls)
        yield from (
            f"no row: {item} of {crate}"
            for crate, item, own in self.needed
            if not {item, own} & self.told.keys()
        )
        known = {line.partition("\t")[0]: line for line in CLAUSES.read_text().splitlines()}
        for key in sorted(known.keys() | self.clauses):
            if known.get(key) != self.clauses.get(key):
                yield (
                    "tell it in its row, then --write:"
                    f" {self.clauses.get(key) or f'{key}, which is gone'}"
                )


def faults() -> tuple[set[tuple[str, str, str]], list[str]]:
    """The calls and laws that have to stand in rows, and what is wrong, in order."""
    page = Page()
    return page.needed, sorted(page.faults())


def main() -> None:
    options = (parser := harness.parser(__doc__)).add_mutually_exclusive_group()
    options.add_argument("--write", action="store_true", help="write the tables")
    options.add_argument("--list", metavar="NAME", help="print a call or law")
    given = parser.parse_args()
    if given.list:
        print("\n".join(contract_of(Page().calls, promises.Specs(), given.list)))
        return
    if given.write:
        Page().write()
    needed, wrong = faults()
    print("\n".join(wrong) or f"{len(needed)} calls and laws, each in a row with its clauses")
    sys.exit(1 if wrong else 0)


if __name__ == "__main__":
    main()
