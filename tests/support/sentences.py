#!/usr/bin/env python3
"""Draws sentences from pages and docstrings, to be read by somebody: sentences.py [--seed N] [--but
PATH] [COUNT]

The pages are README.md and its neighbours, and all below docs. Docstrings and comments are those of
the package and modules in lib, of the headers in include, of the scripts in docs and examples, and
of the tests of pages. Code is left out, and so are texts that aren't sentences: headings, cells and
items that only name something. Two draws with one seed have the same sentences, as long as no text
changes.
"""
import argparse
import ast
import pathlib
import random
import re
from collections.abc import Iterator

from harness import TOP

BLOCK = re.compile(r"^ *```.*?^ *```$|<!--.*?-->", re.DOTALL | re.MULTILINE)
# Where a sentence ends: after its mark, before a capital or a backquote, or before a list item.
END = re.compile(r"(?<=[.?!:])(?<!\.\.)\s+(?:- )?(?=[A-Z`*\[\"(])")
# Modules that are made of the headers.
MADE = ["_calls.py"]
# What isn't a word of a sentence: code, and targets of links.
NO_WORD = re.compile(r"`[^`]*`|\]\([^)]*\)|[^A-Za-z\s'-]")
# What begins an item, a heading or a cell.
START = re.compile(r"^(?:[-*] |\d+\. |#+ |\| |> )?")


def texts_of_page(path: pathlib.Path) -> Iterator[str]:
    """Yields the paragraphs, items and cells of a page."""
    for line in BLOCK.sub("", path.read_text(encoding="utf-8")).splitlines():
        if not line.startswith("#") and not re.fullmatch(r"[| :-]*", line):
            yield from (cell.strip() for cell in re.split(r"(?<!\\)\|", line)) if line.startswith(
                "|"
            ) else [START.sub("", line.strip())]


def texts_of_module(path: pathlib.Path) -> Iterator[str]:
    """Yields the docstrings of a module of Python, a paragraph at a time."""
    for node in ast.walk(ast.parse(path.read_text(encoding="utf-8"))):
        if isinstance(node, ast.Module | ast.ClassDef | ast.FunctionDef) and (
            found := ast.get_docstring(node)
        ):
            yield from (re.sub(r"\s+", " ", part) for part in found.split("\n\n"))


def texts_of_header(path: pathlib.Path) -> Iterator[str]:
    """Yields the comments of a header of C or C++, a paragraph at a time, without their code."""
    for found in re.findall(
        r"/\*(.*?)\*/|((?:^ *//[^\n]*\n)+)",
        path.read_text(encoding="utf-8"),
        re.DOTALL | re.MULTILINE,
    ):
        text = re.sub(r"^ *(?:\*     .*|(?://+|\*) ?)", "", "".join(found), flags=re.MULTILINE)
        yield from (re.sub(r"\s+", " ", part) for part in text.split("\n\n"))


def is_sentence(text: str) -> bool:
    """Returns whether a text ends as a sentence does, and has four words or more beside code."""
    return re.search(r"[.?:!][)*]*$", text) is not None and len(NO_WORD.sub(" ", text).split()) >= 4


def sentences() -> list[tuple[str, str]]:
    """Returns each sentence, with its file."""
    folders = ["lib/aigprove", "lib/python", "docs", "examples", "tests/pages"]
    modules = [
        path for folder in folders for path in (TOP / folder).rglob("*.py") if path.name not in MADE
    ]
    readers = [
        (texts_of_page, [*TOP.glob("*.md"), *(TOP / "docs").rglob("*.md")]),
        (texts_of_module, [*modules, TOP / "docs" / "site"]),
        (texts_of_header, [*(TOP / "include").glob("*.h*")]),
    ]
    found = {
        (str(path.relative_to(TOP)), part.strip())
        for read, paths in readers
        for path in paths
        for text in read(path)
        for part in END.split(text)
    }
    return sorted(pair for pair in found if is_sentence(pair[1]))


def main() -> None:
    words = argparse.ArgumentParser(
        description=__doc__, formatter_class=argparse.RawDescriptionHelpFormatter
    )
    words.add_argument("count", nargs="?", type=int, default=30, help="how many sentences")
    words.add_argument("--seed", type=int, default=1, help="which draw")
    words.add_argument(
        "--but",
        metavar="PATH",
        action="append",
        default=[],
        help="leave out what is at this path, or in it",
    )
    given = words.parse_args()
    known = [
        (path, sentence) for path, sentence in sentences() if not path.startswith(tuple(given.but))
    ]
    for path, sentence in random.Random(given.seed).sample(known, given.count):
        print(f"{path}: {sentence}")


if __name__ == "__main__":
    main()
