#!/usr/bin/env python3
"""Compares lib/rust with the sources of the Rust crate aig 0.4.6: surface.py FOLDER

Each public item of the sources in FOLDER has to be in tests/clients/surface.tsv, with the names of
its arguments in their order. Unless the table says that it isn't the same here, lib/rust has to
have it with the same types, but for those of hash maps and sets, which are std's. Prints what
differs, and ends with status 1 if anything does.
"""
from __future__ import annotations

import pathlib
import re
import sys
from collections.abc import Iterable, Iterator
from typing import NamedTuple

import harness
from harness import TESTS, TOP

SOURCES = ["lib", "edge", "circuit", "ternary"]
TABLE = TESTS / "clients" / "surface.tsv"
# What an `Aig` is read through: its fields are those of this type.
FIELDS_OF = {"Lists": "Aig"}
IMPL = re.compile(r"^impl(?:<[^>]*>)? (?:([\w<>]+) for )?(\w+)", re.MULTILINE)
FUNCTION = re.compile(
    r"^    pub fn (\w+)(<[^(]*>)?\(((?:[^()]|\([^()]*\))*)\)([^{]*)", re.MULTILINE
)
DERIVED = re.compile(r"^#\[derive\(([^)]*)\)\]\npub (?:struct|enum) (\w+)", re.MULTILINE)
BODY = re.compile(r"^pub (struct|enum) (\w+)[^{;]*\{(.*?)^\}", re.MULTILINE | re.DOTALL)
FIELD, VARIANT = re.compile(r"^    pub (\w+): (.*),$", re.M), re.compile(r"^    (\w+)(.*),$", re.M)
COMMENT = re.compile(r"//.*")


class Item(NamedTuple):
    """A public item, the names of its arguments in their order, and its types."""

    name: str
    arguments: str = ""
    types: str = ""


def arguments(text: str) -> str:
    """Returns the names of parameters, of which none has a comma in its type but in brackets."""
    flat = re.sub(r"<[^<>]*(?:<[^<>]*>[^<>]*)*>|\[[^\[\]]*\]", "", text)
    words = [word.split(":")[0].split()[-1].lstrip("&") for word in flat.split(",") if word.strip()]
    return " ".join(words)


def types(*parts: str | None) -> str:
    """Returns the types in parts of a declaration, in one spelling."""
    text = re.sub(r"\bmut (?=\w+:)", "", " ".join(filter(None, parts)))
    return re.sub(r"[\s,]+", " ", text).replace("GHash", "Hash").strip()


def items(text: str) -> Iterator[Item]:
    """Yields the public items of a source file."""
    text = COMMENT.sub("", text)
    blocks = [(found.start(), found[2]) for found in IMPL.finditer(text)]
    yield from (Item(f"mod {name}") for name in re.findall(r"^pub mod (\w+)", text, re.MULTILINE))
    yield from (Item(f"{owner}: {trait}") for trait, owner in IMPL.findall(text) if trait)
    for found in FUNCTION.finditer(text):
        owner = [name for start, name in blocks if start < found.start()][-1]
        given = types(found[2], found[3], found[4])
        yield Item(f"{owner}::{found[1]}", arguments(found[3]), given)
    for found in DERIVED.finditer(text):
        yield from (Item(f"{found[2]}: {trait}") for trait in found[1].split(", "))
    for kind, name, body in BODY.findall(text):
        pattern, mark = (FIELD, ".") if kind == "struct" else (VARIANT, "::")
        for member, given in pattern.findall(body):
            yield Item(f"{FIELDS_OF.get(name, name)}{mark}{member}", types=types(given))


def found_in(paths: Iterable[pathlib.Path]) -> dict[str, Item]:
    """Returns the public items of source files, by their names."""
    texts = [path.read_text(encoding="utf-8") for path in paths]
    return {item.name: item for text in texts for item in items(text)}


def here() -> dict[str, Item]:
    """Returns the public items of lib/rust."""
    return found_in(TOP / "lib" / "rust" / "src" / f"{name}.rs" for name in SOURCES)


def rows() -> dict[str, tuple[str, str]]:
    """Returns the arguments of each item of the table, and what isn't the same here."""
    table: list[list[str]] = harness.rows(TABLE)
    cells = ((*row, "", "") for row in table)
    return {name: (given, other) for name, given, other, *_ in cells}


def differences(theirs: dict[str, Item]) -> Iterator[str]:
    """Yields what isn't in the table, or isn't in lib/rust, as it is in the crate."""
    known, ours = rows(), here()
    for name, item in theirs.items():
        given, other = known.get(name, (None, ""))
        if given != item.arguments:
            yield f"{name} isn't in the table with the arguments {item.arguments}"
        if other in ("", "read only") and ours.get(name) != item:
            yield f"{name} isn't here with the types {item.types}"
    yield from (f"{name} isn't in the crate" for name in known if name not in theirs)


def main() -> int:
    words = harness.parser(__doc__)
    words.add_argument("folder", metavar="FOLDER", type=pathlib.Path)
    paths = sorted(words.parse_args().folder.rglob("*.rs*"))
    theirs = found_in(paths)
    told = list(differences(theirs))
    print(*told, f"{len(theirs)} items of {len(paths)} files, {len(told)} differences", sep="\n")
    return int(bool(told))


if __name__ == "__main__":
    sys.exit(main())
