"""The interface on which C programs rely: the calls of the headers, the numbers of statuses, and
structs.

The repository has a copy of the interface of the last release. Later versions with the same first
number have to contain this interface."""
from __future__ import annotations

import re
from collections.abc import Iterator

from dist.layout import HEADERS, TOP

KEPT = TOP / "tests" / "clients" / "exports.tsv"
COMMENT = re.compile(r"/\*.*?\*/", re.DOTALL)
CALL = re.compile(r"^(uint32_t|void) (\w+)\(([^)]*)\);", re.MULTILINE)
ENUM = re.compile(r"^(?:typedef )?enum\s*(?:\w+ )?\{(.*?)\}", re.MULTILINE | re.DOTALL)
CONSTANT = re.compile(r"(AIG_\w+) = (\d+)")
STRUCT = re.compile(r"^typedef struct \w* ?\{(.*?)\} (\w+);", re.MULTILINE | re.DOTALL)
PARAMETER = re.compile(r"(.*?)\s*\w+(\[\w*\])?")


def kind(parameter: str) -> str:
    """Returns the type of a parameter or field, without its name."""
    found = PARAMETER.fullmatch(" ".join(parameter.split()))
    return (found[1] + (found[2] or "")).replace(" *", "*") if found else parameter


def kinds(parameters: str, mark: str) -> str:
    """Returns the types of parameters or fields, which are separated by a given character."""
    return ", ".join(kind(it) for it in parameters.split(mark) if it.strip())


def exports() -> Iterator[tuple[str, str]]:
    """Yields the name of each call, constant and struct, and the part of its declaration on which
    programs rely."""
    for header in HEADERS:
        if header.endswith(".h"):
            text = COMMENT.sub("", (TOP / "include" / header).read_text(encoding="utf-8"))
            yield from ((name, f"{result}({kinds(given, ',')})")
                        for result, name, given in CALL.findall(text))
            yield from (row for body in ENUM.findall(text) for row in CONSTANT.findall(body))
            yield from ((name, f"{{{kinds(fields, ';')}}}")
                        for fields, name in STRUCT.findall(text))


def kept() -> dict[str, str]:
    """Returns the interface of the last release."""
    lines = KEPT.read_text(encoding="utf-8").splitlines()
    rows = [line.split("\t") for line in lines if not line.startswith("#")]
    return {name: what for name, what in rows}


def keep(version: str) -> None:
    """Writes the copy of the interface of this release."""
    rows = "".join(f"{name}\t{what}\n" for name, what in exports())
    KEPT.write_text(f"# What release {version} exports: written by ./dist --release.\n{rows}",
                    encoding="utf-8")
