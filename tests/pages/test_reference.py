"""Compares the reference with the usage texts, help texts, messages, files and JSON that it
describes.

In docs/reference, the lines of all blocks `usage` of a program have to be the lines of its usage
text. The tables that docs/generate.py writes have to be up to date, and the man pages have to
contain the same commands. Each message in messages.md has to be a line of tests/lines.tsv. In
docs/FORMAT.md, an item that begins with bytes in a code span is a file, followed by the output of
`aigtool text`: the same bytes, other bytes, or the text of a refusal.

Programs are searched for in crates/NAME/out, where `rt run` in crates/NAME builds them, and then in
the PATH.
"""
from __future__ import annotations

import json
import pathlib
import re
from typing import Any

import harness
import lines
import pytest
from harness import TOP, Checks, spelled

REFERENCE = TOP / "docs" / "reference"
USAGE = re.compile(r"^```usage\n(.*?)^```$", re.DOTALL | re.MULTILINE)
ROW = re.compile(r"^- `(a[ai]g [^`]*)`: (the same|`[^`]*`), ", re.MULTILINE)
# A row of the table about other tools: a file, and whether aigtool, ABC and yosys accept it.
DIALECT = re.compile(
    r"^\| `(a[ai]g [^`]*)` \| [^|]* \| (yes|no) \| (yes|no) \| (yes|no) \|$", re.MULTILINE
)
KINDS = ("aag ", "aig ")
ALIKE = "equal-alike-by-order and equal-alike-by-name as equal"
# The types of JSON Schema, as Python reads them.
TYPES: dict[str, tuple[type, ...]] = {
    "object": (dict,),
    "array": (list,),
    "string": (str,),
    "boolean": (bool,),
    "integer": (int,),
    "number": (int, float),
    "null": (type(None),),
}


def shown_usage(program: str) -> list[str]:
    """Returns the lines of the blocks `usage` of a program's page."""
    text = (REFERENCE / f"{program}.md").read_text()
    return [line for block in USAGE.findall(text) for line in block.splitlines()]


def printed_usage(program: str) -> list[str]:
    """Returns the commands of a program's usage text, without the options that all commands have.
    """
    text = harness.USAGE[program].decode().strip().removeprefix(f"usage: {program} ")
    text = re.sub(r"^\[--limit N\] (\[--property .*?\]\] )?", "", text)
    return [f"{program} {words}" for words in text.split(", ") if words != ALIKE]


@pytest.mark.parametrize("program", harness.USAGE)
def test_usage(checks: Checks, program: str) -> None:
    """The page of a program contains each of its commands once."""
    checks.wants(program, sorted(printed_usage(program)), sorted(shown_usage(program)))


@pytest.mark.parametrize("program", harness.USAGE)
def test_sections(checks: Checks, program: str) -> None:
    """Each command has a section with its name, which has an example or links to a page with one.
    """
    text = (REFERENCE / f"{program}.md").read_text()
    parts = dict(re.findall(r"^## (\S+)\n(.*?)(?=^## |\Z)", text, re.DOTALL | re.MULTILINE))
    for command in {plain_usage(line).split()[1] for line in shown_usage(program)}:
        section = parts.get(command.partition("-alike")[0], "")
        checks.check(
            f" {command} " in section and ("```console" in section or "](" in section),
            f"{program} {command}",
        )


def plain_usage(line: str) -> str:
    """Returns a line of a usage text without the options before the command."""
    return re.sub(r"\[--\S+ \S+\] ", "", line)


def test_generated() -> None:
    """The tables about options, engines and statuses are the same as in aigprove's help text."""
    status, printed, said = harness.run([TOP / "docs" / "generate.py", "--check"])
    assert status == 0, (printed + said).decode()


def test_man_pages(checks: Checks, folder: pathlib.Path) -> None:
    """The man page of a program contains each line of its usage text."""
    harness.output([str(TOP / "docs" / "man.py"), str(folder)])
    for program in harness.USAGE:
        text = (folder / f"{program}.1").read_text().replace("\\-", "-")
        for line in printed_usage(program):
            checks.check(
                f".B {line.removeprefix(program + ' ')}\n" in text, f"{program}.1 lacks: {line}"
            )


def test_messages(checks: Checks) -> None:
    """Each message on the page is a message that a program prints. `..` stands for the parts that
    vary."""
    texts = "\n".join(lines.VARYING.sub("", row.line) for row in lines.rows())
    for cell in re.findall(
        r"^\| (`[^|]*`) \|", (REFERENCE / "messages.md").read_text(), re.MULTILINE
    ):
        for message in re.findall(r"`([^`]+)`", cell):
            parts = [part for part in re.split(r" ?\.\.:? ?", message) if part]
            missing = [part for part in parts if part not in texts]
            checks.check(parts and not missing, f"no program prints: {message}: {missing}")


def schema_faults(value: Any, schema: dict[str, Any], place: str = "$") -> list[str]:
    """Returns an error for each place where a value violates a JSON Schema. The function supports
    only the keywords that table.schema.json uses."""
    kinds = schema.get("type", [])
    types = [
        kind for name in ([kinds] if isinstance(kinds, str) else kinds) for kind in TYPES[name]
    ]
    if types and (type(value) not in types):
        return [f"{place}: {value!r} isn't of type {kinds}"]
    if "enum" in schema and value not in schema["enum"]:
        return [f"{place}: {value!r} is none of {schema['enum']}"]
    if isinstance(value, list):
        return [
            fault
            for at, item in enumerate(value)
            for fault in schema_faults(item, schema["items"], f"{place}[{at}]")
        ]
    if not isinstance(value, dict):
        return []
    fields = schema["properties"]
    faults = [
        f"{place}: the schema and the value differ in {name}"
        for name in sorted(fields.keys() ^ value.keys())
    ]
    return faults + [
        fault
        for name in sorted(fields.keys() & value.keys())
        for fault in schema_faults(value[name], fields[name], f"{place}.{name}")
    ]


SCHEMA = json.loads((REFERENCE / "table.schema.json").read_text())


def test_shown_json(checks: Checks) -> None:
    """The JSON of the page matches the schema, and the table on the page has the same fields."""
    text = (REFERENCE / "table.md").read_text()
    block = re.search(r"^```json\n(.*?)^```$", text, re.DOTALL | re.MULTILINE)
    assert block
    checks.wants("the page's JSON", [], schema_faults(json.loads(block[1]), SCHEMA))
    cells = re.findall(r"^\| (`[^|]*`) \|", text, re.MULTILINE)
    named = {name for cell in cells for name in re.findall(r"`(?:\w+(?:\[\])?\.)?(\w+)`", cell)}
    fields = {
        *SCHEMA["properties"],
        *SCHEMA["properties"]["assumptions"]["properties"],
        *SCHEMA["properties"]["properties"]["items"]["properties"],
    }
    checks.wants(
        "fields that the page doesn't describe", {"assumptions", "properties"}, fields - named
    )


@pytest.mark.cadical
@pytest.mark.yosys
@pytest.mark.parametrize(
    "words, file",
    [
        ([], "examples/pushes.aag"),
        (["--bound", "1"], "examples/permits.aag"),
        (["--engine", "steps,windows"], "tests/verilog/left_out.v"),
    ],
)
def test_json(checks: Checks, folder: pathlib.Path, words: list[str], file: str) -> None:
    """The JSON that aigprove writes matches the schema."""
    harness.run([harness.PROVE, "--each", *words, "--json", folder / "table.json", TOP / file])
    checks.wants(file, [], schema_faults(json.loads((folder / "table.json").read_text()), SCHEMA))


@pytest.mark.parametrize(
    "fault",
    [
        {"answer": "maybe"},
        {"seconds": "1"},
        {"version": None},
        {"further": 1},
        {"properties": [{}]},
    ],
)
def test_schema(checks: Checks, fault: dict[str, Any]) -> None:
    """The schema refuses a value with an error."""
    block = re.search(
        r"^```json\n(.*?)^```$", (REFERENCE / "table.md").read_text(), re.DOTALL | re.MULTILINE
    )
    assert block
    checks.check(schema_faults({**json.loads(block[1]), **fault}, SCHEMA), f"taken: {fault}")


def printed_by(told: str, given: str) -> bytes:
    """Returns the output that an item describes: the given file, another file, or a refusal."""
    span = given if told == "the same" else told.strip("`")
    return spelled(span) if span.startswith(KINDS) else f"aigtool: {span}\n".encode()


@pytest.mark.parametrize("data, told", ROW.findall((TOP / "docs" / "FORMAT.md").read_text()))
def test_file(folder: pathlib.Path, data: str, told: str) -> None:
    """A file of a list is accepted or refused as its item describes."""
    (folder / "row").write_bytes(spelled(data))
    _, out, err = harness.run([harness.TOOL, "text", folder / "row"])
    assert out + err == printed_by(told, data)


DIALECTS = DIALECT.findall((TOP / "docs" / "FORMAT.md").read_text())


@pytest.mark.parametrize("data, aig, abc, yosys", DIALECTS)
def test_dialect(folder: pathlib.Path, data: str, aig: str, abc: str, yosys: str) -> None:
    """aigtool accepts or refuses a file of the table about other tools, as the table states."""
    (folder / "row").write_bytes(spelled(data))
    status, _, _ = harness.run([harness.TOOL, "text", folder / "row"])
    assert status == (0 if aig == "yes" else 1)


@pytest.mark.abc
@pytest.mark.parametrize("data, aig, abc, yosys", DIALECTS)
def test_dialect_of_abc(folder: pathlib.Path, data: str, aig: str, abc: str, yosys: str) -> None:
    """ABC accepts or refuses a file of the table, as the table states."""
    (folder / "row.aig").write_bytes(spelled(data))
    status, out, _ = harness.run(
        ["berkeley-abc", "-c", "read_aiger row.aig; print_stats"], cwd=folder
    )
    assert (status == 0 and b"failed" not in out) == (abc == "yes"), out.decode()


@pytest.mark.yosys
@pytest.mark.parametrize("data, aig, abc, yosys", DIALECTS)
def test_dialect_of_yosys(folder: pathlib.Path, data: str, aig: str, abc: str, yosys: str) -> None:
    """yosys accepts or refuses a file of the table, as the table states."""
    (folder / "row.aig").write_bytes(spelled(data))
    status, out, err = harness.run(["yosys", "-q", "-p", "read_aiger row.aig"], cwd=folder)
    assert (status == 0) == (yosys == "yes"), (out + err).decode()
