#!/usr/bin/env python3
"""Holds the list of every line that the programs print against what spells these lines.

tests/lines.tsv has a row for each line of aigtool, aigedit, aigcheck and aigprove: the file that
spells it; where it goes: the streams `out`, `err` or `both`, a file that was named (`file`), or
other lines, of which it is a `part`; its words, in which `{WHAT}` stands for what varies; and what
carries it:

- `clause`: a definition has its words and its meaning. Names of definitions, functions and types, a
  part of one behind a second dot.
- `when`: a clause says when it comes, and a test shows its words.
- `never`: a clause says that no program tells it.
- `aigcheck`: of aigprove, the lines of aigcheck on which it rests, behind the test that shows it,
  or `-`.
- `tested`: a test alone shows it; `text` of words that claim nothing, which a test may show;
  `untested` where no test has its words.
- `none`: it is no line, and why. ` | ` stands between texts, and `..` behind one that begins so.

Looked for is each string and byte in the code of the crates below the programs; in aigprove, each
message of messages.txt; and in its modules, docstrings and bytes aside, each string that has a
blank in it, is given to a call that tells something, is yielded, or is a word of a table. This
fails where one of these stands in no row, or in a file of code more often than in its rows; and
where a row has another text, names a definition, test or line of aigcheck that isn't there, has
words that no definition has which it names, or words that the test hasn't.
"""
from __future__ import annotations

import ast
import collections
import functools
import re
import sys
from collections.abc import Iterator
from typing import NamedTuple

import harness
from harness import TESTS, TOP

PROGRAMS = ["aigtool", "aigedit", "aigcheck"]
# The name of aigprove's package in the places of rows.
PACKAGE = "aigprove"
MODULES = TOP / "lib" / PACKAGE
# The file of the package with a message in each line, behind its name.
MESSAGES = "messages.txt"
# Calls that tell what they are given; modules whose words are cells of tables; and calls whose
# arguments are patterns and names.
TELLING = {
    "print", "print_line", "say", "tell", "show_progress", "fault", "error", "Fault", "Missing",
    "TranslationTimeout", "ArgumentTypeError",
}
WORDED = {"report.py", "signals.py"}
PASSED = {
    "namedtuple", "compile", "fullmatch", "search", "sub", "decode", "encode", "startswith",
    "endswith", "removesuffix", "split", "message",
}
STREAMS = {"out", "err", "both", "part", "file", "-"}
CARRIERS = ["clause", "when", "never", "aigcheck", "tested", "text", "untested", "none"]
# Those whose rows name definitions, and those whose rows name a test.
OF_CLAUSES, OF_TESTS = {"clause", "when", "never"}, {"when", "aigcheck", "tested", "text"}
# A comment, a text of a definition, a string or a byte.
LITERAL = re.compile(
    r'//[^\n]*|codes "[^"]*"|b?"((?:\\.|[^"\\])*)"|b?\'(\\.[^\']*|[^\'\\])\'', re.S
)
ESCAPED = re.compile(r"\\\n\s*|\\(.)", re.S)
VARYING = re.compile(r"\{[\w: ]*\}")
# Where a definition, function or type begins.
BEGINS = re.compile(
    (
        r"^ *(?:pub(?:\(\w+\))? )?(?:abbrev|unfoldable|record|data|fn|enum|struct|const)(?: pub)?"
        r" ([^\s(<:;]+)"
    ),
    re.M,
)
# Where a string of Python ends and goes on in the next line.
GOES_ON = re.compile(r"""(["'])\n\s*[bf]*\1""")
SPELLED = {"\n": "\\n", "\t": "\\t", "\r": "\\r", "\x1b": "\\e"}


class Row(NamedTuple):
    """A row of the list."""

    place: str
    stream: str
    line: str
    carrier: str
    by: str


def spelled(text: str) -> str:
    """A text in one line, in which `{}` stands for what varies, without line feeds at its end."""
    return "".join(SPELLED.get(char, char) for char in VARYING.sub("{}", text).rstrip("\n"))


def crates_of(program: str) -> set[str]:
    """The crates that a program is made of."""
    lines, found, todo = harness.crates(), set(), [program]
    while todo:
        name = todo.pop()
        if name in lines and name not in found:
            found.add(name)
            todo += lines[name].partition(":")[2].split()
    return found


def in_code(text: str) -> Iterator[str]:
    """The strings and bytes of code."""
    for found in LITERAL.finditer(text):
        if not found[0].startswith(("//", "codes ")):
            yield ESCAPED.sub(
                lambda it: {"n": "\n", "t": "\t", "r": "\r"}.get(it[1], it[1] or ""),
                found[1] or found[2] or "",
            )


def called(node: object) -> str | None:
    """The name of what a call calls; None of what is no call."""
    return (
        getattr(node.func, "attr", getattr(node.func, "id", None))
        if isinstance(node, ast.Call)
        else None
    )


def in_module(tree: ast.Module, is_worded: bool) -> Iterator[str]:
    """The strings of a module that may be told."""
    told: set[ast.AST] = set()
    passed: set[ast.AST] = set()
    for node in ast.walk(tree):
        if called(node) in TELLING or isinstance(node, ast.Yield):
            told |= set(ast.walk(node))
        elif isinstance(node, ast.Call) and called(node) in PASSED:
            passed |= {part for argument in node.args for part in ast.walk(argument)}
        elif isinstance(node, ast.Expr) and isinstance(node.value, ast.Constant):
            passed.add(node.value)
        elif isinstance(node, ast.JoinedStr):
            passed |= {part for part in node.values if isinstance(part, ast.Constant)}
        elif isinstance(node, ast.FormattedValue) and node.format_spec:
            passed |= set(ast.walk(node.format_spec))
    for node in ast.walk(tree):
        is_text = isinstance(node, ast.Constant) and isinstance(node.value, str)
        parts: list[ast.AST] = [node] * is_text
        parts += node.values if isinstance(node, ast.JoinedStr) else []
        text = "".join(part.value if isinstance(part, ast.Constant) else "{}" for part in parts)
        if (
            node not in passed
            and re.search(r"\w|: |\n.", VARYING.sub("", text))
            and (is_worded or node in told or re.search(r"\s", text))
        ):
            yield text


def sources() -> dict[str, dict[str, int]]:
    """How often each file of code has each text; a module has each once, as it puts no line
    together of what others have."""
    found: dict[str, collections.Counter[str]] = collections.defaultdict(collections.Counter)
    for crate in sorted(set().union(*map(crates_of, PROGRAMS))):
        folder = TOP / "crates" / crate / "src"
        for path in sorted(folder.rglob("*.rt")):
            if "tests" not in (place := path.relative_to(folder)).with_suffix("").parts:
                found[f"{crate}/{place}"].update(map(spelled, in_code(path.read_text())))
    for path in [*sorted(MODULES.rglob("*.py")), TOP / "bin" / PACKAGE]:
        texts = in_module(ast.parse(path.read_text()), path.name in WORDED)
        found[
            f"{PACKAGE}/{path.relative_to(MODULES) if path.is_relative_to(MODULES) else path.name}"
        ].update(dict.fromkeys(map(spelled, texts), 1))
    # Texts that the package prints, or writes into files, stand in files of their own, too.
    for path in [*MODULES.rglob("*.txt"), *MODULES.rglob("*.sh")]:
        text = path.read_text()
        cells = [line.split("\t") for line in text.splitlines()]
        own = [row[1] for row in cells if len(row) > 1] if path.name == MESSAGES else [text]
        found[f"{PACKAGE}/{path.relative_to(MODULES)}"].update(map(spelled, own))
    return {
        place: {text: count for text, count in texts.items() if text.replace("{}", "")}
        for place, texts in found.items()
    }


def pieces(line: str, texts: list[str]) -> list[str] | None:
    """The texts of which a line is made, the longest first, with what varies between them; None
    where it has others."""
    if not line:
        return []
    for text in [*texts, "{}"]:
        if line.startswith(text) and (more := pieces(line[len(text):], texts)) is not None:
            return [text] * (text in texts) + more
    return None


def used(row: Row, texts: dict[str, int]) -> list[str] | None:
    """The texts of its file that a row has; None where it has others."""
    if row.carrier != "none":
        return pieces(spelled(row.line), sorted(texts, key=len, reverse=True))
    found = [
        [text for text in texts if text == it or it.endswith("..") and text.startswith(it[:-2])]
        for it in row.line.split(" | ")
    ]
    return (
        [text for some in found for text in some for _ in range(texts[text])]
        if all(found)
        else None
    )


@functools.cache
def blocks_of(crate: str) -> dict[str, list[str]]:
    """The definitions, functions and types of a crate by their names, each with the text up to the
    next."""
    found = collections.defaultdict(list)
    for path in [
        path
        for folder in ("specs", "src")
        for path in (TOP / "crates" / crate / folder).rglob("*.*t")
    ]:
        _, *parts = BEGINS.split(path.read_text())
        for name, block in zip(parts[::2], parts[1::2]):
            found[name].append(block)
    return found


def named(word: str) -> list[str]:
    """The texts of what a word names: of a crate, a definition, function or type, and perhaps a
    part of it."""
    crate, name, part = (word.split(".") + ["", ""])[:3]
    return [block for block in blocks_of(crate)[name] if re.search(rf"\b{part}\b", block)]


def lost_words(row: Row, texts: dict[str, int], words: list[str]) -> list[str]:
    """The texts of a row that no definition has which it names, but for single signs."""
    own = "\n".join(block for word in words for block in named(word)).replace("\\\\", "\\")
    fixed = [part for text in used(row, texts) or [] for part in text.split("{}")]
    return [part for part in fixed if len(part) > 1 and f'codes "{part}"' not in own]


def as_tested(line: str) -> str:
    """A pattern of the longest part of a line, which a test has to have."""
    longest = max(
        re.split(r"(?<=[,;.:]) | (?=\()", line), key=lambda part: len(VARYING.sub("", part))
    )
    return ".*".join(re.escape(part.strip()) for part in VARYING.split(longest)).replace(
        r"\\n", r"(?:\\n|\n)"
    )


@functools.cache
def text_of(test: str) -> str:
    """The text of a test's file, in which no string goes over several lines."""
    path = TESTS / test
    return GOES_ON.sub("", path.read_text(errors="replace")) if path.is_file() else ""


def row_faults(row: Row, texts: dict[str, int], lines: set[str]) -> Iterator[str]:
    """What is wrong in a row whose texts are there."""
    by, _, beneath = row.by.partition(" : ")
    words = [word for word in by.split() if word != "-"]
    tests = [word for word in words if "/" in word or word.endswith(".py")]
    if row.stream not in STREAMS or row.carrier not in CARRIERS:
        yield f"no such stream or carrier: {row.stream}, {row.carrier}"
    if row.carrier in OF_CLAUSES | {"untested"}:
        yield from (
            f"no such definition: {word}" for word in words if word not in tests and not named(word)
        )
    if row.carrier == "clause":
        yield from (
            f"no definition that is named has: {text}" for text in lost_words(row, texts, words)
        )
    if row.carrier == "aigcheck":
        yield from (
            f"no line of aigcheck: {line}"
            for line in beneath.split(" | ")
            if spelled(line) not in lines
        )
    if row.carrier in OF_TESTS and (tests or by != "-"):
        wanted = re.compile(as_tested(row.line))
        if not any(wanted.search(text_of(test)) for test in tests):
            yield f"no test that is named has: {wanted.pattern}"


def faults(rows: list[Row], found: dict[str, dict[str, int]]) -> Iterator[str]:
    """What is wrong in the rows, and what stands in none."""
    counts: dict[str, collections.Counter[str]] = collections.defaultdict(collections.Counter)
    lines = {spelled(row.line) for row in rows if not row.place.startswith(PACKAGE)}
    for row in rows:
        if (texts := used(row, found.get(row.place, {}))) is None:
            yield f"{row.place} has no such line: {row.line}"
            continue
        counts[row.place].update(texts)
        yield from (
            f"{row.place}: {row.line}: {why}" for why in row_faults(row, found[row.place], lines)
        )
    for place, counted in found.items():
        yield from (
            f"{place}: in too few rows of lines.tsv: {text}"
            for text, count in counted.items()
            if counts[place][text] < count
        )


def rows() -> list[Row]:
    """The rows of the list."""
    return [Row(*cells) for cells in harness.rows(TESTS / "lines.tsv")]


def main() -> None:
    harness.parser(__doc__).parse_args()
    found = rows()
    wrong, told = list(faults(found, sources())), [row for row in found if row.carrier != "none"]
    for name, places in [*((name, crates_of(name)) for name in PROGRAMS), (PACKAGE, {PACKAGE})]:
        own = collections.Counter(row.carrier for row in told if row.place.split("/")[0] in places)
        print(
            f"{name + ':':10} {sum(own.values()):3} lines:"
            f" {', '.join(f'{own[it]} {it}' for it in CARRIERS if own[it])}"
        )
    print("\n".join(wrong) or f"{len(told)} lines, each with what carries it")
    sys.exit(1 if wrong else 0)


if __name__ == "__main__":
    main()
