#!/usr/bin/env python3
"""What is promised, and which definitions that rests on: promises.py [--list | --mark]

A promise is a clause of a public contract: of a function that the root of a crate below exports, or
a module to C, of a method or trait of a type that is exported or that such a function names, and
what contracts see of a value of that type. A law is an exported function without parameters and
result; those of all crates count but of one that serves proofs alone. Each word of a clause is
followed by the `use` lines to the definition in specs/, and on through the words of that.

The first line of each file of specs/ says who reads it: whoever wants to know what the calls
promise, whoever cites laws, or only who changes code. And `specs/Lib.antt` of aig and of aig_encode
passes on each file of other crates that the crate's promises rest on, so that a caller's crate
names these two. This fails where a line is wrong. --list prints every definition, --mark writes the
lines.

It is a search of text and no compiler. It takes a word for each definition that the word can name,
so it may count too many.
"""
from __future__ import annotations

import collections
import pathlib
import re
import sys
from collections.abc import Collection, Iterable, Iterator
from typing import NamedTuple

import harness
from harness import TOP

# The crates whose exported calls are promised, in the order in which they are told.
CALLS = [
    ("aig and aig_encode", ["aig", "aig_encode"]),
    (
        "with the programs",
        ["aigtool", "aig_tool_commands", "aigcheck", "aig_check_commands", "aig_edit_commands"],
    ),
    (
        "with checked answers, witnesses and DIMACS",
        [
            *(
                "aig_answers", "aig_bounded", "aig_edits", "aig_refutation", "aig_steps",
                "aig_subjects", "aig_witness_circuit_checks",
            ),
            *("aig_witness", "aig_dimacs"),
        ],
    ),
    ("from C", ["aig_calls", "aig_handles"]),
]
LAWS = "with the laws"
# The crates that pass on what their promises rest on, each but for what those before it do.
PASS_ON = ["aig", "aig_encode"]
# Its laws join a reader on lists, of which no contract speaks, to the format.
SERVES_PROOFS = "aig_format"

PROMISED = "-- Part of what is promised."
CITED = "-- Part of what laws say, and of no promise of a call."
PRIVATE = "-- Serves private clauses alone."


class Word(NamedTuple):
    """A definition in specs/."""

    crate: str
    module: str
    name: str


# A file of specs/, by its crate and module.
File = tuple[str, str]
# A title, the definitions of its layer and those before, and the words of std.
Layer = tuple[str, set[Word], set[Word]]

WORD = re.compile(r"[^\W\d][\w'\-]*|◌\S+")
USE = re.compile(
    r"^[ ]*(?:pub )?(?:ghost )?use Rattle\.([\w.]+?)(?:\.\{([^}]*)\})?(?: as (\w+))?;?$", re.M
)
DEFINES = re.compile(r"^(?:pub )?(?:abbrev|unfoldable|record|data)(?: pub)? (\S+)")
IMPORT = re.compile(r"\b(pub )?use ([\w:]+?)::(?:\{([^}]*)\}|(\w+));")
FUNCTION = re.compile(r"^pub (?:extern\s+)?fn (\w+)", re.M)
EXPORTED = re.compile(r"^pub extern\s+fn (\w+)", re.M)


def files_below(folder: pathlib.Path, *endings: str) -> list[pathlib.Path]:
    """The files of a folder and those in it that end so."""
    return sorted(path for path in folder.rglob("*") if path.suffix in endings)


class Uses:
    """What the words of a text stand for, by its `use` lines."""

    def __init__(self, text: str) -> None:
        self.words: dict[str, set[Word]] = collections.defaultdict(set)
        self.prefixes: dict[str, set[File]] = collections.defaultdict(set)
        for path, listed, alias in USE.findall(text):
            crate, _, module = path.partition(".")
            if alias:
                self.prefixes[alias].add((crate, module))
            for entry in filter(None, map(str.strip, listed.split(","))):
                name, _, new = entry.partition(" as ")
                self.words[new or name].add(Word(crate, module, name))

    def cited(self, text: str) -> set[Word]:
        """The words that a text cites. Between the parts of an operator its operands stand."""
        text = re.sub(r"^[ ]*(?:ghost )?use .*$", "", text, flags=re.M)
        found: set[Word] = set()
        parts = {*WORD.findall(text), *re.findall(r"[^\w\s(){}]+", text)}
        for word, targets in self.words.items():
            needed = [part for part in word.split("◌") if part]
            if parts.issuperset(needed) and not is_of_if(needed, text):
                found |= targets
        for prefix, files in self.prefixes.items():
            names = re.findall(rf"(?<![\w.]){re.escape(prefix)}\.(\w+)", text)
            found |= {Word(*file, name) for file in files for name in names}
        return found


def is_of_if(needed: list[str], text: str) -> bool:
    """Whether each `then` of a text is one of if .. then .. else."""
    return needed == ["then"] and len(re.findall(r"\bthen\b", text)) <= len(
        re.findall(r"\belse\b", text)
    )


class Specs:
    """The definitions of all specs/."""

    def __init__(self) -> None:
        self.lines: dict[Word, int] = {}
        self.cites: dict[Word, set[Word]] = {}
        self.paths: dict[File, pathlib.Path] = {}
        self.constructors: dict[Word, Word] = {}
        for folder in sorted(TOP.glob("crates/*/specs")):
            for path in files_below(folder, ".antt"):
                if path.name != "Lib.antt":
                    self.add(folder.parent.name, f"specs.{path.stem}", path)

    def add(self, crate: str, module: str, path: pathlib.Path) -> None:
        """Takes the definitions of a file."""
        text = path.read_text()
        own: dict[Word, list[str]] = {}
        lines: list[str] = []
        self.paths[crate, module] = path
        for line in text.split("\n"):
            if found := DEFINES.match(line):
                lines = own[Word(crate, module, found[1])] = []
            if line.strip() and not line.lstrip().startswith("--"):
                lines.append(line)
        uses = Uses(text)
        for word, lines in own.items():
            uses.words[word.name].add(word)
            for constructor in (
                re.findall(r"^  (\w+) :", "\n".join(lines), re.M)
                if lines[0].startswith("pub data")
                else ()
            ):
                self.constructors[word._replace(name=constructor)] = word
                uses.words[constructor].add(word)
        for word, lines in own.items():
            self.lines[word], self.cites[word] = len(lines), uses.cited("\n".join(lines)) - {word}


def end_of(text: str, start: int) -> int:
    """The place after the bracket that closes the one at start."""
    depth = 0
    for at in range(start, len(text)):
        depth += (text[at] in "({[") - (text[at] in ")}]")
        if depth == 0:
            return at + 1
    raise ValueError(f"open bracket: {text[start:start + 60]}")


def body_of(text: str, at: int) -> int:
    """The place of the first brace or semicolon that stands in no other brackets."""
    while text[at] not in "{;":
        at = end_of(text, at) if text[at] in "([" else at + 1
    return at


def plain(path: pathlib.Path) -> str:
    """The text of a file of code without comments, strings and letters."""
    return re.sub(
        r'//[^\n]*|b?"(?:\\.|[^"\\])*"|b?\'(?:\\.[^\']*|[^\'\\])\'', "", path.read_text(),
        flags=re.S,
    )


def used(text: str) -> Iterator[tuple[str, str, bool]]:
    """The names that `use` lines of code have, each with the first part of its path, and whether it
    is passed on."""
    for passed_on, path, listed, one in IMPORT.findall(text):
        for name in re.findall(r"\w+", listed or one):
            yield path.split("::")[0], name, bool(passed_on)


class Part:
    """A piece of code: the words that its clauses cite, and the names that its signature or fields
    have.

    Of a method or a function it has the name, and the words of each clause that it ensures, by the
    clause's name."""

    def __init__(
        self,
        crate: str,
        clauses: list[tuple[str, str]],
        names: str,
        uses: Uses,
        name: str = "",
        is_law: bool = False,
    ) -> None:
        self.crate, self.name, self.is_law = crate, name, is_law
        self.words = uses.cited("\n".join(text for _, text in clauses))
        self.names = set(re.findall(r"\b[A-Z]\w*", names))
        self.ensures = {label: uses.cited(text) for label, text in clauses if label}


def function_part(crate: str, name: str, text: str, start: int, uses: Uses) -> Part:
    """A function from its name on: its signature and its clauses."""
    at, clauses = body_of(text, start), []
    signature = re.split(r"\b(?:requires|ensures)\b", text[start:at])[0]
    while text[at] == "{" and (
        found := re.search(r"\b(requires|ensures)\b\*?\s*(\w*)\s*$", text[start:at])
    ):
        end = end_of(text, at)
        clauses.append((found[2] or "ensures" if found[1] == "ensures" else "", text[at:end]))
        at = body_of(text, end)
    return Part(crate, clauses, signature, uses, name, signature.strip() == "()")


class Code:
    """The functions and types of all src/."""

    def __init__(self) -> None:
        self.functions: dict[File, list[Part]] = collections.defaultdict(list)
        self.types: dict[File, list[Part]] = collections.defaultdict(list)
        self.imports: dict[File, list[str]] = collections.defaultdict(list)
        self.constants: set[File] = set()
        self.exports: dict[str, list[File]] = {}
        self.crates = list(harness.crates())
        for crate in self.crates:
            folder = TOP / "crates" / crate / "src"
            for path in files_below(folder, ".rt"):
                if "tests" not in path.relative_to(folder).with_suffix("").parts:
                    self.add(crate, plain(path))
            self.exports[crate] = self.exports_of(crate, folder)

    def exports_of(self, crate: str, folder: pathlib.Path) -> list[tuple[str, str]]:
        """The names that a crate's root exports, each with the crate that has it."""
        text = plain(
            next(path for path in (folder / "lib.rt", folder / "main.rt") if path.exists())
        )
        passed_on = [
            (owner if owner in self.crates else crate, name)
            for owner, name, is_passed_on in used(text)
            if is_passed_on
        ]
        in_modules = [
            name
            for path in files_below(folder, ".rt")
            if path.name != "lib.rt"
            for name in EXPORTED.findall(plain(path))
        ]
        return passed_on + [(crate, name) for name in FUNCTION.findall(text) + in_modules]

    def add(self, crate: str, text: str) -> None:
        """Takes what a file of code has."""
        uses = Uses(text)
        for owner, name, _ in used(text):
            if owner in self.crates:
                self.imports[crate, name].append(owner)
        for found in FUNCTION.finditer(text):
            self.functions[crate, found[1]].append(
                function_part(crate, found[1], text, found.end(), uses)
            )
        self.constants |= {(crate, name) for name in re.findall(r"^pub const (\w+)", text, re.M)}
        for found in re.finditer(r"^pub (struct|enum|trait) (\w+)", text, re.M):
            self.add_type(crate, found[1], found[2], text, found.end(), uses)
        for found in re.finditer(r"^impl\b([^{]*)", text, re.M):
            of_trait, _, of_type = re.sub(r"^\s*<(?:[^<>]|<[^<>]*>)*>", "", found[1]).rpartition(
                " for "
            )
            name = re.findall(r"^\W*(?:\w+::)*(\w+)", of_type)[0]
            block = text[found.end():end_of(text, found.end())]
            self.add_block(crate, name, block, of_trait.strip(), uses)

    def add_type(self, crate: str, kind: str, name: str, text: str, start: int, uses: Uses) -> None:
        """A type or trait: the names that its public fields, its cases or its methods have."""
        at = body_of(text, start)
        block = text[at:end_of(text, at)] if text[at] == "{" else ""
        if kind == "trait":
            return self.add_block(crate, name, block, name, uses)
        held = r"\bpub \w+: ([^\n]*)" if kind == "struct" else r"\b\w+(\([^)]*\)| \{[^}]*\})"
        names = "\n".join(re.findall(held, block)) + text[start:at].partition("(")[2]
        self.types[crate, name].append(Part(crate, [], names, uses))

    def add_block(self, crate: str, name: str, block: str, of_trait: str, uses: Uses) -> None:
        """A block of methods: what contracts see of the type, and its public methods."""
        seen_as = (
            ""
            if of_trait in ("", "Model", name)
            else "as " + of_trait.split("<")[0].split("::")[-1]
        )
        for found in re.finditer(r"\bghost (\w+)\s*[:=]\s*(?=\{)", block):
            ghost = block[found.end():end_of(block, found.end())]
            self.types[crate, name].append(Part(crate, [(found[1], ghost)], "", uses, seen_as))
        for found in re.finditer(r"^    (pub )?fn (\w+)", block, re.M):
            if of_trait or found[1]:
                self.types[crate, name].append(
                    function_part(crate, found[2], block, found.end(), uses)
                )

    def owners(self, crate: str, name: str) -> set[str]:
        """The crates whose type a name of this crate may be."""
        if (crate, name) in self.types:
            return {crate}
        homes = {
            home
            for owner in self.imports.get((crate, name), ())
            for home, exported in self.exports[owner]
            if exported == name
        }
        return {home for home in homes if (home, name) in self.types}


def promised_words(code: Code, crates: list[str], laws: bool = False) -> set[Word]:
    """The words that the exported calls of crates cite, or their laws, and those of all types that
    they name."""
    exported = [(crate, item) for crate in crates for item in code.exports[crate]]
    for crate, item in exported:
        if not any(item in known for known in (code.functions, code.types, code.constants)):
            raise ValueError(f"exported and not found: {item[1]} of {crate}")
    words, seen = set(), {item for _, item in exported if item in code.types and not laws}
    todo = [
        part for _, item in exported for part in code.functions.get(item, ()) if part.is_law == laws
    ]
    todo += [part for item in seen for part in code.types[item]]
    while todo:
        part = todo.pop()
        words |= part.words
        for name in part.names:
            found = {(owner, name) for owner in code.owners(part.crate, name)} - seen
            seen |= found
            todo += [more for item in found for more in code.types[item]]
    return words


def seen_of_type(word: Word, code: Code) -> list[Word]:
    """The words of what contracts see of a type of the code, which a word names, as in
    specs.declared.edge.AigEdge."""
    names = [
        part for part in word.module.split(".") if part[:1].isupper() and not part.startswith("The")
    ]
    name = names[-1] if names else word.name
    return [used for owner in code.owners(word.crate, name) for part in code.types[owner, name]
            if not part.name for used in part.words]


def closed(words: set[Word], specs: Specs, code: Code) -> tuple[set[Word], set[Word]]:
    """The words of specs/ that these rest on, and those of std."""
    seen, std, todo = set(), set(), list(words)
    while todo:
        word = todo.pop()
        word = specs.constructors.get(word, word)
        if word.crate not in code.crates:
            std.add(word)
        elif word not in seen:
            seen.add(word)
            if word not in specs.lines and not word.module.startswith(
                ("specs.declared.", "specs.contracts.")
            ):
                raise ValueError(f"no definition: {'.'.join(word)}")
            todo += specs.cites[word] if word in specs.lines else seen_of_type(word, code)
    return seen & specs.lines.keys(), std


def layers() -> tuple[Specs, Code, list[Layer]]:
    """What is promised, in layers: a title, the definitions of this layer and those before, and the
    words of std."""
    specs, code = Specs(), Code()
    found: set[Word] = set()
    std: set[Word] = set()
    out: list[Layer] = []
    of_laws = [crate for crate in code.crates if crate != SERVES_PROOFS]
    for title, names, laws in [*((*calls, False) for calls in CALLS), (LAWS, of_laws, True)]:
        more, of_std = closed(promised_words(code, names, laws), specs, code)
        found, std = found | more, std | of_std
        out.append((title, found, std))
    return specs, code, out


def files_of(words: Iterable[Word]) -> set[File]:
    """The files of definitions, each by its crate and module."""
    return {word[:2] for word in words}


def passed_on(
    specs: Specs, code: Code, crate: str, before: set[File]
) -> tuple[list[str], set[File]]:
    """The lines by which a crate passes on the files of others that its promises rest on, but for
    the files before: a file has its own name, and its crate's before it where a file of the crate
    or of a lower one has that name."""
    files = files_of(closed(promised_words(code, [crate]), specs, code)[0]) - before
    taken, lines = {module for owner, module in specs.paths if owner == crate}, []
    for owner in code.crates:
        for module in sorted(module for home, module in files if home == owner != crate):
            of_owner = "".join(map(str.capitalize, owner.split("_")[1:])) + module.removeprefix(
                "specs."
            )
            lines.append(f"pub use Rattle.{owner}.{module}" + f" as {of_owner}" * (module in taken))
            taken.add(module)
    return lines, files


def wanted_texts(
    specs: Specs, code: Code, found: list[Layer]
) -> Iterator[tuple[pathlib.Path, str, str]]:
    """The files of specs/ whose text is another, each with the text that it has to have, and
    why."""
    *_, (_, of_calls, _), (_, of_laws, _) = found
    before: set[File] = set()
    for file, path in sorted(specs.paths.items()):
        mark = (
            PROMISED
            if file in files_of(of_calls)
            else CITED if file in files_of(of_laws) else PRIVATE
        )
        text = path.read_text()
        first, _, rest = text.partition("\n")
        kept = rest if first in (PROMISED, CITED, PRIVATE) else text
        yield path, f"{mark}\n{kept}", f"the first line has to be '{mark}'"
    for crate in PASS_ON:
        lines, files = passed_on(specs, code, crate, before)
        before |= files
        path = TOP / "crates" / crate / "specs" / "Lib.antt"
        own = [
            line
            for line in path.read_text().split("\n")
            if line and not line.startswith("pub use ")
        ]
        yield path, "\n".join([*own, *lines, ""]), "passes on other files than its promises rest on"


def told(title: str, specs: Specs, words: Collection[Word]) -> str:
    """The line of counts of definitions."""
    files = files_of(words)
    counts = (
        f"{len(words):3} definitions, {sum(specs.lines[word] for word in words):4} lines,"
        f" {len(files):2} files"
    )
    return f"{title + ':':45} {counts} of {len({crate for crate, _ in files}):2} crates"


def main() -> None:
    options = (parser := harness.parser(__doc__)).add_mutually_exclusive_group()
    options.add_argument("--list", action="store_true", help="print every definition")
    options.add_argument("--mark", action="store_true", help="write the lines")
    given = parser.parse_args()
    specs, code, found = layers()
    for title, words, std in found:
        print(f"{told(title, specs, words)}, over {len(std):2} words of std")
    print(told("all", specs, specs.lines))
    _, everything, std = found[-1]
    if given.list:
        for file in sorted(files_of(everything)):
            print(
                f"{specs.paths[file].relative_to(TOP)}:"
                f" {' '.join(sorted(word.name for word in everything if word[:2] == file))}"
            )
        print("std: " + " ".join(sorted({word.name for word in std})))
    wrong = [it for it in wanted_texts(specs, code, found) if it[0].read_text() != it[1]]
    for path, text, why in wrong:
        if given.mark:
            path.write_text(text)
        else:
            print(f"{path.relative_to(TOP)}: {why}")
    sys.exit(1 if wrong and not given.mark else 0)


if __name__ == "__main__":
    main()
