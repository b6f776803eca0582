#!/usr/bin/env python3
"""Writes the clients of the library for C from include/aig.h.

The header's declarations and their comments are the table of the calls. Of it are made lib/python/aig/_calls.py, lib/rust/src/calls.rs and
made.rs, and tests/clients/made.h and made.rs, by which rows are run through each call that gives bytes or numbers or checks something. Of
the calls on circuits in memory only the declarations are made, for Python in _calls.py and for Rust in handle_calls.rs.
One number is returned alone, and several as what RESULTS says, which is written by hand, as is each call with other results.

These files aren't in git. ./install, lib/rust/build.rs and the tests run this script. A file that is up to date isn't written again.
"""
import os
import pathlib
import re
import textwrap

TOP = pathlib.Path(__file__).resolve().parent.parent
DECLARED = re.compile(r"^/\* ((?:(?!\*/).)*?) \*/\nuint32_t (\w+)\(([^)]*)\);", re.MULTILINE | re.DOTALL)
HANDLED = re.compile(r"^(uint32_t|void) (\w+)\(([^)]*)\);", re.MULTILINE)
WRITTEN = "written by lib/clients.py from include/aig.h"
# The width of lines of code and of comments.
WIDTH = 138
OUT = [("uint8_t*", "out"), ("size_t", "out_len"), ("size_t*", "needed")]
RUST = {"const uint8_t*": "*const u8", "uint8_t*": "*mut u8", "int32_t*": "*mut i32", "size_t*": "*mut usize"}
RUST |= {"size_t": "usize", "uint64_t": "u64", "uint32_t": "u32", "bool": "bool"}
RUST |= {"aig_circuit_t*": "*mut Handle", "aig_simulation_t*": "*mut Handle", "aig_unrolling_t*": "*mut Handle", "aig_node_t*": "*mut Node", "aig_latch_t*": "*mut Latch"}
RUST |= {"bool*": "*mut bool", "uint32_t*": "*mut u32", "const uint32_t*": "*const u32", "const size_t*": "*const usize"}
PYTHON = {"uint8_t*": "_U8", "int32_t*": "_I32", "size_t*": "_SIZES", "const uint8_t*": "_TEXT"}
PYTHON |= {"size_t": "_size", "uint64_t": "_step", "uint32_t": "_U32", "bool": "_bool"}
# What the calls in Python take from lib/python/aig/_library.py.
SHARED = "_I32 _POINTER _SIZES _TEXT _U32 _U8 _bool _bytes _declare _given _hold _number _size _step _steps _told".split()
# The types that clients in Rust and Python return for several numbers. Their fields have the names of the numbers.
RESULTS = {("bad", "step"): "Shown", ("justice", "start", "last"): "Lasso"}


# What a call is made on in C, and the calls that give bytes, that check something and that tell numbers.
WORDS = """#include "aig.h"

struct bytes {
  uint8_t *at;
  size_t len;
};
struct words {
  struct bytes files[7];
  uint64_t numbers[2];
  bool optimize, distinct;
};
typedef uint32_t answers(const struct words *, uint8_t *out, size_t out_len, size_t *needed);
typedef uint32_t checks(const struct words *);
typedef uint32_t tells(const struct words *, size_t *told);

"""


class Call:
    """A call of the header: its comment, its name, its parameters, and what a client gives it."""

    has_status = True

    def __init__(self, doc, name, given):
        self.doc, self.full, self.name = re.sub(r"\s+\*? ?", " ", doc), name, name.removeprefix("aig_")
        words = [re.fullmatch(r"(.*?)\s*(\w+)", re.sub(r"\s+", " ", it.strip())).groups() for it in given.split(",")]
        self.parameters = [(kind.replace(" *", "*"), word) for kind, word in words]
        self.gives = self.parameters[-3:] == OUT
        # The numbers that it tells, where it gives no bytes.
        self.told = [] if self.gives else [word for kind, word in self.parameters if kind == "size_t*"]
        taken = self.parameters[: -3 if self.gives else len(self.parameters) - len(self.told)]
        # A slice is one word, without a word for its length.
        self.taken = [(kind, word) for i, (kind, word) in enumerate(taken) if not (i and taken[i - 1][0].endswith("8_t*"))]
        # The rest is written by hand.
        self.is_plain = self.name != "message" and not any(kind == "int32_t*" for kind, _ in self.taken)

    def says(self, names):
        """Returns the comment for another language, in which `names` stands for the success of a check."""
        text = self.doc.replace("Returns AIG_DONE only if", names).replace("`*", "`")
        return re.sub(r"`aig_(\w+)`", r"`\1`", text)

    def result(self, gives, nothing, number):
        """Returns the result type of a client, in the names of its language."""
        if self.gives or not self.told:
            return gives if self.gives else nothing
        return RESULTS[tuple(self.told)] if self.told[1:] else number


def calls():
    return [Call(*found) for found in DECLARED.findall((TOP / "include" / "aig.h").read_text(encoding="utf-8"))]


def laid_out(before, words, after, indent=""):
    """Returns a list of words on one line, or on one line each if one line is too long."""
    line = f"{indent}{before}{', '.join(words)}{after}"
    if len(line) <= WIDTH:
        return line
    return "\n".join([f"{indent}{before}", *(f"{indent}    {word}," for word in words), f"{indent}{after}"])


def comment(text, start, less=0):
    return "\n".join(textwrap.wrap(text, WIDTH - less, initial_indent=start, subsequent_indent=start))


class HandleCall:
    """A call on a circuit or simulation in memory: whether it returns a status, its name, and its parameters."""

    def __init__(self, kind, name, given):
        self.has_status, self.full = kind != "void", name
        words = [re.fullmatch(r"(.*?)\s*(\w+)", re.sub(r"\s+", " ", it.strip())).groups() for it in given.split(",")]
        self.parameters = [(kind.replace(" *", "*"), word) for kind, word in words]


def handle_calls():
    return [HandleCall(*found) for found in HANDLED.findall((TOP / "include" / "aig_circuit.h").read_text(encoding="utf-8"))]


# ---- Rust

def rust_declaration(call):
    result = " -> u32" if call.has_status else ""
    return laid_out(f"pub fn {call.full}(", [f"{word}: {RUST[kind]}" for kind, word in call.parameters], f"){result};", "    ")


def rust_call(call):
    takes = ", ".join(f"{word}: {'&[u8]' if kind.endswith('*') else RUST[kind]}" for kind, word in call.taken)
    given = [f"{word}.as_ptr(), {word}.len()" if kind.endswith("*") else word for kind, word in call.taken]
    result = call.result("Vec<u8>", "()", "usize")
    words = [*given, "out", "len", "needed"] if call.gives else [*given, *(f"&mut {word}" for word in call.told)]
    made = f"calls::{call.full}({', '.join(words)})"
    body = f"given(ROOM, |out, len, needed| unsafe {{ {made} }})" if call.gives else f"held(unsafe {{ {made} }})"
    body += "?;" * bool(call.told)
    if len(body) + 4 > WIDTH:
        body = f"{body[: body.index('{ ') + 1]}\n        {made}\n    {body[body.rindex(' }') + 1 :]}"
    if call.told:
        numbers = "".join(f"let mut {word} = 0;\n    " for word in call.told)
        told = ", ".join(call.told)
        body = f"{numbers}{body}\n    Ok({f'{result} {{ {told} }}' if call.told[1:] else told})"
    doc = comment(call.says("Succeeds only if"), "/// ")
    return f"{doc}\npub fn {call.name}({takes}) -> Result<{result}> {{\n    {body}\n}}\n"


def rust_declarations(found, header, uses=""):
    declared = "\n".join(map(rust_declaration, found))
    head = f"//! The calls as `{header}` declares them: {WRITTEN.replace('aig.h', header)}.\n\n"
    return f"{head}{uses}unsafe extern \"C\" {{\n{declared}\n}}\n"


def rust_files(found):
    yield "lib/rust/src/calls.rs", rust_declarations(found, "aig.h")
    yield "lib/rust/src/handle_calls.rs", rust_declarations(handle_calls(), "aig_circuit.h", "use crate::held::{Handle, Latch, Node};\n\n")
    used = ", ".join(sorted(["ROOM", "Result", "calls", "given", "held", *RESULTS.values()]))
    head = f"//! Safe functions, each over its call: {WRITTEN}.\n\nuse crate::{{{used}}};\n\n"
    safe = "// SAFETY: each pointer and length is of a slice that is borrowed for the call, and what is written is apart from it.\n\n"
    yield "lib/rust/src/made.rs", head + safe + "\n".join(rust_call(call) for call in found if call.is_plain)
    rows = [f'        "{call.name}" => {rust_row(call)},' for call in found if call.is_plain and not call.told[1:]]
    text = f"//! Each call on the words of a row: {WRITTEN}.\n\n"
    text += "/// What a call gives, if it is one that tells at most one number; one that checks something gives nothing.\n"
    text += "pub fn answer(call: &str, files: &[&[u8]], numbers: &[u64], distinct: bool, optimize: bool) -> Option<aig::Result<Vec<u8>>> {\n"
    text += "    Some(match call {\n" + "\n".join(rows) + "\n        _ => return None,\n    })\n}\n"
    yield "tests/clients/made.rs", text


def word_of(call, file, number, setting):
    """Returns the words of a row for each parameter of the call: its files and its numbers in order, and its options."""
    files, numbers = (iter(range(len(call.taken))) for _ in range(2))
    for kind, word in call.taken:
        yield file(next(files)) if kind.endswith("*") else setting(word) if kind == "bool" else number(next(numbers), kind)


def rust_row(call):
    number = lambda i, kind: f"numbers[{i}]" + " as usize" * (kind == "size_t")
    words = ", ".join(word_of(call, "files[{}]".format, number, lambda word: "distinct" if word == "distinct" else "optimize"))
    told = 'count| format!("{count}\\n").into_bytes()' if call.told else "()| Vec::new()"
    return f"aig::{call.name}({words})" + ("" if call.gives else f".map(|{told})")


# ---- Python

def python_call(call):
    plain = [f"{word}: {'bytes' if kind.endswith('*') else 'int'}" for kind, word in call.taken if kind != "bool"]
    settings = [f"{word}: bool = {word != 'distinct'}" for kind, word in call.taken if kind == "bool"]
    takes = [*plain, *(["*", *settings] if settings else [])]
    given = {"const uint8_t*": "*_given({})", "uint64_t": "_steps({})", "size_t": "_number({})", "bool": "{}"}
    words = [f'"{call.full}"', *[str(len(call.told))] * bool(call.told), *(given[kind].format(word) for kind, word in call.taken)]
    result = call.result("bytes", "None", "int")
    does, end = ("return _bytes" if call.gives else "_hold", ")")
    if call.told:
        does, end = (f"return {result}(*_told", "))") if call.told[1:] else ("return _told", ")[0]")
    doc = comment(call.says("Returns only if"), "    ", 3)
    doc = f'    """{doc[4:]}"""' if len(doc) < WIDTH - 3 and "\n" not in doc else f'    """{doc[4:]}\n    """'
    head = laid_out(f"def {call.name}(", takes, f") -> {result}:")
    return f"{head}\n{doc}\n{laid_out(f'{does}(', words, end, '    ')}\n"


def python_handle_calls():
    """Returns the declarations of the calls on circuits in memory, in which all pointers have the same type."""
    text = ""
    for has_status in (True, False):
        found = [call for call in handle_calls() if call.has_status == has_status]
        rows = "".join(laid_out(f'"{call.full}": [', ["_POINTER" if kind[-1] == "*" else PYTHON[kind] for kind, _ in call.parameters],
                                "],", "    ") + "\n" for call in found)
        text += f"_declare({{\n{rows}}}{'' if has_status else ', None'})\n"
    return text


def python_files(found):
    head = f'"""The calls of `aig.h`, for the package aig: {WRITTEN}."""\nfrom __future__ import annotations\n\n'
    head += f"from aig._library import {', '.join(sorted([*SHARED, *RESULTS.values()]))}\n\n"
    takes = "\n".join(f'    "{call.full}": [{", ".join(PYTHON[kind] for kind, _ in call.parameters)}],' for call in found)
    names = textwrap.indent(textwrap.fill(" ".join(f'"{call.name}",' for call in found if call.is_plain), WIDTH - 4), "    ")
    text = f"# What each call takes.\n_declare({{\n{takes}\n}})\n{python_handle_calls()}\n__all__ = [\n{names}\n]\n"
    yield "lib/python/aig/_calls.py", head + text + "".join("\n\n" + python_call(call) for call in found if call.is_plain)


# ---- C

def c_row(call):
    words = [*word_of(call, lambda i: f"w->files[{i}].at, w->files[{i}].len", lambda i, _: f"w->numbers[{i}]",
                      lambda word: "w->distinct" if word == "distinct" else "w->optimize")]
    takes = "const struct words *w" + (", uint8_t *out, size_t len, size_t *needed" if call.gives else ", size_t *told" * bool(call.told))
    made = ", ".join([*words, *(["out", "len", "needed"] if call.gives else (f"&told[{i}]" for i in range(len(call.told))))])
    return f"static uint32_t {call.name}_of({takes}) {{\n  return {call.full}({made});\n}}\n"


def c_table(name, kind, found):
    rows = "\n".join(f'  {{"{call.name}", {call.name}_of, {sum(it[0].endswith("*") for it in call.taken)}}},' for call in found)
    return f"static const struct {{\n  const char *name;\n  {kind}\n  int files;\n}} {name}[] = {{\n{rows}\n}};\n"


def c_files(found):
    plain = [call for call in found if call.is_plain]
    text = f"/* Each call on words as a row has them: {WRITTEN}. */\n{WORDS}" + "".join(map(c_row, plain))
    text += c_table("ANSWERS", "answers *call;", [call for call in plain if call.gives])
    text += c_table("CHECKS", "checks *call;", [call for call in plain if not call.gives and not call.told])
    text += c_table("TELLS", "tells *call;", [call for call in plain if call.told])
    yield "tests/clients/made.h", text


def main():
    found = calls()
    for path, text in [*rust_files(found), *python_files(found), *c_files(found)]:
        file = TOP / path
        if not file.is_file() or file.read_text(encoding="utf-8") != text:
            # Whoever reads it meanwhile has the old text or the new one.
            written = file.with_name(f".{file.name}.{os.getpid()}")
            written.write_text(text, encoding="utf-8")
            written.replace(file)


if __name__ == "__main__":
    main()
