#!/usr/bin/env python3
"""Measures the size of aigprove's package: run sizes [FOLDER]

Prints the number of lines of code of each module, without docstrings, comments and blank lines, and the modules and functions that are
too long. Ends with status 1 if there are any. The default of FOLDER is lib/aigprove."""
import argparse
import ast
import io
import pathlib
import sys
import tokenize

PACKAGE = pathlib.Path(__file__).resolve().parent.parent / "lib" / "aigprove"
# The largest numbers of lines of a module and of a function.
MODULE, FUNCTION = 400, 40
SPACE = {tokenize.COMMENT, tokenize.NL, tokenize.NEWLINE, tokenize.INDENT, tokenize.DEDENT, tokenize.ENCODING, tokenize.ENDMARKER}
DEFINITIONS = (ast.FunctionDef, ast.AsyncFunctionDef)


def docstrings(tree):
    """Returns the lines of all docstrings."""
    found = set()
    for node in ast.walk(tree):
        if isinstance(node, (ast.Module, ast.ClassDef, *DEFINITIONS)) and ast.get_docstring(node) is not None:
            found.update(range(node.body[0].lineno, node.body[0].end_lineno + 1))
    return found


def lines_of_code(text):
    """Returns the number of lines of a module that contain code."""
    found = set()
    for token in tokenize.generate_tokens(io.StringIO(text).readline):
        if token.type not in SPACE:
            found.update(range(token.start[0], token.end[0] + 1))
    return len(found - docstrings(ast.parse(text)))


def long_functions(text):
    """Yields the name and the length of each function that is too long."""
    for node in ast.walk(ast.parse(text)):
        if isinstance(node, DEFINITIONS) and node.end_lineno - node.lineno >= FUNCTION:
            yield node.name, node.end_lineno - node.lineno + 1


def main():
    parser = argparse.ArgumentParser(description=__doc__, formatter_class=argparse.RawDescriptionHelpFormatter)
    parser.add_argument("folder", type=pathlib.Path, nargs="?", default=PACKAGE)
    folder, total, too_long = parser.parse_args().folder, 0, []
    for path in sorted(folder.rglob("*.py")):
        text, name = path.read_text(encoding="utf-8"), path.relative_to(folder)
        count, whole = lines_of_code(text), text.count("\n")
        total += count
        print(f"{count:5} {name}")
        too_long += [f"{name} has {whole} lines"] * (whole > MODULE)
        too_long += [f"{function} of {name} has {length} lines" for function, length in long_functions(text)]
    print(f"{total:5} in all")
    print("\n".join(too_long))
    sys.exit(1 if too_long else 0)


if __name__ == "__main__":
    main()
