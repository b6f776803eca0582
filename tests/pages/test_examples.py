"""Checks that each example of a docstring is run by a test.

An example is a block between lines of three backquotes in the docstring of an item, below `#
Examples`. The body of a function with #[test], in any crate, has to contain the lines of the
example without interruption. The test may have other lines before and after them, such as those
that define `rt` and `alloc`.
"""
import re
import textwrap

from harness import TOP

TEST = re.compile(r"^#\[test\]\nfn \w+\(.*?\{\n(.*?)^\}", re.DOTALL | re.MULTILINE)
DOCSTRING = re.compile(r"(?:^ *///.*\n)+", re.MULTILINE)
HEADING = "# Examples\n"
FENCE = re.compile(r"^```.*\n", re.MULTILINE)


def examples(text):
    """Yields the line of each docstring with examples, and its blocks. If it has no block, or a
    block isn't closed, yields None instead of the blocks."""
    for found in DOCSTRING.finditer(text):
        docstring = re.sub(r"^ */// ?", "", found.group(), flags=re.MULTILINE)
        before, heading, after = docstring.partition(HEADING)
        if heading or FENCE.search(docstring):
            parts = FENCE.split(after)
            is_whole = len(parts) >= 3 and len(parts) % 2 == 1 and not FENCE.search(before)
            yield text.count("\n", 0, found.start()) + 1, parts[1::2] if is_whole else None


def sources():
    """Returns the texts of the files of code, by their paths relative to the repository."""
    paths = (path.relative_to(TOP) for path in sorted(TOP.glob("crates/**/*.rt")))
    return {path: (TOP / path).read_text() for path in paths if "out" not in path.parts}


def test_examples(checks):
    """Each example of a docstring is part of a test."""
    texts = sources()
    bodies = [
        "\n" + textwrap.dedent(body) for text in texts.values() for body in TEST.findall(text)
    ]
    for path, text in texts.items():
        for line, blocks in examples(text):
            place = f"{path}:{line}"
            assert blocks is not None, (
                f"{place}: no example below `# Examples`, or one that stands elsewhere or isn't"
                " ended"
            )
            for block in blocks:
                is_run = block.strip() and any("\n" + block in body for body in bodies)
                checks.check(
                    is_run,
                    f"{place}: an example stands in no test:\n{textwrap.indent(block, '    ')}",
                )
    assert checks.passed
