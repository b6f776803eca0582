"""Splits the blocks of a page into commands, and compares their output with the page.

Engines take turns, so the output of aigprove is compared without the lines about single steps.
Numbers that depend on time aren't compared either: the step up to which assumptions can be met, and
the seconds of a table. A line `...` stands for any lines."""
from __future__ import annotations

import re
from collections.abc import Iterator

LANGUAGES = ["verilog", "systemverilog", "c", "cpp", "python", "rust", "text"]
BLOCK = re.compile(
    rf"^```(console|{'|'.join(LANGUAGES)})([^\n]*)\n(.*?)^```$", re.DOTALL | re.MULTILINE
)
PASSING = re.compile(
    r"^(?:live: |miter: )?no bad state (?:at|up to|at any step, if none up to) step \d+\n",
    re.MULTILINE,
)
TIMED = re.compile(
    r"(can be met up to step|^b0 at step) \d+$|(?<=  )\d+\.\d$|(\"seconds\": )[\d.]+", re.MULTILINE
)


def commands(block: str) -> Iterator[tuple[str, str]]:
    """Yields each command of a block, and its output. A command begins after `$ `, and continues
    after `> `."""
    for part in re.split(r"^\$ ", block, flags=re.MULTILINE)[1:]:
        lines = part.splitlines(keepends=True)
        count = 1
        while count < len(lines) and lines[count].startswith("> "):
            count += 1
        yield lines[0] + "".join(line[2:] for line in lines[1:count]), "".join(lines[count:])


def settled(text: str) -> str:
    """Returns an output without the parts that depend on time."""
    return TIMED.sub(lambda found: found[1] or found[2] or "", PASSING.sub("", text))


def is_as_shown(shown: str, printed: str) -> bool:
    """Returns whether the page shows the printed output, if a line `...` stands for any lines."""
    parts = [re.escape(part) for part in re.split(r"^\.\.\.\n", settled(shown), flags=re.MULTILINE)]
    return re.fullmatch("(?:.*\n)*".join(parts), settled(printed)) is not None
