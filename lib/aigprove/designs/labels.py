"""Names the assertions in generate blocks.

Yosys keeps the hierarchical name of a net in a generate block, but not that of an assertion. So
each such assertion is rewritten to read a new net of its own block, whose value is 0. The cell that
yosys generates for the assertion then reads a net with a path, and the assertion gets its name from
that path."""
from __future__ import annotations

import bisect
import collections
import re
from collections.abc import Iterator, Mapping

from aigprove.designs.modules import ASSERTIONS
from aigprove.designs.rewriting import ALONE, Edit, actions_end, replaced
from aigprove.designs.rtlil import Statement
from aigprove.designs.statements import Blocks, Span, closing
from aigprove.designs.texts import Text

ASSERTION = re.compile(
    rb"(?<![\w$.`\\'])(?:(?P<label>[A-Za-z_][\w$]*)\s*:\s*)?(?P<kind>assert|assume|cover|restrict)"
    rb"\b(?:\s+property)?\s*(?=\()")
EVENTUALLY = re.compile(rb"\s*s_eventually\b")
# The words that begin and end a generate block, a case or a module.
DEPTH = re.compile(rb"(?<![\w$.`\\])(begin|end|case[xz]?|endcase|module|macromodule|endmodule)\b")
ATTRIBUTE = re.compile(rb"\*\)\s*$")
# MARK is the name of an assertion's net: a number and the assertion's label. PATH finds the path
# and the label in such a name.
MARK = b"aigprove_at_%d_%s"
PATH = re.compile(r"\\((?:.*\.)?)aigprove_at_[0-9]+_([\w$]*)")
# The assignment by which a process sets the value that an assertion checks.
CHECK = re.compile(r"\$[0-9]+(\$formal\$\S+_CHECK)\[0:0\]\$[0-9]+")
UNNAMED = "unnamed"


class Generated:
    """Finds out whether an offset of a text is in a generate block. Procedural blocks are
    skipped."""

    def __init__(self, words: bytes, blocks: Blocks) -> None:
        # `places` are the offsets behind each word of DEPTH. `states` say for each of them whether
        # a block is open behind it, and whether the innermost one is a case.
        self.words, self.places, self.states = words, [0], [(False, False)]
        above: list[bytes] = []
        for found in DEPTH.finditer(words):
            if blocks.at(found.start()):
                continue
            if found[1] in (b"end", b"endcase"):
                above = above[:-1]
            else:
                above = [] if b"module" in found[1] else [*above, found[1]]
            self.places.append(found.end())
            self.states.append((bool(above), above[-1:] not in ([], [b"begin"])))

    def at(self, place: int) -> tuple[bool, bool]:
        """Returns whether an offset is in a generate block, and whether it is directly in a case of
        one."""
        return self.states[bisect.bisect_right(self.places, place) - 1]


def marked(data: bytes) -> bytes:
    """Returns a Verilog text in which each assertion in a generate block reads a new net of that
    block."""
    words = Text(data).words
    blocks, count = Blocks(words), 0
    generated, alone = Generated(words, blocks), set[Span]()
    edits: list[Edit] = []
    for found in ASSERTION.finditer(words):
        end = closing(words, found.end())
        whole = blocks.at(found.start()) or Span(found.start(), actions_end(words, end) or end)
        behind = words[max(0, whole.start - 200):whole.start]
        is_inner, is_case = generated.at(whole.start)
        is_alone = ALONE.search(behind) is not None
        if (is_inner or is_alone) and not is_case and not ATTRIBUTE.search(behind):
            count += 1
            mark = MARK % (count, found["label"] or b"")
            if is_alone and whole not in alone:
                alone.add(whole)
                edits += [Edit(whole.start, whole.start, b"begin "),
                          Edit(whole.end, whole.end, b" end")]
            edits.append(Edit(whole.start, whole.start, b"wire %s = 1'b0; " % mark))
            edits += reading(found, words, end, mark)
    return replaced(data, sorted(edits, key=lambda edit: edit.start))


def reading(found: re.Match[bytes], words: bytes, end: int, mark: bytes) -> Iterator[Edit]:
    """Yields the edits that remove an assertion's label and make its condition read the net `mark`.

    `found` is the match of ASSERTION in `words`, and `end` the offset behind its closing
    parenthesis."""
    yield Edit(found.start(), found.start("kind"), b"")
    first = EVENTUALLY.match(words, found.end() + 1)
    start = first.end() if first else found.end() + 1
    yield Edit(start, start, b" (")
    yield Edit(end - 1, end - 1, b") || " + mark)


def paths_in(module: Statement) -> Mapping[str, tuple[str, str]]:
    """Returns the path and the label of each marked assertion of a module, by the net that the
    assertion reads.

    These nets are the outputs of cells that combine an assertion's condition with its marking net,
    and the nets to which processes assign such outputs."""
    found: dict[str, tuple[str, str]] = {}
    for cell in (it for it in module.of("cell") if it.type == "$logic_or"):
        ports = {port[0].name: signal for port, signal in
                 (it.signals() for it in cell.of("connect"))}
        if path := PATH.fullmatch(ports["\\B"][0].name):
            found[ports["\\Y"][0].name] = (path[1], path[2])
    for process in module.of("process") if found else []:
        for it in (own for own in process.all() if own.kind == "assign"):
            target, source = it.signals()
            check = CHECK.fullmatch(target[0].name) if len(target) == len(source) == 1 else None
            if check and source[0].name in found:
                found[check[1]] = found[source[0].name]
    return found


def named(design: Statement) -> None:
    """Renames the marked assertions of a design: to the path of their block and their label.

    If several assertions of a module would get the same name, each gets an index."""
    for module in design.of("module"):
        known, cells = paths_in(module), collections.defaultdict[str, list[Statement]](list)
        for cell in (it for it in module.of("cell") if it.type in ASSERTIONS):
            asked = next(it.signals()[1][0].name for it in cell.of("connect")
                         if it.text.startswith("\\A "))
            if asked in known:
                path, label = known[asked]
                cells[path + (label or UNNAMED)].append(cell)
        taken = {it.name for it in module.of("wire", "cell", "memory")}
        for name, own in cells.items():
            for i, cell in enumerate(own):
                new = f"\\{name}[{i}]" if len(own) > 1 else f"\\{name}"
                if new not in taken:
                    cell.text = f"{cell.type} {new}"
