"""Finds incomplete sensitivity lists of combinational blocks.

Yosys evaluates such a block whenever a signal that it reads changes, and a simulator only when a
signal in its list changes."""
import re
from collections.abc import Collection, Iterator, Mapping

from aigprove.circuits.aiger import decoded
from aigprove.data import message
from aigprove.designs.statements import Blocks
from aigprove.designs.texts import Text

LIST = re.compile(rb"(?<![\w$.`])always\s*@\s*\(([^()*]*)\)")
EDGE = re.compile(rb"\b(?:pos|neg)edge\b")
NAME = re.compile(rb"(?<![\w$.`'\\])[A-Za-z_][\w$]*")
# The target of an assignment.
ASSIGNED = re.compile(rb"(?:[;):]|\bbegin|\belse)\s*([A-Za-z_][\w$]*)\s*(?:\[[^]]*\]\s*)*<?=(?!=)")


def lacking(text: Text, nets: Mapping[str, Collection[str]]) -> Iterator[tuple[int, str]]:
    """Yields the offsets of blocks that read nets which aren't in their sensitivity lists, with a
    note about each.

    `nets` has the names of each module's nets."""
    found = [it for it in LIST.finditer(text.words) if not EDGE.search(it[1])]
    blocks, spans = Blocks(text.words if found else b""), text.spans() if found else iter(())
    module, end = "", 0
    for it in found:
        while it.start() >= end:
            module, _, end, _ = next(spans, ("", 0, len(text.words), True))
        if block := blocks.at(it.start()):
            body = text.words[it.end() - 1:block.end]
            own = set(NAME.findall(body)) - set(ASSIGNED.findall(body)) - set(NAME.findall(it[1]))
            names = sorted(name for name in map(decoded, own) if name in nets.get(module, ()))
            if names:
                listed = " ".join(decoded(it[1]).split())
                yield it.start(), message("sensitivity", listed=listed, names=", ".join(names))
