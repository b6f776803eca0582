"""Rewrites the constructs of Verilog that yosys doesn't read: clocked properties, action blocks of
assertions, and system tasks that end the simulation or print something."""
from __future__ import annotations

import re
from collections.abc import Iterable, Iterator
from typing import NamedTuple

from aigprove.circuits.aiger import Fault
from aigprove.data import message
from aigprove.designs import properties
from aigprove.designs.statements import Blocks, closing
from aigprove.designs.texts import Text

# An assertion with an optional label, up to its opening parenthesis.
ASSERTION = rb"(?<![\w$.`\\'])(?:(?P<label>[A-Za-z_][\w$]*)\s*:\s*)?" \
    rb"(?P<kind>assert|assume|cover|restrict)\b(?:\s+(?P<what>property|sequence))?\s*(?=\()"
# System tasks without an effect on the design; `--stops` makes assertions of some.
TELLING = rb"\$(?:display|write|strobe|monitor|error|warning|info|fatal|stop|finish)\b"
CALL = re.compile(rb"\s*" + TELLING + rb"\s*")
ENDING = rb"(?<![\w$.`\\])\$(?:(?P<failing>fatal|stop)|error|warning|info|finish)\b\s*"
FOUND = re.compile(ASSERTION + rb"|" + ENDING)
IMPLICATION, NAME = re.compile(rb"\|[-=]>"), re.compile(rb"[A-Za-z_][\w$]*")
ELSE, BEGIN, END, SEMICOLON = (re.compile(rb"\s*" + sign)
                               for sign in [rb"else\b", rb"begin\b", rb"end\b", rb";"])
# The words behind which a single item may stand without `begin` and `end`.
ALONE = re.compile(rb"(?:[):]|\belse)\s*$")


class Edit(NamedTuple):
    """A replacement of the bytes from `start` to `end` of a text."""

    start: int
    end: int
    text: bytes


def call_end(words: bytes, place: int) -> int | None:
    """Returns the offset behind a call that only prints something, or None if there is none at
    `place`."""
    found = CALL.match(words, place)
    if not found:
        return None
    end = closing(words, found.end()) if words[found.end():found.end() + 1] == b"(" \
        else found.end()
    semicolon = SEMICOLON.match(words, end)
    return semicolon.end() if semicolon else None


def action_end(words: bytes, place: int) -> int | None:
    """Returns the offset behind one action of an assertion, or None if it does more than print
    something."""
    found = BEGIN.match(words, place)
    if not found:
        found = SEMICOLON.match(words, place)
        return found.end() if found else call_end(words, place)
    end = found.end()
    while own := call_end(words, end):
        end = own
    last = END.match(words, end)
    return last.end() if last else None


def actions_end(words: bytes, place: int) -> int | None:
    """Returns the offset behind the actions of an assertion, or None if they do more than print
    something."""
    if found := SEMICOLON.match(words, place):
        return found.end()
    passed = place if ELSE.match(words, place) else action_end(words, place)
    fails = ELSE.match(words, passed) if passed is not None else None
    return action_end(words, fails.end()) if fails else passed


class Rewriting:
    """A text and its edits. If `are_stops_failing`, `$stop` and `$fatal` become failing
    assertions."""

    def __init__(self, data: bytes, are_stops_failing: bool) -> None:
        self.text, self.are_stops_failing = Text(data), are_stops_failing
        self.words = self.text.words
        self.blocks, self.count = Blocks(self.words), 0
        self.names = set(NAME.findall(self.words))

    def edits(self) -> Iterator[Edit]:
        """Yields the edits, in order. Raises Fault if a construct isn't supported."""
        last = 0
        for found in FOUND.finditer(self.words):
            if found.start() >= last:
                edit = self.assertion(found) if found["kind"] else self.ending(found)
                if edit:
                    last = edit.end
                    yield edit

    def ending(self, found: re.Match[bytes]) -> Edit | None:
        """Returns the edit that replaces a system task in a procedural block, or None elsewhere."""
        end = call_end(self.words, found.start())
        if end is None or not self.blocks.at(found.start()):
            return None
        is_failing = found["failing"] and self.are_stops_failing
        return self.edit(found.start(), end, b"assert (0);" if is_failing else b";")

    def assertion(self, found: re.Match[bytes]) -> Edit | None:
        """Returns the edit of an assertion that yosys doesn't read, or None.

        Raises Fault if its action does something, or if it is a clocked property in a block."""
        end = closing(self.words, found.end())
        inner = self.words[found.end() + 1:end - 1]
        whole = actions_end(self.words, end)
        if whole is None:
            raise self.text.fault(found.start(), message("action"))
        if found["what"] and (b"@" in inner or IMPLICATION.search(inner)):
            if self.blocks.at(found.start()):
                raise self.text.fault(found.start(), message("property_in_block"))
            return self.edit(found.start(), whole, self.clocked(found, inner))
        if self.words[end:whole].strip() == b";":
            return None
        return self.edit(end, whole, b";")

    def clocked(self, found: re.Match[bytes], inner: bytes) -> bytes:
        """Returns the block that checks a clocked property, whose text is `inner`."""
        self.count += 1
        name = found["label"] or b"property_%d" % self.count
        while not self.names.isdisjoint([name + b"_now", name + b"_attempts"]):
            name += b"_"
        try:
            given = properties.parsed(inner)
            if found["kind"] == b"cover" and (given.is_later or IMPLICATION.search(inner)):
                raise Fault.of("covered_implication")
        except Fault as why:
            raise self.text.fault(found.start("kind"), str(why)) from None
        label = found["label"] + b": " if found["label"] else b""
        made = properties.Block(found["kind"], label, name, given).text()
        is_alone = ALONE.search(self.words[max(0, found.start() - 200):found.start()])
        return b"begin %s end" % made if given.length and is_alone else made

    def edit(self, start: int, end: int, made: bytes) -> Edit:
        """Returns an edit that keeps the numbers of the lines behind it."""
        return Edit(start, end, made + b"\n" * self.words.count(b"\n", start, end))


def replaced(data: bytes, edits: Iterable[Edit]) -> bytes:
    """Returns a text with its edits applied. They have to be sorted, and may not overlap."""
    parts, last = [], 0
    for edit in edits:
        parts += [data[last:edit.start], edit.text]
        last = edit.end
    return b"".join([*parts, data[last:]])


def rewritten(data: bytes, are_stops_failing: bool) -> bytes:
    """Returns a Verilog text in which yosys reads what the original means.

    If `are_stops_failing`, `$stop` and `$fatal` become failing assertions. Raises Fault if a
    construct isn't supported."""
    return replaced(data, Rewriting(data, are_stops_failing).edits())
