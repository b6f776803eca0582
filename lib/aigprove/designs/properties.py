"""Rewrites clocked properties, which yosys doesn't read, as procedural blocks.

Each clock edge begins an attempt to match the property. An expression behind a delay is checked
that many edges later. A shift register has a bit for each attempt under way, whose position says
how far the attempt has come."""
from __future__ import annotations

import re
from collections.abc import Iterable, Iterator, Sequence
from typing import NamedTuple

from aigprove.circuits.aiger import Fault
from aigprove.data import message
from aigprove.designs.statements import closing

CLOCK = re.compile(rb"\s*@\s*\(\s*((?:pos|neg)edge\s+(?:\\\S+\s|[\w$.]+))\s*\)")
DISABLE = re.compile(rb"\s*disable\s+iff\s*(?=\()")
EVENTUALLY = re.compile(rb"\s*s_eventually\b")
# PART are the operators between the parts of a property, and brackets. DELAY is a delay. OPERATOR
# is what can't be part of an expression.
PART = re.compile(rb"\|->|\|=>|##|[][(){}]")
DELAY = re.compile(rb"##\s*([0-9]+)\b")
OPERATOR = re.compile(
    rb"##|\|->|\|=>|#-#|#=#|\[\s*(?:\*|=|->|\+\])|@|\b(?:throughout|within|intersect|first_match"
    rb"|and|or|not|iff|implies|(?:s_)?(?:until(?:_with)?|nexttime|always|eventually)|strong|weak"
    rb"|(?:sync_)?(?:accept|reject)_on|if|else|case|disable)\b")
IMPLYING = {b"|->": 0, b"|=>": 1}
# The greatest number of edges between the beginning and the end of an attempt.
LONGEST = 4096


class Item(NamedTuple):
    """An expression of a property.

    It is checked `edge` edges after the attempt begins. If `is_wanted`, it has to be true then;
    otherwise it is part of the antecedent."""

    edge: int
    text: bytes
    is_wanted: bool


class Property(NamedTuple):
    """A clocked property: the clock edge, the condition that disables it, and its items.

    If `is_later`, the last item has to be true then or at any later step."""

    clock: bytes
    disable: bytes
    items: Sequence[Item]
    is_later: bool

    @property
    def length(self) -> int:
        """The number of edges between the beginning and the end of an attempt."""
        return max(item.edge for item in self.items)


def is_whole(words: bytes) -> bool:
    """Returns whether a text is enclosed in one pair of parentheses."""
    return words.startswith(b"(") and closing(words, 0) == len(words)


def parts_of(words: bytes) -> Iterator[tuple[bytes, int]]:
    """Yields the operators between the parts of a property, outside of brackets, with their
    offsets."""
    depth = 0
    for found in PART.finditer(words):
        if found[0] in (b"|->", b"|=>", b"##"):
            if not depth:
                yield found[0], found.start()
        else:
            depth += 1 if found[0] in b"([{" else -1


def plain(words: bytes) -> bytes:
    """Returns a text in one line. Outer parentheses are removed, unless they enclose an
    expression."""
    words = b" ".join(words.split())
    while is_whole(words) and OPERATOR.search(words):
        words = words[1:-1].strip()
    return words


def sequence(words: bytes, edge: int, is_wanted: bool) -> Iterator[Item]:
    """Yields the items of a sequence that begins `edge` edges after the attempt.

    Raises Fault if the sequence has another operator than a delay by a number."""
    words, last = plain(words), 0
    for _, place in parts_of(words):
        delay = DELAY.match(words, place)
        if not delay:
            raise Fault.of("no_property", what=message("delay_range"))
        if words[last:place].strip() or last:
            yield item(words[last:place], edge, is_wanted)
        edge, last = edge + int(delay[1]), delay.end()
    yield item(words[last:], edge, is_wanted)


def item(words: bytes, edge: int, is_wanted: bool) -> Item:
    """Returns an item whose text is an expression. Raises Fault if it isn't one, or if `edge` is
    too large."""
    if edge > LONGEST:
        raise Fault.of("long_property", most=LONGEST)
    if found := OPERATOR.search(words):
        raise Fault.of("no_property", what=found[0].decode())
    if not words.strip():
        raise Fault.of("no_expression")
    return Item(edge, words.strip(), is_wanted)


def parsed(words: bytes) -> Property:
    """Returns the property that a text describes. Comments have to be blanked.

    Raises Fault if the property has no clock, or a construct that isn't supported."""
    clock = CLOCK.match(words)
    if not clock:
        raise Fault.of("no_clock")
    place, disable = clock.end(), b""
    if found := DISABLE.match(words, place):
        place = closing(words, found.end())
        disable = b" ".join(words[found.end() + 1:place - 1].split())
    body = plain(words[place:])
    signs = [(sign, at) for sign, at in parts_of(body) if sign in IMPLYING]
    if len(signs) > 1:
        raise Fault.of("two_implications")
    given: list[Item] = []
    edge, wanted = 0, body
    for sign, at in signs:
        given = list(sequence(body[:at], 0, False))
        edge, wanted = given[-1].edge + IMPLYING[sign], plain(body[at + len(sign):])
    later = EVENTUALLY.match(wanted)
    items = [*given, *([item(wanted[later.end():], edge, True)] if later
                       else sequence(wanted, edge, True))]
    return Property(b" ".join(clock[1].split()), disable, items, later is not None)


def all_of(texts: Iterable[bytes]) -> bytes:
    """Returns an expression that is true if all the given ones are."""
    return b" && ".join([b"1'b1", *texts])


class Block:
    """The Verilog block that checks a property.

    `kind` is assert, assume or cover, and `label` is empty or ends with a colon. The names of its
    registers begin with `name`. Each expression occurs once, so that an undefined one has one value
    in the whole block."""

    def __init__(self, kind: bytes, label: bytes, name: bytes, given: Property) -> None:
        self.kind, self.label, self.given = kind, label, given
        self.now, self.attempts = name + b"_now", name + b"_attempts"
        self.texts = [it.text for it in given.items] + [given.disable] * bool(given.disable)
        self.wanted_at = sorted({it.edge for it in given.items if it.is_wanted})

    def value(self, i: int) -> bytes:
        """Returns an expression for the value of the item at this index; the index behind the last
        item is the disable condition."""
        return b"%s[%d]" % (self.now, i) if self.given.length else b"(%s)" % self.texts[i]

    def values(self, edge: int, is_wanted: bool) -> list[bytes]:
        """Returns the values of the items that are checked `edge` edges after the beginning."""
        return [self.value(i) for i, it in enumerate(self.given.items)
                if (it.edge, it.is_wanted) == (edge, is_wanted)]

    def asked(self, edge: int) -> list[bytes]:
        """Returns the conditions under which an attempt needs its wanted items to be true at an
        edge."""
        under_way = [b"%s[%d]" % (self.attempts, edge - 1)] if edge else []
        return under_way + self.values(edge, False)

    def passed(self, edge: int) -> bytes:
        """Returns the condition under which an attempt continues behind an edge, or is complete."""
        return all_of(self.asked(edge) + self.values(edge, True))

    def claim(self) -> bytes:
        """Returns the assertion, assumption or cover statement."""
        last = self.given.length
        if self.kind == b"cover":
            return b"%scover (%s);" % (self.label, self.passed(last))
        if self.given.is_later:
            off = b" || " + self.value(len(self.given.items)) if self.given.disable else b""
            return b"if (%s) %s%s property (s_eventually %s%s);" % (
                all_of(self.asked(last)), self.label, self.kind, self.values(last, True)[0], off)
        return b"%s%s (%s);" % (self.label, self.kind, all_of(
            b"(!(%s) || %s)" % (all_of(self.asked(edge)), all_of(self.values(edge, True)))
            for edge in self.wanted_at))

    def text(self) -> bytes:
        """Returns the text of the block and its registers."""
        off, length = self.value(len(self.given.items)) if self.given.disable else b"0", \
            self.given.length
        claim = (b"if (!%s) " % off if self.given.disable else b"") + self.claim()
        if not length:
            return b"always @(%s) %s" % (self.given.clock, claim)
        now = b", ".join(all_of([b"(%s)" % text]) for text in reversed(self.texts))
        going = b", ".join(self.passed(edge) for edge in reversed(range(length)))
        return b"reg [%d:0] %s = 0; reg [%d:0] %s; always @(%s) begin %s = {%s}; " \
            b"%s <= %s ? 0 : {%s}; %s end" % (
                length - 1, self.attempts, len(self.texts) - 1, self.now, self.given.clock,
                self.now, now, self.attempts, off, going, claim)
