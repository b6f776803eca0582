"""Finds the procedural blocks in a Verilog text whose comments and strings are blanked."""
import bisect
import re
from collections.abc import Iterator, Sequence
from typing import NamedTuple

TOKEN = re.compile(rb"\\\S+|`\w+|[A-Za-z_$][\w$]*|[();]")
OPENING = {b"begin", b"case", b"casex", b"casez", b"fork", b"("}
CLOSING = {b"end", b"endcase", b"join", b"join_any", b"join_none", b")"}
# ENDING ends a statement outside of nested blocks. ELSE continues one.
ENDING = {b";", *CLOSING - {b")"}}
PARENTHESIS = re.compile(rb"[()]")
ELSE = re.compile(rb"\s*(?::\s*[\w$]+\s*)?else\b")
# RUN are the words in front of a procedural statement. CALLED are functions and tasks with the
# words that end them, unless they are only declared, behind a word of DECLARING.
RUN = {b"always", b"always_comb", b"always_ff", b"always_latch", b"initial", b"final"}
CALLED = {b"function": b"endfunction", b"task": b"endtask"}
DECLARING = {b"import", b"export", b"extern", b"pure", b"context"}


class Span(NamedTuple):
    """The offsets where something begins and ends."""

    start: int
    end: int


def closing(words: bytes, start: int) -> int:
    """Returns the offset behind the parenthesis that closes the first one at or behind `start`."""
    depth = 0
    for found in PARENTHESIS.finditer(words, start):
        depth += 1 if found[0] == b"(" else -1
        if not depth:
            return found.end()
    return len(words)


def blocks(words: bytes) -> Iterator[Span]:
    """Yields the spans of procedural blocks, functions and tasks."""
    start, depth, ifs, last, before, is_declared = -1, 0, 0, b"", b"", False
    for token in TOKEN.finditer(words):
        word, is_end = token[0], False
        if start < 0:
            if word in RUN or word in CALLED and not is_declared:
                start, depth, ifs, last = token.start(), 0, 0, CALLED.get(word, b"")
        elif last:
            is_end = word == last
        else:
            depth += (word in OPENING) - (word in CLOSING)
            if not depth:
                # An `else` behind a closing parenthesis may be the action of an assertion.
                ifs += (word == b"if") - (word == b"else" and before != b")")
                is_end = word in ENDING and not (ifs and ELSE.match(words, token.end()))
        if is_end:
            yield Span(start, token.end())
            start = -1
        is_declared = word in DECLARING or is_declared and word != b";"
        before = word


class Blocks:
    """The procedural blocks of a text."""

    def __init__(self, words: bytes) -> None:
        self.spans: Sequence[Span] = list(blocks(words))
        self.starts = [it.start for it in self.spans]

    def at(self, place: int) -> Span | None:
        """Returns the block that contains an offset, or None."""
        i = bisect.bisect_right(self.starts, place) - 1
        return self.spans[i] if i >= 0 and place < self.spans[i].end else None
