"""Preprocessed Verilog texts: their modules, and the constructs in them that yosys silently
misreads, which are refused."""
import collections
import re
from collections.abc import Iterable, Iterator, Mapping

from aigprove.circuits.aiger import Fault, decoded
from aigprove.data import message

# What yosys prints around a preprocessed file.
EXPANDED = re.compile(rb"^-- Verilog code after preprocessor --\n(.*?)^-- END OF DUMP --$\n?",
                      re.MULTILINE | re.DOTALL)
MARKS = [b"-- Verilog code after preprocessor --", b"-- END OF DUMP --"]
# SPACE are comments and strings. WORD is a word or a directive.
SPACE = re.compile(
    rb'/\*\s*(?:synopsys|synthesis)\s+translate_off\s*\*/.*?'
    rb'/\*\s*(?:synopsys|synthesis)\s+translate_on\s*\*/'
    rb'|/\*(?!\s*(?:synopsys|synthesis)\s+translate_off\s*\*/).*?\*/'
    rb'|//[^\n]*|"(?:\\.|[^"\\\n])*"', re.DOTALL
)
PUSHED = re.compile(rb'^`file_push "(.*)"$|^`file_pop[^\n]*\n|\n', re.MULTILINE)
FOLDER = re.compile(rb'(`file_push "/proc/self/fd/)(\d+)')
WORD = re.compile(
    rb"`default_nettype[ \t]+\w+|`file_(?:push|pop)[^\n]*|`\w+|\\[^\s]+|[A-Za-z_$][\w$]*")
TYPED, INITIAL, BIND = (re.compile(rb"(?<![\w$.`])(%s)\b" % word)
                        for word in [b"typedef", b"initial", b"bind"])
# OFF is a comment behind which yosys reads nothing. Such comments of the text itself are disabled
# by replacing the underscore in them.
OFF, TRANSLATE, UNTRANSLATED = b"/* synthesis translate_off */", re.compile(
    rb"translate_(on|off)"), re.compile(rb"translate-(on|off)")
# PART are words that end a statement or a part of it. ALWAYS is `always` without an event control.
# BOUND is an instance that is bound to a module.
PART = re.compile(rb"\b(?:begin|end|else)\b|;")
ALWAYS = re.compile(rb"(?<![\w$.`])(always)\b(?!\s*@)")
BOUND = re.compile(rb"(?<![\w$.`])bind\s+([A-Za-z_][\w$]*)\s+([A-Za-z_\\][^;]*;)")
# The words that may follow an index of something that isn't a type.
OPERATORS = rb"(?!(?:or|and|inside|dist|iff|else|matches|with|end)\b)"


class Text:
    """A Verilog text. In `words`, blanks replace its comments and strings."""

    def __init__(self, text: bytes) -> None:
        self.text = text
        self.words = SPACE.sub(lambda found: re.sub(rb"[^\n]", b" ", found[0]), text)

    def place(self, offset: int) -> str:
        """Returns the file and the line of an offset, as FILE:LINE."""
        paths, lines = [""], [0]
        for found in PUSHED.finditer(self.text, 0, offset):
            if found[0] == b"\n":
                lines[-1] += 1
            elif found[1] is not None:
                paths.append(decoded(found[1]))
                lines.append(0)
            elif len(paths) > 1:
                paths.pop()
                lines.pop()
        return f"{paths[-1]}:{lines[-1]}"

    def fault(self, offset: int, why: str) -> Fault:
        """Returns the exception for an error at an offset."""
        return Fault.of("of_file", path=self.place(offset), why=why)

    def check(self, below: Iterable[str]) -> None:
        """Raises Fault for a construct that yosys silently misreads, in one of the modules `below`
        or outside of all modules."""
        for offset, why in sorted(self.misread()):
            if self.module(offset) in {None, *below}:
                raise self.fault(offset, why)

    def misread(self) -> Iterator[tuple[int, str]]:
        """Yields the offsets of constructs that yosys silently misreads, with the message about
        each."""
        for found in INITIAL.finditer(self.words):
            if b"#" in self.words[found.end():self.ending(found.end())]:
                yield found.start(1), message("delay")
        yield from ((found.start(1), message("endless_always"))
                    for found in ALWAYS.finditer(self.words))
        # Behind an unclosed comment yosys reads nothing, not even what aigprove appends.
        yield from ((found.start(), message("open_comment"))
                    for found in re.finditer(rb"/\*", self.words))
        if names := set(self.types()):
            dimensions = rb"(?<![\w$.`])(%s)\s*(?:\[[^][]*\]\s*)+%s[A-Za-z_\\]" % (
                b"|".join(map(re.escape, names)), OPERATORS)
            yield from ((found.start(1), message("dimensions"))
                        for found in re.finditer(dimensions, self.words))

    def module(self, offset: int) -> str | None:
        """Returns the name of the module at an offset, or None outside of all modules."""
        return next((name for name, first, end, _ in self.spans() if first <= offset < end), None)

    def ending(self, offset: int) -> int:
        """Returns the offset behind the statement that begins at an offset."""
        depth = 0
        for found in PART.finditer(self.words, offset):
            depth += {b"begin": 1, b"end": -1}.get(found[0], 0)
            is_whole = depth == 0 and found[0] in (b";", b"end")
            if is_whole and not re.match(rb"\s*(?::\s*\w+\s*)?else\b",
                                         self.words[found.end():found.end() + 200]):
                return found.end()
        return len(self.words)

    def types(self) -> Iterator[bytes]:
        """Yields the names of the types that the text declares."""
        for found in TYPED.finditer(self.words):
            depth, place = 0, found.end()
            while place < len(self.words) and (depth or self.words[place:place + 1] != b";"):
                depth += {b"{": 1, b"}": -1}.get(self.words[place:place + 1], 0)
                place += 1
            yield from re.findall(rb"[A-Za-z_][\w$]*", self.words[found.end():place])[-1:]

    def spans(self) -> Iterator[tuple[str, int, int, bool]]:
        """Yields for each module its name, the offsets where it begins and of its last word, and
        whether implicit nets are allowed in it."""
        name, first, is_next, is_allowed = None, 0, False, True
        for found in WORD.finditer(self.words):
            word = found[0]
            if word.startswith(b"`default_nettype"):
                is_allowed = not word.endswith(b"none")
            elif word in (b"module", b"macromodule"):
                is_next, first = True, found.start()
            elif is_next and not word.startswith(b"`") and word not in (b"automatic", b"static"):
                name, is_next = decoded(word.lstrip(b"\\")), False
            elif word == b"endmodule" and name is not None:
                yield name, first, found.start(), is_allowed

    def with_lines(self, lines: Mapping[str, bytes]) -> bytes:
        """Returns the text with lines inserted at the end of each module, given by the module's
        name."""
        parts, last = [], 0
        for module, _, end, _ in self.spans():
            parts += [self.text[last:end], lines.get(module, b"")]
            last = end
        return b"".join([*parts, self.text[last:]])

    def without_bound(self, lines: dict[str, bytes]) -> bytes:
        """Returns the text without the instances that it binds to modules. They are appended to
        `lines` of their modules."""

        def blank(found: re.Match[bytes]) -> bytes:
            own = self.text[found.start(2):found.end(2)]
            lines[found[1].decode()] += b" ".join(own.split()) + b" "
            return re.sub(rb"[^\n]", b" ", found[0])

        parts, last = [], 0
        for found in BOUND.finditer(self.words):
            parts += [self.text[last:found.start()], blank(found)]
            last = found.end()
        return b"".join([*parts, self.text[last:]])


def expanded(data: bytes) -> list[bytes]:
    """Returns the preprocessed texts of the files. `data` is what yosys printed.

    Raises Fault if a text has a line that yosys prints around texts."""
    texts = EXPANDED.findall(data)
    if any(data.count(mark) != len(texts) for mark in MARKS):
        raise Fault.of("dump_line", line=MARKS[-1].decode())
    return texts


def unread(text: bytes) -> bytes:
    """Returns a text that yosys preprocesses but doesn't read: it is behind a comment that disables
    reading."""
    return OFF + TRANSLATE.sub(rb"translate-\1", text)


def read_again(text: bytes) -> bytes:
    """Returns a preprocessed text of `unread` in which reading is enabled again."""
    return UNTRANSLATED.sub(rb"translate_\1", text.replace(OFF, b"", 1))


def bound(texts: Mapping[str, bytes]) -> dict[str, bytes]:
    """Returns texts in which bound instances stand in their modules, by the files' paths.

    Raises Fault if `bind` is used in another way, or names another module."""
    lines = collections.defaultdict[str, bytes](bytes)
    without = {path: Text(Text(text).without_bound(lines)) for path, text in texts.items()}
    for text in without.values():
        if found := BIND.search(text.words):
            raise text.fault(found.start(1), message("bind"))
    known = {name for text in without.values() for name, *_ in text.spans()}
    for name in lines.keys() - known:
        raise Fault.of("of_file", path=name, why=message("bind"))
    return {path: text.with_lines(lines) for path, text in without.items()}


def moved(text: bytes, before: Iterable[int], now: Iterable[int]) -> bytes:
    """Returns a text in which the descriptors `before` of folders are replaced by those of
    `now`."""
    numbers = dict(zip(before, now))
    return FOLDER.sub(lambda found: found[1] + b"%d" % numbers.get(int(found[2]), int(found[2])),
                      text)
