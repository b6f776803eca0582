"""Designs with many properties, and what Icarus says of each by its twin."""
import re

from harness import TESTS
from twins import Design

TABLE = TESTS / "each" / "table.txt"
LINE = re.compile(r"(register|input|also|next|assume|assert|cover|hard|unmet): (.*)")
# Properties that nobody decides in time: lines of the design, and what holds. A register goes
# through nearly all of its 2^48 values, and isn't at this one in the first three million steps; and
# one goes on by an odd number, so that it is at this product first after so many.
STRIDE, STEPS = 0x9E3779B97F4B, 0x123456789ABC
HARD = {
    "walk": (
        "reg [47:0] w = 1; always @(posedge clk) w <= {w[46:0], w[47] ^ w[46] ^ w[20] ^ w[19]};",
        "w != 48'hdeadbeefcafe",
    ),
    "stride": (
        f"reg [47:0] w = 0; always @(posedge clk) w <= w + 48'd{STRIDE};",
        f"w != 48'd{STRIDE * STEPS % (1 << 48)}",
    ),
}


class Many:
    """A design with many properties, its name and the words of each kind of line."""

    def __init__(self, name, lines):
        self.name, self.parts = name, {}
        for kind, words in (found.groups() for found in map(LINE.fullmatch, lines) if found):
            self.parts.setdefault(kind, []).append(words)

    def of(self, kind):
        return self.parts.get(kind, [])

    def properties(self, kind):
        """The names and the conditions of assertions or covers."""
        return [line.split(": ", 1) for line in self.of(kind)]

    def registers(self):
        """The signal and the first value of each register, which may be open."""
        return [(line.split(" = ") + [""])[:2] for line in self.of("register")]

    def text(self, is_hard=True):
        """The design in Verilog, with its hard property or without."""
        lines, holds = HARD[self.of("hard")[0]] if is_hard else ("", "1")

        def width(signal):
            return "{1} {0}".format(
                *re.fullmatch(r"(\w+)(\[.*\])?", signal).groups(default="")
            )

        inputs = "".join(f", input {width(it)}" for line in self.of("input") for it in line.split())
        registers = [
            f"reg {width(signal)}{f' = {first}' * bool(first)};"
            for signal, first in self.registers()
        ]
        asserts = [
            f"always @* {name}: assert ({condition});"
            for name, condition in self.properties("assert")
        ]
        covers = [
            f"always @* {name}: cover ({condition});"
            for name, condition in self.properties("cover")
        ]
        assumes = [f"always @* assume ({condition});" for condition in self.of("assume")]
        body = [
            *registers, *self.of("also"), "always @(posedge clk) begin", *self.of("next"), "end",
            lines,
        ]
        hard = f"always @* hard: assert ({holds});" * is_hard
        return "\n".join(
            [
                f"module {self.name}(input clk{inputs});", *body, *assumes, *asserts, hard, *covers,
                "endmodule", "",
            ]
        )

    def twin(self, bad):
        """The twin, in which this is bad."""
        named = [(signal.partition("[")[0], first) for signal, first in self.registers()]
        parts = {
            "state": " ".join(signal for signal, _ in self.registers()),
            "free": " ".join(self.of("input")),
            "first": " && ".join(f"{name} == {first}" for name, first in named if first) or "1",
            "also": "\n".join(self.of("also")),
            "next": "\n".join(self.of("next")),
            "ok": " && ".join(f"({it})" for it in self.of("assume")) or "1",
            "bad": bad,
        }
        return Design(self.name, "", parts)

    def wanted(self, folder):
        """The answer to each property by its name, as Icarus has it."""
        found = {}
        for kind, answers in [
            ("assert", ["holds", "fails at {}"]),
            ("cover", ["can't be covered", "covered at {}"]),
        ]:
            for name, condition in self.properties(kind):
                here = folder / name
                here.mkdir()
                first = self.twin(f"!({condition})" if kind == "assert" else condition).first_bad(
                    here
                )
                empty = " (empty)" * bool(self.of("unmet"))
                found[f"{self.name}.{name}"] = (
                    answers[0] + empty if first == "never" else answers[1].format(first)
                )
        return found


def designs():
    """The designs of the table."""
    for text in TABLE.read_text(encoding="utf-8").split("\n== ")[1:]:
        name, *lines = text.split("\n")
        yield Many(name, lines)
