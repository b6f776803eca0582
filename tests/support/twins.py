"""Designs in Verilog and their twins, in which all that a design leaves open is a first state or a
free value of each step."""
import dataclasses
import random
import re

import harness
from harness import PROVE, TESTS

TABLE, SEARCH = TESTS / "twins" / "table.txt", TESTS / "twins" / "search.v"
# How far a search goes: no twin has as many states.
STEPS = 4095
# In how many steps it is looked whether what is assumed can be met.
MET = 32
# How many seconds Icarus may take, beside whatever else runs.
SECONDS = 10 * harness.SECONDS
UNMET = re.compile("the assumptions can't be met from step ([0-9]+) on: the answer is empty")
PART = re.compile(r"(state|free|first|next|also|ok|bad|refused): (.*)")
SIGNAL = re.compile(r"(\w+)(?:\[(\d+):0\])?")
# A value in a printed run: of a bit, or of a word in hexadecimal, or in base two where some bits
# don't matter; and several steps in a line.
VALUE = re.compile(r"(?<!\S)(\w+)(?:\[(\d+)\])?=(?:([01-])|\d+'h([0-9a-f]+)|\d+'b([01-]+))(?!\S)")
STEPS_LINE = re.compile(r"steps (\d+) to (\d+):")
TWIN = """module twin(input clk, input [{free_end}:0] free);
  {registers}
  {wires}
  assign {{{free_names}}} = free;
  {also}
  always @(posedge clk) begin
    {next}
  end
  wire bad = {bad};
  wire ok = {ok};
  wire first = {first};
  wire [{state_end}:0] now = {{{state_names}}};
  task load(input [{state_end}:0] value); {{{state_names}}} = value; endtask
endmodule
"""


@dataclasses.dataclass
class Design:
    """A design, and the parts of its twin."""

    name: str
    text: str
    parts: dict

    def signals(self, part):
        """The widths of the registers ("state") or of the free values by their names: one that
        nothing reads, where there are none."""
        found = SIGNAL.findall(self.parts.get(part, f"no_{part}"))
        return {name: int(end or 0) + 1 for name, end in found}

    def bits(self, part):
        return sum(self.signals(part).values())

    def twin(self):
        """The twin as a module."""
        words = {"first": "1", "next": "", "also": "", "ok": "1", **self.parts}
        for part, kind, declared in [("state", "reg", "registers"), ("free", "wire", "wires")]:
            signals = self.signals(part)
            words[declared] = " ".join(
                f"{kind} [{width - 1}:0] {name};" for name, width in signals.items()
            )
            words[f"{part}_names"], words[f"{part}_end"] = ", ".join(signals), self.bits(part) - 1
        return TWIN.format(**words)

    def pattern(self, part, printed):
        """The bits of all registers or free values, the highest of the first signal first, as
        printed values have them; else x. What is printed as one that doesn't matter is drawn."""
        bits = {
            (name, i): "x"
            for name, width in self.signals(part).items()
            for i in reversed(range(width))
        }
        rng = random.Random(printed)
        for name, place, bit, digits, base_two in VALUE.findall(printed):
            low, width = int(place or 0), 1 if place else self.signals(part).get(name, 0)
            spelled = (
                f"{int(digits, 16):0{width}b}"
                if digits
                else (base_two or bit * width).rjust(width, "0")
            )
            for i, value in enumerate(reversed(spelled)):
                if (name, low + i) in bits:
                    bits[name, low + i] = rng.choice("01") if value == "-" else value
        return "".join(bits.values())

    def first_bad(self, folder, held=None):
        """What Icarus says of the twin: its first bad step, or that there is none; of runs that are
        held to printed lines, if any."""
        return self.searched(folder, held)[0]

    def first_unmet(self, folder):
        """The step from which on no run meets what is assumed, as Icarus says, if it is one of the
        first."""
        never_bad = dataclasses.replace(self, parts={**self.parts, "bad": "0"})
        states = int(never_bad.searched(folder, [""] * (MET + 2))[1].split(" ")[0])
        return max(states - 1, 0) if states <= MET else None

    def searched(self, folder, held):
        """The lines that Icarus prints of the twin; of runs that are held to printed lines, if
        any. It has to come to an end."""
        steps = len(held) - 2 if held else STEPS
        if held:
            (folder / "first").write_text(self.pattern("state", held[0]))
            (folder / "steps").write_text(
                "\n".join(self.pattern("free", line) for line in held[1:])
            )
        (folder / "twin.v").write_text(self.twin())
        macros = {
            "STATE": self.bits("state"),
            "FREE": self.bits("free"),
            "STEPS": steps,
            "HELD": int(bool(held)),
        }
        defined = [f"-D{name}={value}" for name, value in macros.items()]
        words = ["iverilog", "-g2012", *defined, "-o", "search", SEARCH, "twin.v"]
        harness.output(words, cwd=folder, timeout=SECONDS)
        return harness.output(["vvp", "-n", "search"], cwd=folder, timeout=SECONDS).split("\n")

    def faults(self, folder):
        """What is wrong of aigprove's answer about the design."""
        (folder / "design.v").write_text(self.text)
        wanted = "refused" if "refused" in self.parts else self.first_bad(folder)
        # Where there is no bad step to be the first, there are engines that find that out sooner;
        # else one that may find a later step is none.
        words = [
            "--engine",
            (
                "steps,windows,pdr"
                if wanted == "never"
                else "steps" if wanted.startswith("step ") else "steps,windows"
            ),
            "--jobs", "1", "--timeout", "60",
        ]
        if wanted == "never" and (unmet := self.first_unmet(folder)) is not None:
            wanted = f"nothing from step {unmet} on"
        status, printed, said = harness.run(
            [PROVE, *words, "--witness", "witness", "design.v"], cwd=folder
        )
        lines, said = printed.decode().splitlines(), said.decode()
        given = answered(status, lines, said)
        if wanted != given:
            return [f"Icarus: {wanted}; aigprove: {given}, and it says {said!r}"]
        return list(self.run_faults(folder, wanted, lines)) if status == 10 else []

    def run_faults(self, folder, wanted, lines):
        """What is wrong of a printed run to the wanted step, and of the witness that was written of
        it."""
        held = list(spread(lines))
        steps = (folder / "witness").read_text().split("\n")[3:-2]
        if len(steps) != len(held) - 1 or f"step {len(held) - 2}" != wanted:
            yield f"{wanted} is reached by {held}, and a witness of {len(steps)} steps"
        elif (found := self.first_bad(folder, held)) != wanted:
            yield f"{held} is no run of the twin to {wanted}, where Icarus says {found}"


def spread(lines):
    """The lines of a run, with one for each of several steps that are told in one."""
    for line in lines:
        found = STEPS_LINE.match(line)
        steps = range(int(found[1]), int(found[2]) + 1) if found else []
        yield from (f"step {t}:{line[found.end():]}" for t in steps)
        yield from [line] * line.startswith(("start:", "step "))


def answered(status, lines, said):
    """The first bad step that aigprove prints, that there is none, that no run meets what is
    assumed from some step on, or that it refuses a design; else all that it says."""
    found = [
        line.removeprefix("a bad state at ").split(":")[0]
        for line in lines
        if line.startswith("a bad state at ")
    ]
    if status == 10 and len(found) == 1:
        return found[0]
    *_, before, last = ["", "", *lines]
    if status == 20 and "no bad state at any step" == (
        before if last.startswith("the assumptions can be met up to step ") else last
    ):
        return "never"
    if status == 0 and before == "no bad state at any step" and (unmet := UNMET.fullmatch(last)):
        return f"nothing from step {unmet[1]} on"
    return (
        "refused"
        if status == 1 and not lines and said.startswith("aigprove: ")
        else f"status {status}: {lines}"
    )


def table():
    """The designs of the table."""
    for text in TABLE.read_text(encoding="utf-8").split("\n== ")[1:]:
        name, *lines = text.split("\n")
        parts = {}
        for part, words in (found.groups() for found in map(PART.fullmatch, lines) if found):
            parts[part] = f"{parts[part]}\n    {words}" if part in parts else words
        yield Design(name, "\n".join(line for line in lines if not PART.fullmatch(line)), parts)
