"""Designs with liveness assertions, and what Icarus says of them: the lassos of their runs."""
import collections
import functools
import re

import harness
from harness import TESTS

FAIR = TESTS / "fair"
LINE = re.compile(r"(state|free|live|fair|with|clocked): (.*)")
SIGNAL = re.compile(r"([\w.]+)(?:\[(\d+):0\])?")
ASSERTION = re.compile(
    r"(always @(\*|\(posedge clk\)) )?(if \(\w+\) )?\w+: (assert|assume) property \(.*\);"
)
# Prints what a design does in each state that its runs come to, with all values of its inputs: the
# state, the inputs, the condition and the signal of each assertion and of each assumption, and the
# next state.
BENCH = """module bench;
  reg clk = 0;
  {inputs}
  {design} #({parameters}) dut(.clk(clk), {ports});
  reg [{state_end}:0] first;
  reg [2**{state_count}-1:0] here, there, seen;
  integer from, value;

  task do_step;
    begin
      {{{state}}} = from;
      {{{free}}} = value;
      #1 $write("%b %b %b ", {{{state}}}, {{{free}}}, {{{asked}}});
      $write("%b %b %b ", {{{live}}}, {{{assumed}}}, {{{fair}}});
      clk = 1;
      #1 $display("%b", {{{state}}});
      there[{{{state}}}] = 1;
      clk = 0;
      #1;
    end
  endtask

  initial begin
    #1 first = {{{state}}};
    here = 0;
    here[first] = 1;
    seen = 0;
    while (here != 0) begin
      seen = seen | here;
      there = 0;
      for (from = 0; from < 2**{state_count}; from = from + 1)
        for (value = 0; here[from] && value < 2**{free_count}; value = value + 1) do_step;
      here = there & ~seen;
    end
    $display("first %b", first);
    $finish(0);
  end
endmodule
"""


class Design:
    """A design, the words of each kind of line of the table, and parameters with the names of what
    fails then."""

    def __init__(self, name, parts, given):
        self.name, self.parts = name, parts
        self.parameters, self.failing = (words.split() for words in given.split("|"))

    def words(self):
        """The words that ask aigprove about it."""
        return [
            *(word for it in self.parameters for word in ("--parameter", it)),
            str(FAIR / f"{self.name}.v"),
        ]

    def signals(self, kind):
        """The widths of registers or inputs by their names."""
        return {
            name: int(end or 0) + 1
            for words in self.parts[kind]
            for name, end in SIGNAL.findall(words)
        }

    def bits(self, kind):
        """The names of the bits of registers or inputs, as Icarus prints them."""
        signals = self.signals(kind).items()
        return [
            f"{name}[{i}]" if width > 1 else name
            for name, width in signals
            for i in reversed(range(width))
        ]

    def asked(self):
        """What is asserted by its name, and what is assumed: a condition and a signal."""

        def pair(words):
            return ("1 -> " + words).split(" -> ")[-2:]

        return {
            name: pair(it) for name, it in (words.split(": ", 1) for words in self.parts["live"])
        }, list(map(pair, self.parts["fair"]))

    def bench(self):
        """The module that has the design run."""
        inputs, (lives, fair) = self.signals("free"), self.asked()

        def joined(texts):
            return ", ".join(f"|({it})" for it in texts) or "1'b1"

        return BENCH.format(
            design=self.name,
            parameters=", ".join(".{}({})".format(*it.split("=")) for it in self.parameters),
            inputs=" ".join(f"reg [{width - 1}:0] {name};" for name, width in inputs.items()),
            ports=", ".join(f".{name}({name})" for name in inputs), free=", ".join(inputs),
            free_count=len(self.bits("free")),
            state=", ".join(f"dut.{name}" for name in self.signals("state")),
            state_count=len(self.bits("state")), state_end=len(self.bits("state")) - 1,
            asked=joined(it[0] for it in lives.values()),
            live=joined(it[1] for it in lives.values()), assumed=joined(it[0] for it in fair),
            fair=joined(it[1] for it in fair),
        )

    def graph(self, folder):
        """What Icarus prints of the design."""
        (folder / "bench.v").write_text(self.bench())
        (folder / "design.v").write_text(ASSERTION.sub("", (FAIR / f"{self.name}.v").read_text()))
        harness.output(
            [
                "iverilog", "-g2012", "-s", "bench", "-o", str(folder / "run"),
                str(folder / "bench.v"), str(folder / "design.v"),
            ]
        )
        *lines, (_, first) = map(
            str.split, harness.output(["vvp", "-n", str(folder / "run")]).splitlines()
        )
        return Graph(first, lines)


Step = collections.namedtuple("Step", "asked lives assumed fair next")


class Graph:
    """The first state of a design, and its steps by the state and the inputs: what is true in them,
    as texts of 0 and 1."""

    def __init__(self, first, lines):
        self.first, self.steps = first, {
            (state, value): Step(*further) for state, value, *further in lines
        }
        self.below = collections.defaultdict(set)
        for (state, _), step in self.steps.items():
            self.below[state].add(step)

    def failing(self, state, number):
        """The steps from a state in which an assertion's signal is false."""
        return [step for step in self.below[state] if step.lives[number] == "0"]

    def distances(self, number):
        """In how many steps each state is reached where an assertion waits: its condition was met,
        and its signal not true since."""
        found, left = {(self.first, False): 0}, [(self.first, False)]
        for state, waits in left:
            after = {
                (step.next, waits or step.asked[number] == "1")
                for step in self.failing(state, number)
            }
            after |= set() if waits else {(step.next, False) for step in self.below[state]}
            for node in after - found.keys():
                found[node] = found[state, waits] + 1
                left.append(node)
        return {state: count for (state, waits), count in found.items() if waits}

    def shortest(self, number):
        """The fewest steps of a lasso that shows that an assertion fails, in whose loop it waits;
        None where there is none."""
        best = None
        for start, before in self.distances(number).items():
            if best is None or before + 1 < best:
                count = self.loop(start, number, best and best - before)
                best = best if count is None else before + count
        return best

    def loop(self, start, number, most):
        """The fewest steps of such a loop at a state, fewer than so many, if a number is given."""
        left, seen, count = {(start, 0, 0)}, set(), 0
        while left and (most is None or count + 1 < most):
            count += 1
            left = {
                (step.next, assumed | int(step.assumed, 2), fair | int(step.fair, 2))
                for state, assumed, fair in left for step in self.failing(state, number)
            } - seen
            if any(state == start and assumed & ~fair == 0 for state, assumed, fair in left):
                return count
            seen |= left
        return None

    def shows(self, rows, begin, number):
        """Whether these inputs, of which those from a step on come again and again, show that an
        assertion fails."""
        stem, loop = self.run(self.first, rows[:begin]), []
        states = [stem[-1].next if stem else self.first]
        while len(set(states)) == len(states):
            loop.append(self.run(states[-1], rows[begin:]))
            states.append(loop[-1][-1].next)
        again = [step for round in loop[states.index(states[-1]):] for step in round]
        waits = False
        for step in [*stem, *sum(loop, [])]:
            waits = (waits or step.asked[number] == "1") and step.lives[number] == "0"
        assumed, fair = (
            functools.reduce(int.__or__, (int(getattr(step, it), 2) for step in again))
            for it in ("assumed", "fair")
        )
        return waits and all(step.lives[number] == "0" for step in again) and assumed & ~fair == 0

    def run(self, state, rows):
        """The steps from a state on by these inputs."""
        steps = []
        for value in rows:
            steps.append(self.steps[state, value])
            state = steps[-1].next
        return steps


def table():
    """The designs of the table, once for each line of parameters."""
    for text in (FAIR / "table.txt").read_text(encoding="utf-8").split("\n== ")[1:]:
        name, *lines = text.split("\n")
        parts = collections.defaultdict(list)
        for kind, words in (found.groups() for found in map(LINE.fullmatch, lines) if found):
            parts[kind].append(words)
        yield from (Design(name, parts, given) for given in parts["with"])


def columns(text, letter):
    """The places of inputs or latches by their names, as a file in text form has them."""
    return {name: int(place) for place, name in re.findall(rf"^{letter}(\d+) (.*)$", text, re.M)}


def inputs_of(design, rows, folder, bit):
    """The inputs of each step of a witness, as Icarus spells them, with this value for x."""
    places = columns(
        harness.output([harness.TOOL, "text", str(folder / "kept" / "lives.aig")]), "i"
    )
    return [
        "".join(
            row[places[name]] if name in places else "x" for name in design.bits("free")
        ).replace("x", bit)
        for row in rows
    ]
