"""Compares model checks of small machines.

For the examples and for random files, with constraints, resets of all three kinds, several bad
states and odd names: each answer of bin/aigprove, by each engine alone and by all together, is that
of a search over all states, and that of ABC's bmc3 and pdr; where none is reached, it says from
which step on the constraints can't be met, if there is one. What it prints is the witness that it
writes, by names that tell signals apart, and what it keeps is shown again by check.sh. `aigcheck
run` takes that witness and ABC's counterexamples, and takes a witness that is turned at one place
exactly where a simulation says that it still shows its bad state. `aigcheck refuted` takes none of
random proofs of other clauses, mangled, for steps at which a bad state is reached.
"""
import dataclasses
import itertools
import json
import random
import re
from pathlib import Path

import harness
import pytest
import strategies
from aiger import machine_of
from harness import PROVE, TOOL, TOP, output
from hypothesis import given
from machines import deep_machine
from mangling import mangled, text_of
from strategies import cases, choices, made
from trials import Files

from aigprove.circuits.aiger import Lines
from aigprove.circuits.witness import Witness, read

EXAMPLES = [
    str(TOP / "examples" / f"{name}.aag") for name in ["permits", "queue", "pipeline", "handshake"]
]
BOUND = 6
# Engines that show the steps up to the bound.
BY_STEPS = ["steps", "steps,windows", "steps,windows,bmc3,pdr", "bounded"]
# Engines whose runs need not be the shortest.
LATER = ["pdr", "windows", "steps,windows,bmc3,pdr"]
# A signal as it is printed, and its value: its place, a word, or a JSON string that may stand
# behind the place.
SIGNAL = re.compile(
    r'((?:[il]\d+:)?"(?:[^"\\]|\\.)*"|[^\s"=]+)'
    r"=(?:([01-])|(\d+)'(?:h([0-9a-f]+)|b([01-]+)))(?: |$)"
)
STEPS_LINE = re.compile(r"steps (\d+) to (\d+):")
# How many fillings of a witness are simulated at most.
FILLINGS = 64
# What aigcheck says of the file, by what aigprove does of its assumptions.
MEANT = {
    "be met up to": "b0 at step {}",
    "be met from": "no run of more than {} steps meets the constraints",
}


def fillings(witness):
    """Witnesses with values in the place of x: all, or as many as are simulated."""
    rows = [witness.start, *witness.steps]
    text = "\n".join(rows)
    for values in itertools.islice(itertools.product("01", repeat=text.count("x")), FILLINGS):
        rest = iter(values)
        start, *steps = "".join(next(rest) if sign == "x" else sign for sign in text).split("\n")
        yield Witness(witness.bad, start, steps)


def spread(lines):
    """The lines of a run, with one for each of several steps that are told in one."""
    for line in lines:
        found = STEPS_LINE.match(line)
        yield from (
            (f"step {t}:{line[found.end():]}" for t in range(int(found[1]), int(found[2]) + 1))
            if found
            else [line]
        )


def turned(witness):
    """All witnesses that differ from one in one value."""
    for i, bits in enumerate([witness.start, *witness.steps]):
        for j, bit in enumerate(bits):
            lines = [witness.start, *witness.steps]
            lines[i] = bits[:j] + "10"[int(bit)] + bits[j + 1:]
            yield Witness(witness.bad, lines[0], lines[1:])


class Trial(Files):
    """A machine in files of its own, and what all agree on."""

    def __init__(self, machine, folder):
        super().__init__(folder)
        self.machine, self.first, self.unmet = machine, machine.first_bad(), machine.first_unmet()
        self.text, self.binary = self.put("made.aag", machine.text()), str(self.folder / "made.aig")
        output([TOOL, "binary", self.text, self.binary])
        # ABC takes no two signals of one name.
        self.nameless = self.put("nameless.aig", b"")
        output(
            [
                TOOL, "binary",
                self.put("nameless.aag", dataclasses.replace(machine, names={}).text()),
                self.nameless,
            ]
        )

    def fail(self, why):
        """Ends with the machine that shows a fault."""
        super().fail(f"{why}; a search finds a bad state at step {self.first}")

    def compare(self):
        """Compares all answers."""
        binary_names = {
            place: name for place, name in self.machine.names.items() if place[0] != "b"
        }
        self.compare_proved(self.text, self.machine.names, "steps", self.first_to(BOUND))
        self.compare_proved(
            self.binary, binary_names, "steps,windows", self.first_to(BOUND), "--jobs", "1"
        )
        self.compare_proved(self.text, self.machine.names, "bounded", self.first_to(BOUND))
        self.compare_proved(self.text, self.machine.names, "bmc3", self.first_to(BOUND))
        self.compare_proved(self.binary, binary_names, "pdr", self.first)
        # Windows may come to a run, by the steps before one that nothing leaves.
        self.compare_proved(self.text, self.machine.names, "windows", None)
        self.compare_proved(self.text, self.machine.names, "steps,windows,bmc3,pdr", self.first)
        self.compare_abc("bmc3", f"bmc3 -F {BOUND + 1}", BOUND)
        self.compare_abc("pdr", "pdr", None)
        return self

    def first_to(self, bound):
        """The first step at which a bad state is reached, if it is one up to the bound."""
        return self.first if self.first is not None and self.first <= bound else None

    def compare_proved(self, file, names, engines, first, *options):
        """Compares an answer, which is a run to a bad state, none at all, or nothing up to the
        bound. A run has to come where there is a first step, and be no longer by engines that look
        for the shortest."""
        keep = f"{file}-{engines}"
        words = [
            PROVE, "--engine", engines, *options, file, "--witness", str(self.folder / "witness"),
            "--bound", str(BOUND), "--keep", keep,
        ]
        status, printed, said = harness.run(words)
        printed, wanted = printed.decode(), 0
        *lines, end = printed.split("\n")[:-1] or [""]
        assumed, end = (end, lines.pop()) if end.startswith("the assumptions ") else (None, end)
        # What was shown on the way says nothing of the answer.
        lines = [
            line
            for line in lines
            if not line.startswith(("no bad state at step ", "no bad state up to step "))
        ] + [end]
        shown = f"no bad state up to step {BOUND}" if engines in BY_STEPS else "nothing was shown"
        undecided = f"undecided: {shown}"
        if first is not None or (engines == "windows" and status == 10):
            self.compare_run(lines, names, first, engines in LATER)
            wanted = 10
        elif lines[-1:] == ["no bad state at any step"] and self.first is None:
            self.counts["proved safe" if self.unmet is None else "proved empty"] += 1
            wanted = 20 if self.unmet is None else 0
            self.compare_assumed(assumed)
        elif lines == [undecided] and engines != "pdr":
            self.counts["open"] += 1
        else:
            self.fail(f"aigprove: {printed}")
        if status != wanted:
            self.fail(f"aigprove ends with {status}, and not with {wanted}: {printed} {said}")
        self.compare_kept(
            keep, printed, ["no bad state at", *["no bad state up to"] * (engines == "bounded")]
        )

    def compare_run(self, lines, names, first, may_be_later):
        """Compares a run that is printed with its witness, and that with a simulation."""
        witness = read(
            Lines((self.folder / "witness").read_bytes(), "WITNESS"), len(self.machine.latches),
            len(self.machine.inputs),
        )
        self.compare_lines(lines, witness, names)
        filled = list(fillings(witness))
        if not (self.is_taken(witness) and all(map(self.machine.is_shown, filled))):
            self.fail(f"not each filling is a witness: {witness}")
        self.counts["fillings"] += len(filled)
        is_later = may_be_later and self.first is not None and len(witness.steps) > self.first
        self.compare_witness(filled[0], len(witness.steps) - 1 == first or is_later)
        self.counts["reached"] += 1

    def compare_assumed(self, line):
        """Compares what is said of constraints with a search, where none of the machine's runs that
        meet them is bad."""
        wanted = f"the assumptions can't be met from step {self.unmet} on: the answer is empty"
        is_met = (
            self.unmet is None
            and line
            and re.fullmatch("the assumptions can be met up to step [0-9]+", line)
        )
        if not (is_met or line == wanted if self.machine.constraints else line is None):
            self.fail(
                f"the first step at which the constraints can't be met is {self.unmet}, and"
                f" aigprove says {line}"
            )

    def compare_kept(self, folder, printed, heads):
        """Has what was kept shown again, which prints the same lines with these heads, but for
        those of a run; and behind the answer what aigcheck says of the constraints."""
        again = harness.shown_again(folder) or ""
        shown = [line for line in printed.splitlines() if line.startswith(tuple(heads))]
        own, answer, behind = again.partition("no bad state at any step\n")
        assumed = [line for line in printed.splitlines() if line.startswith("the assumptions")]
        wanted = {
            MEANT[words].format(k)
            for words, k in (
                found for line in assumed for found in re.findall("(be met .*) step ([0-9]+)", line)
            )
        }
        if [
            line for line in (own + answer).splitlines() if line[0] != "b"
        ] != shown or not wanted <= set(behind.splitlines()):
            self.fail(f"check.sh prints {again}, and aigprove {printed}")

    def compare_lines(self, lines, witness, names):
        """Compares the printed lines with a witness."""
        first, *rest = lines
        bad = re.fullmatch(
            rf"a bad state at step {len(witness.steps) - 1}: b{witness.bad}(?: (.*))?", first
        )
        name = names.get(f"b{witness.bad}")
        if bad is None or (bad[1] and (json.loads(bad[1]) if bad[1][0] == '"' else bad[1])) != name:
            self.fail(f"aigprove: {first}")
        rest = list(spread(rest))
        for t, (line, bits) in enumerate(zip(rest, [witness.start, *witness.steps], strict=True)):
            letter, label = "li"[t > 0], f"step {t - 1}:" if t else "start:"
            needed = (
                range(len(bits))
                if t
                else [
                    i
                    for i, (_, _, reset) in enumerate(self.machine.latches)
                    if reset > 1 and bits[i] != "x"
                ]
            )
            shown = self.bits_of(
                line.removeprefix(label).partition(" | ")[0].lstrip(" "), letter, len(bits), names
            )
            if (
                not line.startswith(label)
                or shown is None
                or not set(needed) <= set(shown)
                or any(bits[i] != shown[i] for i in shown)
            ):
                self.fail(f"aigprove: {line}, and the witness has {bits}")
        signals = [
            signal for line in rest[:2] for signal, *_ in SIGNAL.findall(line.partition(" | ")[0])
        ]
        if len(set(signals)) < len(signals):
            self.fail(f"aigprove tells signals not apart: {signals}")

    def bits_of(self, line, letter, count, names):
        """The bits of the inputs or latches that a line shows by their places, a word's at those
        that have its bits' names, and x for what doesn't matter; None where it shows anything
        else."""
        bits = {}
        for signal, bit, width, digits, base_two in SIGNAL.findall(line):
            places = [
                i
                for i in range(count)
                if i not in bits and self.names_place(signal, f"{letter}{i}", names)
            ]
            own = {
                int(names[f"{letter}{i}"][len(signal) + 1:-1]): i
                for i in range(count)
                if self.is_bit(signal, names.get(f"{letter}{i}"))
            }
            if bit and (places or not own):
                bits[places[0] if places else count] = bit
                continue
            spelled = f"{int(digits, 16):0{width}b}" if digits else base_two or bit * len(own)
            bits.update((own[n], value) for n, value in enumerate(reversed(spelled)))
        known = set(bits) <= set(range(count)) and SIGNAL.sub("", line) == ""
        return {i: value.replace("-", "x") for i, value in bits.items()} if known else None

    def is_bit(self, signal, name):
        """Whether a name is that of a bit of a word."""
        return name is not None and re.fullmatch(re.escape(signal) + r"\[\d+\]", name) is not None

    def names_place(self, signal, place, names):
        """Whether a signal is printed by its name, or by its place where it has none."""
        if place not in names:
            return signal == place
        given = signal.removeprefix(place + ":")
        return names[place] == (json.loads(given) if given[0] == '"' else given)

    def is_taken(self, witness):
        return self.takes(
            f"b{witness.bad} at step {len(witness.steps) - 1}", "run", self.text,
            self.put("given", witness.text()),
        )

    def compare_witness(self, witness, fits):
        """Compares a witness, and those that are turned at one place, with a simulation."""
        if not (fits and self.machine.is_shown(witness) and self.is_taken(witness)):
            self.fail(f"a witness isn't one: {witness}")
        for other in turned(witness):
            shown = self.machine.is_shown(other)
            if self.is_taken(other) != shown:
                self.fail(f"a turned witness is {'refused' if shown else 'taken'}: {other}")
            self.counts["turned, shown" if shown else "turned, refused"] += 1

    def compare_abc(self, engine, command, bound):
        """Compares an answer of ABC, with open resets made inputs, all latches made zero at first,
        and constraints folded in."""
        told = self.folder / "told"
        printed = self.abc(
            f"read_aiger {self.nameless}; logic; undc; strash; zero; fold; {command}; write_cex -a"
            f" {told}"
        )
        if "Does not work for combinational networks" in printed:
            self.counts[f"without {engine}"] += 1
            return
        found = re.search(r"Output (\d+) of miter .* was asserted in frame (\d+)", printed)
        wanted = self.first is not None and (bound is None or self.first <= bound)
        if found is None:
            if wanted or not re.search(
                "No output asserted|Explored all reachable states|Property proved", printed
            ):
                self.fail(f"{engine} finds none: {printed}")
            return
        lines = told.read_text().removesuffix("# DONE").split("\n")[1:]
        # Where there are no inputs, ABC writes no lines of them.
        lines = lines if any(lines) else [""] * (int(found[2]) + 1)
        self.compare_witness(self.witness_of_abc(int(found[1]), lines[: int(found[2]) + 1]), wanted)
        self.counts["of ABC"] += 1
        if bound is not None and int(found[2]) != self.first:
            self.fail(f"{engine} finds step {found[2]}")

    def witness_of_abc(self, bad, lines):
        """The witness of ABC's inputs: those behind the file's own are the open resets."""
        count = len(self.machine.inputs)
        resets = iter(lines[0][count:])
        start = "".join(
            str(reset) if reset < 2 else next(resets) for _, _, reset in self.machine.latches
        )
        return Witness(bad, start, [line[:count] for line in lines])


class Mangler:
    """Proofs of clauses, mangled, for steps at which a bad state is reached."""

    def __init__(self, rng, trials):
        self.trials = [trial for trial in trials if trial.first is not None]
        self.proofs = [
            proof for trial in self.trials for proof in self.proofs_near(rng, trial)
        ]

    def proofs_near(self, rng, trial):
        """Proofs of the steps before a bad state is reached, and of that step with some literals
        fixed."""
        for k in range(trial.first + 1):
            header, clauses = output([TOOL, "query", trial.text, str(k)]).split("\n", 1)
            _, _, variables, count = header.split()
            fixed = [
                rng.randint(1, int(variables)) * rng.choice([1, -1])
                for _ in range(8 if k == trial.first else 0)
            ]
            lines = "".join(f"{literal} 0\n" for literal in fixed)
            proof = trial.proof(
                f"p cnf {variables} {int(count) + len(fixed)}\n{clauses}{lines}", "proof"
            )
            if proof:
                yield [line.split() for line in Path(proof).read_text().splitlines()]

    def attempt(self, rng):
        """Tries a proof, perhaps with the empty clause behind it."""
        trial, lines = rng.choice(self.trials), rng.choice(self.proofs)
        lines = mangled(rng, lines, rng.randint(0, 4), self.proofs) + rng.choice(
            [[], [["0"]], [["0"]]]
        )
        proof = trial.put("mangled", text_of(lines))
        if trial.takes(
            f"no bad state at step {trial.first}", "refuted", trial.text, str(trial.first), proof
        ):
            trial.fail(f"a proof is taken:\n{text_of(lines)}")


def example(path):
    """The machine of an example."""
    return machine_of(output([TOOL, "text", path]))


@pytest.mark.cadical
@pytest.mark.abc
@pytest.mark.parametrize("path", EXAMPLES, ids=[Path(path).stem for path in EXAMPLES])
def test_example(folder, checks, path):
    """All engines, ABC and a search agree on an example."""
    checks.passed += sum(Trial(example(path), folder).compare().counts.values())


@pytest.mark.cadical
@pytest.mark.abc
@cases(6, 300)
@given(machine=made(deep_machine))
def test_random_machine(folder, checks, machine):
    """All engines, ABC and a search agree on a random machine."""
    checks.passed += sum(Trial(machine, folder).compare().counts.values())


@pytest.fixture(scope="module")
def mangler(tmp_path_factory):
    """Proofs of the examples and of random machines."""
    folder, rng = tmp_path_factory.mktemp("machines"), random.Random(strategies.seed)
    count = 300 if strategies.is_long else 6
    machines = [*map(example, EXAMPLES), *(deep_machine(rng) for _ in range(count))]
    return Mangler(rng, [Trial(machine, folder) for machine in machines])


@pytest.mark.cadical
@cases(100, 1000)
@given(rng=choices())
def test_mangled_proof(mangler, rng):
    """No mangled proof is taken of a step at which a bad state is reached."""
    mangler.attempt(rng)
