"""Compares answers about two files with a search over all states, and with ABC.

Random files, each beside one that ABC made of it (by two of balance, rewrite, refactor, dc2, fraig
and scorr) or that has a gate more in the place of an edge. The first step at which outputs or bad
literals differ is that of a search over the states of both, and that at which the machine of
`aigedit miter` is bad, by a search over its states. For each step before it `aigcheck equal` takes
cadical's proof, and at that step it takes neither that proof nor the empty clause. ABC's `dsec`,
and `cec` without latches, say the same of files that ABC reads, and `bin/aigprove --equal` of all;
what that keeps isn't shown with an output of the other file inverted.

The engines that guess what corresponds say nothing else alone, if anything.

As many pairs have registers that may start with either value, most of which have names, beside the
same in another order, and perhaps a gate more. Where those that are matched by order or by name
start alike, the search begins with states in which they do, and is compared with `aigedit
miter-alike-by-order`, `aigcheck equal-alike-by-order`, those by name, and `aigprove --starts`.
Where that leaves them apart, it says exactly at a step that differs by that alone that it is equal
with registers alike.

As many more of these have constraints, which are others in the second file now and then. The search
takes those of the first alone, or compares whether both are met, as `--constraints` of the programs
does, and what aigprove says to differ at the end of a run does there.

And as many have names, and in the second file inputs, outputs and bad literals are in another
order: `aigprove --equal` matches those of a kind by name exactly where both files have the same
names for all of it, says so, and answers what a search says of them in one order.

Half as many designs of tests/designs are compared so with what ABC makes of them, also by retiming,
or with that and a gate changed: no answer is another than that of `dsec` where there are no
constraints, and a run to a difference shows one, as a simulation here has it.

And a third as many invariants of ABC's pdr, for random files that are never bad: `aigcheck
certified` takes each as a certificate. With one of its cubes less it takes it where a search over
all states says that the rest is an invariant still, by cadical's proofs, and else no proofs of the
whole.

It ends at the first that differs, and else prints one line. The solver and ABC are the Debian
packages cadical and berkeley-abc."""
import dataclasses
import itertools
import re
from pathlib import Path

import harness
import pytest
from aiger import Machine, machine_of, starting, step
from harness import CHECK, EDIT, FORMS, PROVE, TOOL, output
from hypothesis import given
from machines import LISTS, NAMES, named, random_machine
from rewriting import inverted
from strategies import cases, choices
from trials import Files

from aigprove.circuits.aiger import Circuit, Lines
from aigprove.circuits.normalised import NormalisedModel

# Seconds for the answer about a design, and the designs.
SECONDS = "20"
DESIGNS = sorted((harness.TESTS / "designs").glob("*.aig"))
REGISTERS = [f"r{i}" for i in range(20)]
REWRITES = ["balance", "rewrite", "refactor", "dc2", "fraig", "scorr"]
BOUND = 4
# A name that is told as a string.
QUOTED = re.compile(r'"(?:[^"\\]|\\.)*"')


def first_unmet(first, other, pairs, setting):
    """The first step from which on no run from these states meets the constraints, if there is
    one."""
    seen = set()
    for k in itertools.count():
        seen.add(frozenset(pairs))
        _, pairs = step(first, other, pairs, setting)
        if not pairs or pairs in seen:
            return None if pairs else k


def first_difference(first, other, pairs, setting):
    """The first step at which two machines differ in runs from these states, if ever."""
    seen = set()
    for k in itertools.count():
        is_different, after = step(first, other, pairs, setting)
        if is_different:
            return k
        seen |= pairs
        pairs = after - seen
        if not pairs:
            return None


def differ_at(first, other, pairs, setting, k):
    """Whether two machines differ at a step in runs from these states."""
    for _ in range(k):
        _, pairs = step(first, other, pairs, setting)
    return step(first, other, pairs, setting)[0]


def with_outputs(rng):
    machine = random_machine(rng)
    machine.outputs = [rng.randrange(machine.gates.end()) for _ in range(rng.randint(1, 3))]
    return machine


def changed(machine, rng):
    """The machine with an output, a bad literal or a latch's next value made an and of two others,
    or its inverse."""
    made = machine_of(machine.text())
    new = 2 * (len(made.inputs) + len(made.latches) + len(made.gates) + 1)
    made.gates.append([new, *sorted(rng.sample(range(2, new), 2), reverse=True)])
    places = [(literals, i) for literals in (made.outputs, made.bads) for i in range(len(literals))]
    row, i = rng.choice([*places, *((row, 1) for row in made.latches)])
    row[i] = new + rng.randrange(2)
    return made


def opened(machine):
    """The places of the registers that may start with either value, and their names, if they have
    some."""
    return [
        (i, machine.names.get(f"l{i}")) for i, row in enumerate(machine.latches) if row[2] == row[0]
    ]


def partners(way, first, other):
    """Pairs of places of registers that may start with either value: the first of both machines,
    the second and so on, or each of the second machine with the first of its name."""
    ours, theirs = opened(first), opened(other)
    if way != "by-name":
        return [(i, j) for (i, _), (j, _) in zip(ours, theirs)] if way == "by-order" else []
    named = [
        (next((i for i, name in ours if name == own), None), j)
        for j, own in theirs
        if own is not None
    ]
    return [(i, j) for i, j in named if i is not None]


def with_open(rng):
    """A machine whose registers may start with either value most often, and have names, some the
    same."""
    made = with_outputs(rng)
    made.latches = [
        (leaf, following, leaf if rng.random() < 0.6 else reset)
        for leaf, following, reset in made.latches
    ]
    return named(rng, made, REGISTERS, "l", 0.9)


def reordered(machine, rng):
    """The machine with its registers in another order, of which a few lose their names, or start
    with a constant."""
    order = rng.sample(range(len(machine.latches)), len(machine.latches))
    names = {
        f"l{i}": machine.names[f"l{place}"]
        for i, place in enumerate(order)
        if f"l{place}" in machine.names and rng.random() < 0.95
    }
    rows = [list(machine.latches[place]) for place in order]
    for row in rows:
        row[2] = rng.randrange(2) if rng.random() < 0.05 else row[2]
    return dataclasses.replace(machine, latches=rows, names=names)


def varied(machine, rng):
    """The machine, now and then with other constraints."""
    literals, own = (
        range(2 * (len(machine.inputs) + len(machine.latches) + len(machine.gates) + 1)),
        machine.constraints,
    )
    ways = [
        own, own, own[::-1] + own, own[1:],
        [*own, rng.choice(literals)],
        [rng.choice(literals)],
    ]
    return dataclasses.replace(machine, constraints=rng.choice(ways))


class Pair(Files):
    """Two machines in files."""

    # What stands behind the names of commands that compare them, and behind lines of aigcheck;
    # words of aigprove; and what constraints say, with the words for it, and what stands behind
    # lines then.
    suffix, said, words, setting, setting_words, setting_said = "", "", [], "both", [], ""

    def __init__(self, rng, folder):
        super().__init__(folder)
        self.machine, self.abc_command = with_outputs(rng), rng.choice(
            ["dsec", "dsec", "cec", None]
        )
        if self.abc_command:
            # As ABC reads it: outputs alone, no latches or such that are 0 at first, no names.
            made, latches = self.machine, [[*row[:2], 0] for row in self.machine.latches]
            inputs, latches = (
                (made.inputs + [row[0] for row in latches], [])
                if self.abc_command == "cec"
                else (made.inputs, latches)
            )
            self.machine = Machine(inputs, latches, made.outputs + made.bads, gates=made.gates)
        self.file = self.put("file.aag", self.machine.text())
        self.other_machine = (
            self.rewritten(rng)
            if self.abc_command and rng.random() < 0.7
            else changed(self.machine, rng)
        )
        self.other = self.put("other.aag", self.other_machine.text())

    def starts(self):
        """The pairs of first states that are compared."""
        return starting(self.machine, self.other_machine)

    def rewritten(self, rng):
        """The machine as ABC writes it again."""
        binary, made = str(self.folder / "file.aig"), str(self.folder / "made.aig")
        output([TOOL, "binary", self.file, binary])
        self.abc(
            f"read_aiger {binary}; strash; {'; '.join(rng.sample(REWRITES, 2))}; strash;"
            f" write_aiger {made}"
        )
        return machine_of(output([TOOL, "text", made]))

    def compare(self):
        """Compares all answers."""
        both = self.machine, self.other_machine, self.starts(), self.setting
        first = first_difference(*both)
        miter = self.put("miter.aag", self.mitered(self.other))
        made = machine_of(Path(miter).read_text())
        if made.first_bad() != first:
            self.fail(
                f"a search finds a difference at step {first}, and the miter is bad at step"
                f" {made.first_bad()}"
            )
        self.compare_steps(first, miter)
        if self.abc_command:
            self.compare_abc(first)
        self.compare_proved(first, first_unmet(*both))
        what = "equal" if first is None else "different"
        self.counts[" ".join([f"{what}{self.suffix}", *self.setting_words[1:]])] += 1
        return self.counts

    def compare_steps(self, first, miter):
        """Compares which proofs aigcheck takes of the steps of a miter."""
        empty, last = self.put("empty", "0\n"), None
        for k in range(BOUND + 1 if first is None else min(first, BOUND) + 1):
            proof = self.proof(output([TOOL, "query", miter, str(k)]), f"proof-{k}")
            if (proof is None) != (k == first):
                self.fail(
                    f"a search finds a difference at step {first}, and cadical"
                    f" {'one' if proof is None else 'none'} at step {k}"
                )
            for tried in [proof] if proof else [empty, last or empty]:
                words = [
                    *self.setting_words, f"equal{self.suffix}", self.file, self.other, str(k),
                    tried,
                ]
                if self.takes(f"equal at step {k}{self.setting_said}{self.said}", *words) != (
                    proof is not None
                ):
                    self.fail(
                        f"aigcheck {'refuses' if proof else 'takes'} {' '.join(words)}, and a"
                        f" search finds {first}"
                    )
                self.counts["proofs taken" if proof else "proofs refused"] += 1
            last = proof

    def mitered(self, other):
        """The text of the miter with a file."""
        return output([EDIT, *self.setting_words, f"miter{self.suffix}", self.file, other])

    def compare_abc(self, first):
        """Compares what ABC says."""
        for name in ["file", "other"]:
            output(
                [TOOL, "binary", str(self.folder / f"{name}.aag"), str(self.folder / f"{name}.aig")]
            )
        printed = self.abc(f"{self.abc_command} -n {self.folder}/file.aig {self.folder}/other.aig")
        told = re.search("Networks are (NOT )?equivalent", printed, re.IGNORECASE)
        if told and (told[1] is None) != (first is None):
            self.fail(f"a search finds a difference at step {first}, and ABC: {printed}")
        self.counts[f"by {self.abc_command}" if told else "not told by ABC"] += 1

    def compare_proved(self, first, unmet):
        """Compares what aigprove says, and what it keeps. Where no run meets the constraints from a
        step on, the answer is empty."""
        keep, witness = self.folder / "kept", self.folder / "witness"
        options = ["--keep", str(keep), "--witness", str(witness)]
        status, printed, said = harness.run(
            [PROVE, *self.words, "--equal", self.other, self.file, *options]
        )
        printed = printed.decode()
        self.compare_matched(printed)
        if status != (10 if first is not None else 20 if unmet is None else 0):
            self.fail(
                f"a search finds a difference at step {first}, and no run from step {unmet} on, and"
                f" aigprove: {status} {printed} {said}"
            )
        self.compare_answer(f"\n{printed}", first, unmet)
        for engine in ["registers", "scorr"]:
            self.compare_engine(engine, first)
        self.compare_kept(keep)

    def compare_answer(self, lines, first, unmet):
        """Compares the lines of an answer."""
        alike = self.said if self.has_alike() else ""
        behind = self.setting_behind() + alike + self.matched_behind()
        different = re.search(f"\na difference at step ([0-9]+){behind}: (.*)\n", lines)
        if (f"\nequal at every step{behind}\n" in lines) != (first is None) or (
            different is None
        ) != (first is None):
            self.fail(f"a search finds a difference at step {first}, and aigprove: {lines}")
        counted = self.machine.constraints + (
            self.other_machine.constraints if self.setting != "first" else []
        )
        unmet_line = f"\nthe assumptions can't be met from step {unmet} on: the answer is empty\n"
        if first is None and (
            ("\nthe assumptions " in lines) != bool(counted)
            or (unmet_line in lines) != (unmet is not None)
        ):
            self.fail(
                f"a search finds that no run meets constraints from step {unmet} on, and aigprove:"
                f" {lines}"
            )
        if different:
            self.compare_told(different[2], lines, (self.folder / "witness").read_text())
        if different and not alike:
            self.compare_alike(int(different[1]), lines)

    def compare_engine(self, engine, first):
        """Looks that an engine finds both equal only where they are."""
        status, _, said = harness.run(
            [PROVE, *self.words, "-q", "--engine", engine, "--equal", self.other, self.file]
        )
        if status not in (0, 20) or status == 20 and first is not None:
            self.fail(f"a search finds a difference at step {first}, and {engine}: {status} {said}")
        self.counts[f"by {engine}"] += status == 20

    def compare_kept(self, keep):
        """Checks that check.sh shows the kept answer again, and refuses a changed other file, whose
        sum in the evidence is another."""
        again, kept = harness.shown_again(keep), keep / "other.aag"
        kept.write_bytes(inverted(kept.read_bytes()))
        if again is None or harness.shown_again(keep) is not None:
            self.fail("the kept answer isn't shown again, or is shown with the other file changed")

    def matched_behind(self):
        """What aigprove says behind lines of signals that it put in another order: nothing of files
        without names."""
        return ""

    def compare_matched(self, printed):
        """Compares what aigprove says of how signals are matched: nothing of files without
        names."""

    def has_alike(self):
        """Whether any registers start alike."""
        return False

    def setting_behind(self):
        """What aigprove says of constraints behind lines: nothing of files without such."""
        return (
            self.setting_said if self.machine.constraints or self.other_machine.constraints else ""
        )

    def ended(self, witness):
        """The values of both machines in the last step of a witness of their miter, where what
        doesn't matter is 0. Each has a latch more where constraints are compared."""
        _, _, start, *steps, _ = witness.split("\n")[:-1]
        bits = iter(start)
        for machine in [self.machine, self.other_machine]:
            state = [next(bits) == "1" for _ in machine.latches]
            if self.setting == "compared" and self.setting_behind():
                next(bits)
            for row in steps:
                values = machine.values(state, [bit == "1" for bit in row])
                state = machine.following(values)
            yield machine, values

    def compare_told(self, told, lines, witness):
        """Compares what is told to differ at the end of a run with its values, and which file
        doesn't meet its constraints, if told."""
        (ours, own), (theirs, others) = self.ended(witness)
        is_met = {"first": ours.is_allowed(own), "second": theirs.is_allowed(others)}
        if self.setting == "compared" and len(set(is_met.values())) > 1:
            which = re.findall("\nthe (first|second) file doesn't meet c[0-9]+", lines)
            holds = told == "constraints" and which in (
                [],
                [side for side in is_met if not is_met[side]],
            )
        else:
            places = [
                (letter, int(i))
                for letter, i in re.findall("(?:^|, )([ob])([0-9]+)", QUOTED.sub("", told))
            ]
            sides = {"o": (ours.outputs, theirs.outputs), "b": (ours.bads, theirs.bads)}
            holds = places and all(
                own[sides[letter][0][i]] != others[sides[letter][1][i]] for letter, i in places
            )
        if not holds:
            self.fail(f"it doesn't differ so at the end of a run: {told}, {witness}")

    def compare_alike(self, k, lines):
        """Compares what aigprove says of the step that differs where registers are apart: whether
        anything does with them alike, by name where all that may start with either value have
        one."""
        both = [self.machine, self.other_machine]
        way = (
            "by-name"
            if all(name is not None for machine in both for _, name in opened(machine))
            else "by-order"
        )
        matched = partners(way, *both)
        is_equal = bool(matched) and not differ_at(*both, starting(*both, matched), self.setting, k)
        alike = (
            f"{self.setting_behind()}, registers with open start alike"
            f" {way.replace('-', ' ')}{self.matched_behind()}"
        )
        wanted = f"\nequal at step {k}{alike}\n--starts {way} compares so\n"
        if (wanted in lines) != is_equal or ("compares so" in lines) != is_equal:
            self.fail(
                "a search finds that registers that start alike"
                f" {way} {'do' if is_equal else 'do not'} make step {k} equal: {lines}"
            )
        self.counts["equal at a step with registers alike"] += is_equal


class Alike(Pair):
    """Two machines whose registers may start with either value, most often; those that are matched
    in some way start alike."""

    abc_command = None

    def __init__(self, rng, folder):
        Files.__init__(self, folder)
        self.way, self.machine = rng.choice(["apart", "by-order", "by-name"]), with_open(rng)
        self.words = ["--starts", self.way]
        if self.way != "apart":
            self.suffix, self.said = (
                f"-alike-{self.way}",
                f", registers with open start alike {self.way.replace('-', ' ')}",
            )
        self.other_machine = self.beside(rng)
        self.file, self.other = self.put("file.aag", self.machine.text()), self.put(
            "other.aag", self.other_machine.text()
        )

    def beside(self, rng):
        """The other machine."""
        made = reordered(self.machine, rng) if rng.random() < 0.8 else self.machine
        return (
            dataclasses.replace(changed(made, rng), names=made.names)
            if rng.random() < 0.4
            else made
        )

    def starts(self):
        return starting(
            self.machine, self.other_machine, partners(self.way, self.machine, self.other_machine)
        )

    def has_alike(self):
        return bool(partners(self.way, self.machine, self.other_machine))


class Constrained(Alike):
    """Two such machines, most often with constraints: those of the first are met alone, or both are
    compared."""

    def __init__(self, rng, folder):
        self.setting = rng.choice(["first", "compared"])
        self.setting_words = ["--constraints", self.setting]
        self.setting_said = {
            "first": ", under the constraints of the first alone",
            "compared": ", constraints too",
        }[self.setting]
        super().__init__(rng, folder)
        self.words += self.setting_words

    def beside(self, rng):
        self.machine = dataclasses.replace(
            self.machine,
            constraints=self.machine.constraints or varied(self.machine, rng).constraints,
        )
        return varied(super().beside(rng), rng)


class ByName(Pair):
    """Two machines, in the second of which signals are in another order. Those of a kind have the
    same names in both files, unless one is missing, is another one or stands twice: these are
    matched as they stand."""

    KINDS = {"i": "inputs", "o": "outputs", "b": "bad literals"}
    abc_command = None

    def __init__(self, rng, folder):
        Files.__init__(self, folder)
        self.machine = dataclasses.replace(with_outputs(rng), names={})
        self.other_machine = (
            changed(self.machine, rng) if rng.random() < 0.5 else dataclasses.replace(self.machine)
        )
        shuffled, self.by_name = dataclasses.replace(self.other_machine, names={}), []
        for letter, kind in self.KINDS.items():
            literals = getattr(self.other_machine, LISTS[letter])
            order, names = rng.sample(range(len(literals)), len(literals)), rng.sample(
                sorted(set(NAMES)), len(literals)
            )
            setattr(shuffled, LISTS[letter], [literals[i] for i in order])
            ours, theirs = dict(enumerate(names)), {
                i: names[place] for i, place in enumerate(order)
            }
            if literals and rng.random() < 0.25:
                self.spoil(rng, rng.choice([ours, theirs]), len(literals))
                setattr(self.other_machine, LISTS[letter], getattr(shuffled, LISTS[letter]))
            elif order != sorted(order):
                self.by_name.append(kind)
            self.machine.names.update((f"{letter}{i}", name) for i, name in ours.items())
            shuffled.names.update((f"{letter}{i}", name) for i, name in theirs.items())
        self.file, self.other = self.put("file.aag", self.machine.text()), self.put(
            "other.aag", shuffled.text()
        )

    def spoil(self, rng, names, count):
        """Leaves a name out, or has another in its place, or one that is there already."""
        place = rng.randrange(count)
        way = rng.choice([None, "another", names[(place + 1) % count] if count > 1 else None])
        names.pop(place)
        names.update({} if way is None else {place: way})

    def compare(self):
        both = self.machine, self.other_machine, self.starts(), self.setting
        first = first_difference(*both)
        self.compare_proved(first, first_unmet(*both))
        self.counts[
            f"{'equal' if first is None else 'different'}{' by name' * bool(self.by_name)}"
        ] += 1
        return self.counts

    def matched_behind(self):
        return f", {' and '.join(self.by_name)} matched by name" if self.by_name else ""

    def compare_matched(self, printed):
        told = re.findall("^(.*) are matched by name: ", printed, re.MULTILINE)
        if told != self.by_name:
            self.fail(f"matched by name are {self.by_name}, and aigprove: {printed}")


class Form(Files):
    """A design in a plain form, and beside it what ABC makes of that, perhaps with a gate more in
    the place of an edge."""

    def __init__(self, rng, folder):
        super().__init__(folder)
        self.file, self.other = str(self.folder / "file.aig"), str(self.folder / "other.aig")
        self.name = (
            f"{rng.choice(DESIGNS)}; logic; undc; strash; zero; write_aiger {self.file};"
            f" {rng.choice([*FORMS.values()])}; zero"
        )
        self.abc(f"read_aiger {self.name}; write_aiger {self.other}")
        if rng.random() < 0.4:
            changed_one = changed(machine_of(output([TOOL, "text", self.other])), rng)
            self.put("other.aag", changed_one.text())
            output([TOOL, "binary", str(self.folder / "other.aag"), self.other])
        self.machines = [
            machine_of(output([TOOL, "text", file])) for file in [self.file, self.other]
        ]

    def fail(self, why):
        raise AssertionError(f"{self.name}: {why}")

    def differ(self, witness):
        """Whether outputs or bad literals of both machines differ in the last step of a witness of
        their miter."""
        _, _, start, *steps, _ = witness.splitlines()
        bits, ends = iter(start), []
        for machine in self.machines:
            state = [next(bits) == "1" for _ in machine.latches]
            if tuple(state) not in machine.starts():
                return False
            for row in steps:
                values = machine.values(state, [bit == "1" for bit in row])
                state = machine.following(values)
            ends.append([values[literal] for literal in [*machine.outputs, *machine.bads]])
        return ends[0] != ends[1]

    def by_abc(self):
        """What ABC says, which compares all runs, also those that constraints don't allow; nothing
        of a file with such, or after some seconds."""
        if any(machine.constraints for machine in self.machines):
            return None
        _, printed, _ = harness.run(
            ["berkeley-abc", "-q", f"dsec {self.file} {self.other}"], timeout=float(SECONDS)
        )
        return re.search(b"are (NOT )?equiv", printed, re.IGNORECASE)

    def compare(self):
        """Compares what aigprove says with what ABC says."""
        told, witness = self.by_abc(), self.folder / "witness"
        for option, word in [
            ("--witness", str(witness)),
            ("--engine", "registers"),
            ("--engine", "scorr"),
        ]:
            status, printed, said = harness.run(
                [PROVE, option, word, "--timeout", SECONDS, "--equal", self.other, self.file]
            )
            if status not in (0, 10, 20) or told and status == (20 if told[1] else 10):
                self.fail(f"ABC says {told and told[0]}, and aigprove: {status} {printed} {said}")
            if status == 10 and not self.differ(witness.read_text()):
                self.fail("nothing differs at the end of the witness")
            self.counts[
                f"designs {['open', 'different', 'equal'][status // 10]}"
                + f" by {word}" * (option == "--engine")
            ] += 1
        return self.counts


class Invariant(Files):
    """A machine that is never bad, and an invariant of ABC's that shows it."""

    def __init__(self, rng, folder):
        super().__init__(folder)
        while True:
            self.machine = random_machine(rng)
            self.file = self.put("file.aag", self.machine.text())
            self.plain = NormalisedModel(
                Circuit(Lines(output([TOOL, "text", self.file]).encode(), "FILE"))
            )
            plain = self.put("plain.aig", self.plain.binary())
            invariant = self.folder / "invariant"
            invariant.unlink(missing_ok=True)
            if self.machine.first_bad() is None:
                self.abc(f"read_aiger {plain}; pdr -d -I {invariant}")
                if invariant.exists() and re.search(
                    "^[01-]*[01]", text := invariant.read_text(), re.MULTILINE
                ):
                    self.lines = text.splitlines(keepends=True)
                    break

    def certify(self, lines, name):
        """The certificate of an invariant, the machine beside it, and cadical's proofs."""
        certificate = self.put(f"{name}.aag", self.plain.certificate("".join(lines)))
        joint = self.put(f"{name}-joint.aag", output([EDIT, "join", self.file, certificate]))
        commands = [(TOOL, "query"), (CHECK, "window")]
        proofs = [
            self.proof(output([program, command, joint, "0"]), f"{name}-{command}")
            for program, command in commands
        ]
        return certificate, machine_of(Path(joint).read_text()), proofs

    def is_certified(self, certificate, proofs):
        return self.takes("no bad state at any step", "certified", self.file, certificate, *proofs)

    def compare(self):
        """Compares the whole invariant, and it with a cube less."""
        certificate, joint, whole = self.certify(self.lines, "whole")
        if not joint.is_inductive() or None in whole or not self.is_certified(certificate, whole):
            self.fail("an invariant of pdr isn't taken")
        for i in [i for i, line in enumerate(self.lines) if line[0] in "01-"]:
            certificate, joint, proofs = self.certify(
                self.lines[:i] + self.lines[i + 1:], f"without-{i}"
            )
            inductive = joint.is_inductive()
            if (None in proofs) == inductive:
                self.fail(f"a search says {inductive}, and cadical has proofs {proofs}")
            if self.is_certified(certificate, proofs if inductive else whole) != inductive:
                self.fail(
                    f"a search says {inductive} of an invariant without line {i}, and aigcheck says"
                    " other"
                )
            self.counts[
                "with a cube less, taken" if inductive else "with a cube less, refused"
            ] += 1
        self.counts["invariants"] += 1
        return self.counts


@pytest.mark.cadical
@pytest.mark.abc
@pytest.mark.parametrize("kind", [Pair, Alike, Constrained, ByName])
@cases(6, 300)
@given(rng=choices())
def test_pairs(folder, checks, kind, rng):
    """All say the same of two random files."""
    checks.passed += sum(kind(rng, folder).compare().values())


@pytest.mark.cadical
@pytest.mark.abc
@cases(2, 100)
@given(rng=choices())
def test_invariants(folder, checks, rng):
    """An invariant of ABC's is taken, and with a cube less where it is one still."""
    checks.passed += sum(Invariant(rng, folder).compare().values())


@pytest.mark.cadical
@pytest.mark.abc
@cases(3, 150)
@given(rng=choices())
def test_designs(folder, checks, rng):
    """aigprove says of a design and what ABC makes of it what ABC says."""
    checks.passed += sum(Form(rng, folder).compare().values())
