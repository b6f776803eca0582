"""Witness circuits of files: what aigcheck and aigprove say of them, beside the conditions of a
certificate."""
import random
import re
from pathlib import Path

import harness
from aiger import machine_of
from claims import CONDITIONS, Copy, by_invariant, by_steps, going_round, with_own
from harness import CHECK, PROVE, TOOL, output, rows
from rewriting import DESIGNS
from trials import Files

from aigprove.circuits.aiger import Circuit, Lines
from aigprove.circuits.normalised import NormalisedModel

# How many states before are kept of designs for which that is enough, and beside an invariant.
STEPS, BESIDE = {"crc": 1, "gray": 1, "msi": 1, "rr4": 3}, 1
# Safe designs for which ABC takes too long to find an invariant, and how many seconds it has.
SLOW, SECONDS = ["alu", "sorter"], 60
SAFE = b"no bad state at any step\n"
# The condition that a refusal names.
NAMED = re.compile(r"^aigcheck: (?:.*: )?([a-z]+): [^:\n]*$", re.M)
CIRCULAR = "resets of the witness circuit go round in a circle"
# What aigprove says of conditions.
TOLD = re.compile("it doesn't meet the conditions: ([a-z, ]+)$", re.M)


def safe_designs(*answers):
    """The names of designs with these answers, for which ABC finds an invariant in time."""
    return [
        name
        for name, answer in rows(DESIGNS / "answers.tsv")
        if answer in answers and name not in SLOW
    ]


class Claims(Files):
    """A file, its model, whether that is never bad, and what aigcheck and aigprove say of witness
    circuits of it."""

    def pair(self, witness):
        """The paths of both files."""
        return [self.file, self.put("witness.aag", witness.text())]

    def asked(self, pair, setting):
        """cadical's proofs for the conditions, by their names, where there are any."""
        asked = {name: output([CHECK, "obligations", *pair, name, *setting]) for name in CONDITIONS}
        proofs = {name: self.proof(text, f"{name}-proof") for name, text in asked.items()}
        self.counts["questions"] += len(CONDITIONS)
        return {name: proof for name, proof in proofs.items() if proof}

    def refusal(self, *words):
        """What aigcheck says where it refuses what these words ask; None where it takes the
        certificate."""
        status, printed, said = harness.run([CHECK, *words])
        if (status, printed) not in [(0, SAFE), (1, b"")]:
            self.fail(f"{words[0]}: {status} {printed} {said}")
        return said.decode() if status else None

    def refuse(self, why, pair, setting):
        """Has both commands refuse a witness circuit that isn't looked at."""
        proof = self.put("unread", "")
        for words in [
            ["certified", *pair, *[proof] * len(CONDITIONS)],
            ["obligations", *pair, self.rng.choice(CONDITIONS)],
        ]:
            said = self.refusal(*words, *setting)
            if said is None or why not in said:
                self.fail(f"{words[0]} wants {why}, and says {said}")

    def compare(self, pair, broken, setting=()):
        """Compares what is said of a witness circuit with the conditions that don't hold."""
        proofs = self.asked(pair, setting)
        if [name for name in CONDITIONS if name not in proofs] != broken:
            self.fail(f"a search finds broken {broken}, and cadical refutes {list(proofs)}")
        other = self.rng.choice([*proofs.values()] or [self.put("empty", "0\n")])
        said = self.refusal(
            "certified", *pair, *(proofs.get(name, other) for name in CONDITIONS), *setting
        )
        if (NAMED.findall(said)[:1] if said else []) != broken[:1]:
            self.fail(f"a search finds broken {broken}, and certified says {said}")
        self.counts[f"refused by {broken[0]}" if broken else "taken"] += 1

    def compare_proved(self, pair, broken):
        """Compares what aigprove says, which may take a witness circuit as one whose steps don't
        matter, too: what it says where not."""
        keep = self.folder / f"kept-{sum(self.counts.values())}"
        _, printed, said = harness.run([PROVE, "--keep", keep, "--certificate", *reversed(pair)])
        found = TOLD.search(said.decode())
        is_taken = SAFE in printed
        if is_taken and (
            not self.is_safe or SAFE.decode() not in (harness.shown_again(keep) or "")
        ):
            self.fail(f"aigprove takes it, and {keep}/check.sh prints {harness.shown_again(keep)}")
        if not is_taken and (not found or found[1].split(", ") != broken):
            self.fail(f"a search finds broken {broken}, and aigprove says {said}")
        self.counts[f"by aigprove {'taken' if is_taken else 'refused'}"] += 1
        return "" if is_taken else said.decode()


class Design(Claims):
    """A safe design, and certificates of it."""

    def __init__(self, name, folder):
        super().__init__(folder, random.Random(name))
        self.name, self.file, self.is_safe = name, str(DESIGNS / f"{name}.aig"), True
        self.model = machine_of(output([TOOL, "text", self.file]))

    def fail(self, why):
        super().fail(f"{self.name}: {why}")

    def invariant(self):
        """A machine that has as bad what an invariant of ABC's excludes."""
        plain, pla = (
            NormalisedModel(Circuit(Lines(Path(self.file).read_bytes(), "FILE"))),
            self.folder / "inv.pla",
        )
        file = self.put("plain.aig", plain.binary())
        harness.run(["berkeley-abc", "-q", f"read_aiger {file}; pdr -d -I {pla}"], timeout=SECONDS)
        if not pla.exists():
            self.fail("ABC finds no invariant")
        return machine_of(plain.certificate(pla.read_text()).decode())

    def certificates(self):
        """Kinds of witness circuits, and one of each."""
        if self.name in STEPS:
            yield "by states before", by_steps(self.model, STEPS[self.name])
        excluded = self.invariant()
        yield "by an invariant", by_invariant(Copy(self.model), excluded)
        yield "with leaves of their own", with_own(
            self.rng, by_invariant(Copy(self.model, 1, 3), excluded)
        )
        yield "by an invariant and states before", by_invariant(
            by_steps(self.model, BESIDE), excluded
        )

    def run(self):
        for kind, made in self.certificates():
            both = made.in_order(), made.by_names(self.rng)
            for witness in both:
                self.compare(self.pair(witness), [], self.rng.choice([[], ["raw"]]))
                self.counts[f"taken {kind}"] += 1
            if made.own:
                self.refuse(
                    CIRCULAR, self.pair(going_round(self.rng, self.rng.choice(both), made.own)), []
                )
                self.counts["refused by a circle"] += 1
        return self
