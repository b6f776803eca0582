"""Checks the certificates that `bin/aigprove --write-certificate` writes, by the competition's
conditions.

For safe designs of tests/designs, for some beside what ABC makes of them (`--equal`), and for
random machines, one engine at a time: where aigprove says that no bad state is reached, or no
difference, the file that it writes is a witness circuit of what was asked about. It writes none for
an answer about runs on which no state comes twice, for one that is a run, and without an answer,
and says so.

The five conditions of the hardware model checking competition (reset, transition, property, base,
step; the first inputs and latches are the model's, in order) are asked of cadical, by clauses that
are made here, with no program of this repository; where both circuits are small, a search over all
values says the same. `aigcheck certified` takes the file, by cadical's proofs of what `aigcheck
obligations` prints for each condition, and so does `aigprove --certificate`. Then each is mangled:
a gate, a reset, a next value, the bad literal or a constraint is another, a latch becomes an input,
leaves change places. It is refused by the first condition that is broken here, or taken where none
is, and what breaks it is told: a state and inputs, by which one comes to the other. Some of the
random machines have names that would say for which literals leaves stand.

An invariant that pdr of ABC writes of the file itself of a design without constraints is taken, and
one with half of its cubes told of.
"""
import random
import re

import certified
import harness
import pytest
from aiger import machine_of
from certified import SAFE, Claims, safe_designs
from claims import CONDITIONS, MANGLES, Search, Witness, has_functions, leaves_of, other_names
from harness import EDIT, PROVE, TOOL, output
from hypothesis import given
from machines import NAMES, named, random_machine
from rewriting import REWRITTEN, rewritten
from strategies import cases, choices

SECONDS = 30
# The line of an answer about all steps.
SHOWN = re.compile("^(no bad state at any step|equal at every step)$", re.M)
# How it is said that there is no certificate, and why.
SAID = re.compile("^aigprove: no certificate: (.*)$", re.M)
DISTINCT, RUN, OPEN = (
    "the answer is about runs on which no state comes twice", "the answer is a run",
    "there is no answer",
)
# How many leaves a witness circuit has at most that is searched, and names that leaves of a file
# have.
SMALL, STANDS = 11, [*NAMES, "= 2", "= 4", "= 03", "= x"]
# How what breaks a certificate is told.
BREAKS = re.compile("certificate: (it doesn't hold at the start: |a step breaks it: from )")


class Clauses:
    """Clauses over copies of machines, and what a solver says of them."""

    def __init__(self):
        self.count, self.clauses = 1, [[1]]

    def new(self):
        self.count += 1
        return self.count

    def copy(self, machine, leaves):
        """A step of a machine whose leaves are these literals, new ones where none is given: the
        literal of each of its own."""
        known = {0: -1, 1: 1}
        for leaf in [*machine.inputs, *(latch[0] for latch in machine.latches)]:
            known[leaf] = leaves[leaf] if leaf in leaves else self.new()
            known[leaf + 1] = -known[leaf]
        for gate, left, right in machine.gates:
            known[gate] = self.new()
            known[gate + 1] = -known[gate]
            left, right = known[left], known[right]
            self.clauses += [
                [-known[gate], left],
                [-known[gate], right],
                [known[gate], -left, -right],
            ]
        return known

    def hold(self, literals):
        self.clauses += [[literal] for literal in literals]

    def differ(self, left, right):
        """A literal that is true only where both differ."""
        literal = self.new()
        self.clauses += [[-literal, left, right], [-literal, -left, -right]]
        return literal

    def some(self, literals):
        self.clauses.append(list(literals))

    def text(self):
        return f"p cnf {self.count} {len(self.clauses)}\n" + "".join(
            f"{' '.join(map(str, clause))} 0\n" for clause in self.clauses
        )


class Conditions:
    """A model and a witness circuit, whose first inputs and latches are the model's."""

    def __init__(self, model, witness):
        self.model, self.witness = model, witness
        self.inputs = dict(zip(witness.inputs, model.inputs))
        self.latches = {own[0]: latch[0] for own, latch in zip(witness.latches, model.latches)}

    def both(self, clauses, leaves=None):
        """A step of the model and one of the witness circuit, which agree on what they share."""
        of_model = clauses.copy(self.model, {})
        shared = {own: of_model[leaf] for own, leaf in {**self.inputs, **self.latches}.items()}
        return of_model, clauses.copy(self.witness, {**shared, **(leaves or {})})

    def starts(self, machine, known, latches):
        """For each of these latches a pair that is equal in an initial state."""
        resets = {latch[0]: latch[2] if len(latch) > 2 else 0 for latch in machine.latches}
        return [(known[latch], known[resets[latch]]) for latch in latches if resets[latch] != latch]

    def moves(self, machine, known, after, latches):
        """For each of these latches a pair that is equal in a step."""
        nexts = {latch[0]: latch[1] for latch in machine.latches}
        return [(known[nexts[latch]], after[latch]) for latch in latches]

    def equal(self, clauses, pairs):
        for left, right in pairs:
            clauses.clauses += [[-left, right], [left, -right]]

    def broken(self, clauses, pairs, literals):
        """That some pair differs, or some literal is false."""
        clauses.some(
            [*(clauses.differ(*pair) for pair in pairs), *(-literal for literal in literals)]
        )

    def parts(self, machine, known, what):
        return [known[literal] for literal in getattr(machine, what)]

    def latches_of(self, machine):
        return [latch[0] for latch in machine.latches]

    def own(self):
        return [latch[0] for latch in self.witness.latches if latch[0] not in self.latches]

    def reset(self):
        clauses = Clauses()
        x, y = self.both(clauses)
        self.equal(
            clauses,
            self.starts(self.model, x, self.latches_of(self.model))
            + self.starts(self.witness, y, self.own()),
        )
        clauses.hold(self.parts(self.model, x, "constraints"))
        self.broken(
            clauses, self.starts(self.witness, y, self.latches),
            self.parts(self.witness, y, "constraints"),
        )
        return clauses

    def transition(self):
        clauses = Clauses()
        (x, y), (after, z) = self.both(clauses), self.both(clauses)
        self.equal(
            clauses,
            self.moves(self.model, x, after, self.latches_of(self.model))
            + self.moves(self.witness, y, z, self.own()),
        )
        for known, machine in [(x, self.model), (after, self.model), (y, self.witness)]:
            clauses.hold(self.parts(machine, known, "constraints"))
        self.broken(
            clauses, self.moves(self.witness, y, z, self.latches),
            self.parts(self.witness, z, "constraints"),
        )
        return clauses

    def property(self):
        clauses = Clauses()
        x, y = self.both(clauses)
        clauses.hold(
            self.parts(self.model, x, "constraints") + self.parts(self.witness, y, "constraints")
        )
        clauses.hold(-literal for literal in self.parts(self.witness, y, "bads"))
        clauses.some(self.parts(self.model, x, "bads"))
        return clauses

    def base(self):
        clauses = Clauses()
        y = clauses.copy(self.witness, {})
        self.equal(clauses, self.starts(self.witness, y, self.latches_of(self.witness)))
        clauses.hold(self.parts(self.witness, y, "constraints"))
        clauses.some(self.parts(self.witness, y, "bads"))
        return clauses

    def step(self):
        clauses = Clauses()
        y = clauses.copy(self.witness, {})
        z = clauses.copy(self.witness, {})
        self.equal(clauses, self.moves(self.witness, y, z, self.latches_of(self.witness)))
        clauses.hold(
            self.parts(self.witness, y, "constraints") + self.parts(self.witness, z, "constraints")
        )
        clauses.hold(-literal for literal in self.parts(self.witness, y, "bads"))
        clauses.some(self.parts(self.witness, z, "bads"))
        return clauses


class Written(Claims):
    """A file, and what aigprove writes of it."""

    def asked_of(self):
        """Engines, and the words that ask each."""
        return {engine: [self.file] for engine in ["pdr", "windows"]}

    def run(self):
        for engine, words in self.asked_of().items():
            if witness := self.taken(engine, words):
                self.mangle(witness)
        return self

    def written(self, engine, words):
        """The certificate that aigprove writes by an engine; None where it writes none, and says
        why."""
        out = self.folder / "certificate.aag"
        out.unlink(missing_ok=True)
        status, printed, said = harness.run(
            [
                PROVE, "--timeout", str(SECONDS), "--engine", engine, "--write-certificate", out,
                *words,
            ]
        )
        is_shown, given = bool(SHOWN.search(printed.decode())), SAID.findall(said.decode())
        wanted = [] if out.exists() else [DISTINCT if is_shown else RUN if status == 10 else OPEN]
        if (
            given != wanted
            or out.exists()
            and not is_shown
            or is_shown
            and not self.is_safe
            or given == [DISTINCT]
            and engine != "windows"
        ):
            self.fail(f"{engine}: {status} {printed} {said}")
        self.counts[f"by {engine}: {given[0] if given else 'written'}"] += 1
        return str(out) if out.exists() else None

    def broken(self, witness):
        """The conditions that a witness circuit in the model's order breaks, as cadical says, and
        of a small one a search, too."""
        conditions = Conditions(self.model, witness)
        broken = [
            name
            for name in CONDITIONS
            if self.proof(getattr(conditions, name)().text(), "own-proof") is None
        ]
        if sum(map(len, leaves_of(witness))) <= SMALL:
            self.counts["searched"] += 1
            if (found := Search(self.model, Witness(witness, {})).broken()) != broken:
                self.fail(
                    f"a search finds broken {found}, and by the clauses that are made here"
                    f" {broken} are"
                )
        return broken

    def taken(self, engine, words):
        """Checks the certificate that aigprove writes by an engine, if it does, and gives its
        circuit."""
        out = self.written(engine, words)
        if out is None:
            return None
        witness = machine_of(output([TOOL, "text", out]))
        if broken := self.broken(witness):
            self.fail(f"{engine}: a certificate breaks {broken}")
        self.compare([self.file, out], [], self.rng.choice([[], ["raw"]]))
        if said := self.compare_proved([self.file, out], []):
            self.fail(f"{engine}: a certificate isn't taken: {said}")
        return witness

    def mangle(self, witness):
        """Has a mangled certificate, whose resets aren't functions, be refused by what it breaks,
        or taken."""
        mangles = [it for it in MANGLES if it is not other_names]
        while has_functions(
            (other := self.rng.choice(mangles)(self.rng, Witness(witness, {}))).machine
        ):
            pass
        pair, broken = self.pair(other), self.broken(other.machine)
        self.compare(pair, broken, self.rng.choice([[], ["raw"]]))
        said = self.compare_proved(pair, broken)
        has_all = all(
            len(own) >= len(given)
            for given, own in zip(leaves_of(self.model), leaves_of(other.machine))
        )
        if said and has_all and not BREAKS.search(said):
            self.fail(f"what breaks a certificate isn't told: {said}")


class Design(Written, certified.Design):
    """A safe design."""

    def run(self):
        # ABC has constraints kept by a latch more.
        if not self.model.constraints:
            self.check_invariant()
        return super().run()

    def check_invariant(self):
        """Checks that an invariant is taken that pdr of ABC writes of the file."""
        pla = self.folder / "inv.pla"
        harness.run(
            ["berkeley-abc", "-q", f"read_aiger {self.file}; fold; pdr -d -I {pla}"],
            timeout=SECONDS,
        )
        if pla.exists():
            self.compare_proved([self.file, str(pla)], [])
            lines = pla.read_text().splitlines()
            cubes = [i for i, line in enumerate(lines) if line[:1] in ("0", "1", "-")]
            pla.write_text(
                "\n".join(line for i, line in enumerate(lines) if i not in cubes[::2]) + "\n"
            )
            _, printed, said = harness.run([PROVE, "--certificate", pla, self.file])
            if SAFE not in printed and b"certificate: " not in said:
                self.fail(f"half an invariant: {printed} {said}")
            self.counts["invariants of ABC's"] += 1


class Rewritten(Written):
    """A design beside what ABC makes of it: a certificate is about their miter."""

    def __init__(self, design, command, folder):
        super().__init__(folder, random.Random(design))
        *self.files, _ = rewritten(design, command, self.folder)
        self.file, self.is_safe = self.put("miter.aag", output([EDIT, "miter", *self.files])), True
        self.model = machine_of(output([TOOL, "text", self.file]))

    def asked_of(self):
        first, other = self.files
        return {"registers": ["--equal", other, first]}


def one_of_machines(rng):
    """A random machine, most often one that is never bad, though a state that isn't reached leads
    to one; and whether it's never bad."""
    while True:
        machine = random_machine(rng)
        is_safe = machine.first_bad() is None
        if rng.random() < (0.01 if not is_safe else 0.03 if machine.is_inductive() else 1):
            return machine, is_safe


class Trial(Written):
    """A random machine."""

    def __init__(self, rng, folder):
        super().__init__(folder, rng)
        self.model, self.is_safe = one_of_machines(self.rng)
        self.file = self.put("model.aag", named(self.rng, self.model, STANDS, "il").text())


@pytest.mark.cadical
@pytest.mark.abc
@pytest.mark.parametrize("name", safe_designs("safe", "open"))
def test_design(folder, checks, name):
    """What aigprove writes of a safe design is a witness circuit."""
    checks.passed += sum(Design(name, folder).run().counts.values())


@pytest.mark.cadical
@pytest.mark.abc
@pytest.mark.parametrize("design, command", REWRITTEN)
def test_rewritten(folder, checks, design, command):
    """What aigprove writes of a design beside what ABC makes of it is a witness circuit of their
    miter."""
    counts = Rewritten(design, command, folder).run().counts
    assert counts["by registers: written"]
    checks.passed += sum(counts.values())


@pytest.mark.cadical
@pytest.mark.abc
@pytest.mark.parametrize("engine", ["pdr", "windows"])
def test_engine(folder, engine):
    """An engine has a certificate of a design."""
    made = Design("gray", folder)
    assert made.taken(engine, [made.file]) is not None


@pytest.mark.cadical
@pytest.mark.abc
@cases(6, 300)
@given(rng=choices())
def test_random_machine(folder, checks, rng):
    """What aigprove writes of a random machine is a witness circuit."""
    checks.passed += sum(Trial(rng, folder).run().counts.values())
