"""Has each question printed by one process, answered here, and its proof taken by another.

Of each question about one file and two, in both settings: the clauses are what the program prints,
a search over assignments writes a proof of them, as a text in DRAT, in LRAT and as binary DRAT, and
the later command is given the files and that proof alone. It knows nothing of the library. A proof
of no step has to be refused, where the clauses aren't in conflict at once.

Where cadical is there it writes proofs, too (a search here finds the hints of LRAT), of larger
machines: counters by unlike gates, one beside the other, side by side, and as a certificate of
themselves. A text that is a proof of the one setting is given to the other one, which has to take
it exactly where a checker here does.
"""
from pathlib import Path

import harness
import pytest
from aiger import Gates, Machine
from harness import CHECK, EDIT, TOOL, output, run
from mangling import binary_of, lines_of, text_of
from proof_checker import Clauses, Formula, is_taken, numbered

FILES = harness.TESTS / "answers"
DIFFERING, HELD, STUCK = (str(FILES / f"{name}.aag") for name in ["differing", "held", "stuck"])
# The and of two inputs, and the same by other gates: the first input, unless it is true and the
# second one isn't.
AND = "aag 3 2 0 1 1\n2\n4\n6\n6 4 2\n"
OTHER = "aag 4 2 0 1 2\n2\n4\n8\n6 5 2\n8 7 2\n"
# How many bits the counters have.
BITS = 4


def differ(gates, one, other, other_way):
    """A literal that is true where two others differ: as an or of two ands, or the other way."""
    if other_way:
        return gates.both(gates.both(one ^ 1, other ^ 1) ^ 1, gates.both(one, other) ^ 1)
    return gates.both(gates.both(one, other ^ 1) ^ 1, gates.both(one ^ 1, other) ^ 1) ^ 1


def counters(*ways):
    """Counters of the steps on which the input is true, a row of latches for each: the bits of one
    are outputs, and where two differ is bad."""
    gates = Gates(1 + BITS * len(ways))
    rows = [[4 + 2 * (BITS * at + bit) for bit in range(BITS)] for at in range(len(ways))]
    latches = []
    for row, way in zip(rows, ways):
        carry = 2
        for bit in row:
            latches.append([bit, differ(gates, bit, carry, way)])
            carry = gates.both(bit, carry)
    if len(rows) == 1:
        return Machine([2], latches, rows[0], gates=gates).text()
    same = 1
    for one, other in zip(*rows):
        same = gates.both(same, differ(gates, one, other, False) ^ 1)
    return Machine([2], latches, bads=[same ^ 1], gates=gates).text()


def negated(decisions):
    return [-literal for literal in decisions]


def refutation(formula):
    """The clauses of a DRAT proof, which a search finds: each follows from those before it by unit
    propagation. None where there is an assignment that satisfies the clauses."""
    clauses, found, number = Clauses(formula.clauses), [], len(formula.clauses)
    # Where each decision stands, and whether it is the second one of its variable.
    decisions, turned = [], []
    while True:
        if clauses.propagate(decisions) is None:
            variable = len(decisions) + 1
            if variable > formula.variables:
                return None
            decisions.append(variable)
            turned.append(False)
            continue
        found.append(negated(decisions))
        if not decisions:
            return found
        number += 1
        clauses.add(number, tuple(found[-1]))
        while turned and turned[-1]:
            turned.pop()
            decisions.pop()
            found.append(negated(decisions))
            number += 1
            clauses.add(number, tuple(found[-1]))
        if not decisions:
            return found
        decisions[-1], turned[-1] = -decisions[-1], True


def proofs_of(text):
    """The proofs of a formula in each form, and one without a step, each with whether it has to be
    taken."""
    formula = Formula(text)
    found = refutation(formula)
    assert found is not None, f"these clauses can be satisfied:\n{text}"
    steps = [(False, clause) for clause in found]
    lines = lines_of(steps)
    made = [text_of(lines).encode(), text_of(numbered(formula, lines)).encode(), binary_of(steps)]
    return [(proof, True) for proof in made] + [(b"", is_taken(formula, b""))]


def solved(folder, text):
    """cadical's proofs of a formula in each form, which have to be taken. The hints are found
    here."""
    clauses, proof = folder / "clauses", folder / "made"
    clauses.write_text(text)
    made = []
    for form in ["--no-binary", "--binary"]:
        status, printed, _ = run(["cadical", "-q", form, clauses, proof])
        assert status == 20, f"cadical ends with status {status}: {printed}, of\n{text}"
        made.append(proof.read_bytes())
    lines = [line.split() for line in made[0].decode().splitlines()]
    made.insert(1, text_of(numbered(Formula(text), lines)).encode())
    return [(proof, True) for proof in made]


# Questions by the names of files: what prints the clauses, what takes proofs of these, the words
# behind the proofs, and the line that it then prints.
QUESTIONS = [
    *(
        (
            [CHECK, "clauses", file, str(k)],
            [CHECK, "refuted", file, str(k)],
            [],
            f"no bad state at step {k}\n",
        )
        for file, k in [(STUCK, 0), (STUCK, 3), (DIFFERING, 1)]
    ),
    (
        [CHECK, "bounded", "miter.aag", "1"],
        [CHECK, "refuted", "miter.aag", "to", "1"],
        [],
        "no bad state up to step 1\n",
    ),
    *(
        (
            [CHECK, "window", STUCK, "1", *form],
            [CHECK, "inductive", STUCK, "1"],
            form,
            "no bad state at any step, if none up to step 1\n",
        )
        for form in [[], ["distinct"]]
    ),
    (
        [CHECK, "obligations", DIFFERING, HELD],
        [CHECK, "certified", DIFFERING, HELD],
        [],
        "no bad state at any step\n",
    ),
    (
        [TOOL, "query", "miter.aag", "0"],
        [CHECK, "equal", "and.aag", "other.aag", "0"],
        [],
        "equal at step 0\n",
    ),
]
# The same questions of counters.
TWINS = "twins.aag"
LARGER = [
    (
        [CHECK, "clauses", TWINS, "5"],
        [CHECK, "refuted", TWINS, "5"],
        [],
        "no bad state at step 5\n",
    ),
    (
        [CHECK, "bounded", TWINS, "5"],
        [CHECK, "refuted", TWINS, "to", "5"],
        [],
        "no bad state up to step 5\n",
    ),
    *(
        (
            [CHECK, "window", TWINS, k, *form],
            [CHECK, "inductive", TWINS, k],
            form,
            f"no bad state at any step, if none up to step {k}\n",
        )
        for k, form in [("0", []), ("1", []), ("0", ["distinct"]), ("1", ["distinct"])]
    ),
    (
        [CHECK, "obligations", TWINS, TWINS],
        [CHECK, "certified", TWINS, TWINS],
        [],
        "no bad state at any step\n",
    ),
    (
        [TOOL, "query", "joint.aag", "5"],
        [CHECK, "equal", "one.aag", "two.aag", "5"],
        [],
        "equal at step 5\n",
    ),
]


def parts_of(text):
    """The formulas of a text: two, if there is a line that begins the second."""
    first, mark, second = text.partition("c step\n")
    return [first, mark + second] if mark else [text]


def compare(checks, folder, words, taking, after, line, proofs_of=proofs_of):
    """Has proofs in each form taken of what the first words print."""
    tried = zip(*map(proofs_of, parts_of(output(words))))
    for form, proofs in zip(["DRAT", "LRAT", "binary", "no step"], tried):
        paths = [folder / f"proof{part}" for part in range(len(proofs))]
        for path, (proof, _) in zip(paths, proofs):
            path.write_bytes(proof)
        status, printed, said = run([*taking, *map(str, paths), *after])
        wanted = (0, line.encode()) if all(taken for _, taken in proofs) else (1, b"")
        checks.wants(f"{words}, {form}: {said}", wanted, (status, printed))


def mix(checks, folder, words, taking, after, line):
    """Gives cadical's proof of each setting to the other one, where it is taken if the checker here
    takes it."""
    settings = [[], ["raw"]]
    printed = [output([*words, *setting]) for setting in settings]
    if len(parts_of(printed[0])) > 1:
        return
    for text, setting, other in zip(printed, reversed(settings), reversed(printed)):
        proof = solved(folder, text)[0][0]
        (folder / "proof").write_bytes(proof)
        status, shown, said = run([*taking, str(folder / "proof"), *after, *setting])
        wanted = (0, line.encode()) if is_taken(Formula(other), proof) else (1, b"")
        checks.wants(
            f"{words} {setting}, a proof of the other setting: {said}", wanted, (status, shown)
        )


def named(question):
    """The name of a question's test."""
    words, _, after, _ = question
    return " ".join([Path(word).name for word in words] + after)


@pytest.fixture(scope="module")
def place(tmp_path_factory):
    """A folder with the files that questions are about."""
    folder = tmp_path_factory.mktemp("files")
    made = {
        "and.aag": AND,
        "other.aag": OTHER,
        TWINS: counters(False, True),
        "one.aag": counters(False),
        "two.aag": counters(True),
    }
    harness.write_files(folder, {name: text.encode() for name, text in made.items()})
    (folder / "miter.aag").write_text(
        output([EDIT, "miter", folder / "and.aag", folder / "other.aag"])
    )
    (folder / "joint.aag").write_text(
        output([EDIT, "miter", folder / "one.aag", folder / "two.aag"])
    )
    return folder


def placed(words, folder):
    """The words with the paths of files of a folder."""
    return [str(folder / word) if word.endswith(".aag") else word for word in words]


@pytest.mark.parametrize("setting", [[], ["raw"]], ids=["", "raw"])
@pytest.mark.parametrize("question", QUESTIONS, ids=named)
def test_a_search(checks, place, folder, question, setting):
    """Proofs that a search here finds are taken in each form."""
    words, taking, after, line = question
    compare(
        checks, folder, placed([*words, *setting], place), placed(taking, place),
        [*after, *setting], line,
    )


@pytest.mark.cadical
@pytest.mark.parametrize("setting", [[], ["raw"]], ids=["", "raw"])
@pytest.mark.parametrize("question", LARGER, ids=named)
def test_cadical(checks, place, folder, question, setting):
    """Proofs of cadical are taken in each form."""
    words, taking, after, line = question
    found = placed([*words, *setting], place), placed(taking, place), [*after, *setting], line
    compare(checks, folder, *found, proofs_of=lambda text: solved(folder, text))


@pytest.mark.cadical
@pytest.mark.parametrize("question", LARGER, ids=named)
def test_other_settings(checks, place, folder, question):
    """A proof of one setting is taken for the other one where the checker here takes it."""
    words, taking, after, line = question
    mix(checks, folder, placed(words, place), placed(taking, place), after, line)
