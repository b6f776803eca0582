"""Proofs with RAT steps, in LRAT, of random clauses and of pigeonholes, and what is mangled of
them."""
import functools
import itertools
import random
import re
from pathlib import Path

from harness import CHECK, output
from machines import machine_of_clauses, random_clauses
from mangling import binary_of_lines, damaged_bytes, mangled, text_of
from proof_checker import NEW, PIECES, WORD, Clauses, Formula, is_taken, numbered
from trials import Files

# How often a proof is mangled.
MANGLED = 4
# How many variables of a random formula are spare.
SPARE = 4
HOLES = range(3, 13)
INPUT = re.compile(r"^c i(\d+) at step 0 is (-?\d+)$", re.M)


def true_along(clauses, clause, hints):
    """What is true where a clause is false, along hints each of which has one literal that isn't
    false."""
    true = {-literal for literal in clause}
    for hint in hints:
        true |= {-inverse for inverse in clauses.inverses[hint] - true}
    return true


def needed(clauses, clause, hints):
    """Those of the hints on which the conflict at their end rests."""
    true, made = {-literal for literal in clause}, {}
    for hint in hints:
        made[hint] = {-inverse for inverse in clauses.inverses[hint] - true}
        true |= made[hint]
    kept, used = [], set()
    for hint in reversed(hints):
        # The last one makes nothing true.
        if not made[hint] or made[hint] & used:
            kept.append(hint)
            used |= clauses.inverses[hint]
    return kept[::-1]


def some_hints(clauses, clause):
    """A few hints along which literals are true where a clause is false, without a conflict."""
    true, hints = {-literal for literal in clause}, []
    for number, other in clauses.all.items():
        left = {literal for literal in other if -literal not in true}
        if len(left) == 1 and not left & true:
            hints.append(number)
            true |= left
    return hints[:5]


class Writer:
    """Lines of an LRAT file, and the clauses that are there behind them. A brief one gives a clause
    that follows no hint beyond need."""

    def __init__(self, formula, brief=False):
        self.clauses, self.number, self.lines, self.brief = (
            Clauses(formula.clauses), len(formula.clauses),
            [],
            brief,
        )

    def put(self, clause, behind):
        """Adds a clause, with these numbers behind it."""
        self.number += 1
        self.clauses.add(self.number, tuple(clause))
        self.lines.append([str(self.number), *map(str, clause), "0", *map(str, behind), "0"])

    def learn(self, *clause):
        """Adds a clause that follows."""
        hints = self.clauses.follow(clause)
        assert hints is not None, clause
        self.clauses.forget()
        self.put(clause, needed(self.clauses, clause, hints) if self.brief else hints)

    def groups(self, clause, along):
        """Hints for each clause with the inverse of the first literal that needs some, behind its
        number, where hints for all stand before; None where something doesn't follow."""
        words = []
        for number in sorted(self.clauses.having[-clause[0]]):
            rest = [literal for literal in self.clauses.all[number] if literal != -clause[0]]
            if any(-literal in clause for literal in rest):
                continue
            true = true_along(self.clauses, clause, along)
            self.clauses.fixed = true
            hints = [] if true.intersection(rest) else self.clauses.follow([*clause, *rest])
            self.clauses.forget()
            if hints is None:
                return None
            words += [-number, *hints]
        return words

    def add(self, *clause, along=()):
        """Adds a clause that has the RAT property on its first literal; whether it has."""
        groups = self.groups(clause, along)
        if groups is not None:
            self.put(clause, [*along, *groups])
        return groups is not None

    def delete(self, found):
        self.lines.append([str(self.number), "d", *map(str, found), "0"])
        for number in found:
            self.clauses.remove(number)

    def again(self, rng):
        """Deletes some clauses, and adds them by RAT steps, with a literal first by which that can
        be; how many."""
        count = 0
        for number in rng.sample(sorted(self.clauses.all), 6):
            clause = self.clauses.all[number]
            self.clauses.remove(number)
            turned = (
                [pivot, *(literal for literal in clause if literal != pivot)]
                for pivot in rng.sample(clause, len(clause))
            )
            found = next((one for one in turned if self.groups(one, []) is not None), None)
            self.clauses.add(number, clause)
            if found and len(clause) > 1:
                self.delete([number])
                along = some_hints(self.clauses, found) if rng.random() < 0.5 else []
                assert self.add(*found, along=along)
                count += 1
        return count

    def block(self, rng):
        """Adds a clause that is blocked by its first literal: it has the inverse of another one of
        each clause with that literal's."""
        pivot = rng.choice(sorted(self.clauses.having))
        others = [self.clauses.all[number] for number in sorted(self.clauses.having[-pivot])]
        rests = [[literal for literal in other if literal != -pivot] for other in others]
        if len(rests) < 6 and all(rests):
            self.put([pivot, *{-rng.choice(rest) for rest in rests}], [])
        return len(rests) < 6 and all(rests)

    def conclude(self, solve):
        """Adds the steps of cadical's proof of the clauses that are there."""
        order = sorted(self.clauses.all)
        names = dict(enumerate(order, 1))
        clauses = self.clauses.all.values()
        greatest = max(abs(literal) for clause in clauses for literal in clause)
        made = Formula(f"p cnf {greatest} 0\n")
        made.clauses = [self.clauses.all[number] for number in order]
        for line in numbered(made, solve(made)):
            self.lines.append(renamed(line, names, self.number - len(order)))


def renamed(line, names, more):
    """A line with other numbers of clauses: those of `names`, or so much more."""

    def name(word):
        return str(names.get(int(word), int(word) + more))

    end = 1 if line[1] == "d" else line.index("0", 1)
    head = line[0] if line[0] == str(len(names)) and end == 1 else name(line[0])
    return [head, *line[1:end + 1], *map(name, line[end + 1:-1]), "0"]


class Question(Files):
    """Clauses of a machine that is never bad, given by clauses and spare variables, and proofs of
    that."""

    def ask(self, count, clauses, spare):
        self.file = self.put("made.aag", machine_of_clauses(count, clauses, spare).text())
        text = output([CHECK, "clauses", self.file, "0"])
        self.formula, literals = Formula(text), {
            int(i): int(literal) for i, literal in INPUT.findall(text)
        }
        self.literals = [literals[i] for i in range(count)]
        self.spare = [literals[i] for i in range(count, count + spare)]

    def solve(self, formula):
        """The lines of cadical's proof; None where there is a solution."""
        rows = [[*map(str, clause), "0"] for clause in formula.clauses]
        path = self.proof(f"p cnf {formula.variables} {len(rows)}\n{text_of(rows)}", "proof.drat")
        return path and [line.split() for line in Path(path).read_text().splitlines()]

    def is_taken(self, data):
        return self.takes(
            "no bad state at step 0", "refuted", self.file, "0", self.put("proof", data)
        )

    def compare(self, rng, kind, lines):
        """Compares a proof, and what is mangled of it, with the checker."""
        self.counts[kind] += 1
        data = binary_of_lines(lines)
        for proof in [text_of(lines).encode(), WORD + data]:
            if not is_taken(self.formula, proof) or not self.is_taken(proof):
                self.fail(f"a proof is refused:\n{proof}")
        self.compare_bytes("without the word", data)
        turned = [
            spoilt, spoilt, functools.partial(mangled, count=1),
            functools.partial(renumbered, self.formula.variables),
        ]
        for _ in range(MANGLED):
            self.compare_mangled(rng, rng.choice(turned)(rng=rng, lines=lines))
        self.compare_bytes(
            "mangled bytes", rng.choice([WORD, b""]) + damaged_bytes(rng, data, PIECES)
        )

    def compare_mangled(self, rng, lines):
        """Compares mangled lines as text, and in the binary form where it has a place for each
        word."""
        self.compare_bytes("mangled", text_of(lines).encode())
        if all(
            len(line) > 1 and "d" not in [line[0], *line[2:]] and int(line[0]) >= 0
            for line in lines
        ):
            self.compare_bytes("mangled, binary", rng.choice([WORD, b""]) + binary_of_lines(lines))

    def compare_bytes(self, kind, proof):
        taken = is_taken(self.formula, proof)
        self.counts[f"{kind}, {'taken' if taken else 'refused'}"] += 1
        if self.is_taken(proof) != taken:
            self.fail(f"a mangled proof is {'refused' if taken else 'taken'}:\n{proof}")


class Trial(Question):
    """Random clauses without a solution."""

    def __init__(self, rng, folder):
        super().__init__(folder, rng)
        while True:
            self.ask(*random_clauses(self.rng), SPARE)
            if (
                not self.formula.is_in_conflict()
                and Clauses(self.formula.clauses).propagate([]) is None
                and self.solve(self.formula)
            ):
                return

    def run(self):
        writer = Writer(self.formula)
        self.counts["clauses again"] += writer.again(self.rng)
        if self.rng.random() < 0.8:
            self.define(writer)
        self.counts["blocked clauses"] += sum(
            writer.block(self.rng) for _ in range(self.rng.randint(0, 3))
        )
        self.counts["clauses again"] += writer.again(self.rng)
        writer.conclude(self.solve)
        self.compare(self.rng, "proofs", writer.lines)
        return self

    def new(self, writer, last):
        """A variable that no clause has: the next one, one further up, or the last that may be
        named."""
        most = self.formula.variables + NEW + len(writer.lines)
        return min(most, self.rng.choice([last + 1, last + self.rng.randint(1, 1000), most]))

    def define(self, writer):
        """Lets variables stand for the and of two literals, and uses them in place of these. Some
        are spare, and most are new."""
        others = sorted(
            {abs(literal) for clause in writer.clauses.all.values() for literal in clause}
        )
        last = self.formula.variables
        for spare in self.rng.sample([*self.spare, 0, 0, 0, 0], SPARE):
            variable = spare or self.new(writer, last)
            last = max(last, variable)
            made = variable * self.rng.choice([-1, 1])
            a, b = (other * self.rng.choice([-1, 1]) for other in self.rng.sample(others, 2))
            assert all(writer.add(*clause) for clause in [(made, -a, -b), (-made, a), (-made, b)])
            self.counts["definitions"] += 1
            for clause in [
                clause
                for clause in writer.clauses.all.values()
                if {-a, -b} <= {*clause} and made not in clause
            ]:
                writer.learn(-made, *(literal for literal in clause if literal not in [-a, -b]))
                self.counts["uses"] += 1
            others.append(variable)


class Pigeons(Question):
    """One pigeon more than holes, no two in one."""

    def __init__(self, holes, folder):
        super().__init__(folder, random.Random(holes))
        self.holes = holes
        pigeons = [
            [pigeon * holes + hole + 1 for hole in range(holes)] for pigeon in range(holes + 1)
        ]
        apart = [[-a, -b] for row in zip(*pigeons) for a, b in itertools.combinations(row, 2)]
        self.ask(holes * (holes + 1), pigeons + apart, 0)
        self.rows = [[self.literals[i - 1] for i in row] for row in pigeons]

    def run(self):
        writer, rows = Writer(self.formula, brief=True), self.rows
        self.learn_fixed(writer)
        fixed = writer.number
        self.learn_level(writer, rows)
        # All else follows without the machine's clauses. The proof keeps them, but they aren't
        # looked through again.
        for number in range(1, fixed + 1):
            writer.clauses.remove(number)
        new = itertools.count(self.formula.variables + 1)
        while len(rows) > 2:
            rows = self.fewer(writer, rows, new)
        writer.learn()
        self.compare(self.rng, "pigeonholes", writer.lines)
        return self

    def learn_fixed(self, writer):
        """What is true in any case, each by a clause and what came before, so that later hints are
        few."""
        clauses, known = writer.clauses, {}
        waiting = list(clauses.short)
        for number in waiting:
            left = clauses.inverses[number] - known.keys()
            if len(left) == 1 and -min(left) not in known:
                literal = -left.pop()
                writer.put(
                    [literal],
                    [
                        *sorted(known[other] for other in clauses.inverses[number] - {-literal}),
                        number,
                    ],
                )
                known[literal] = writer.number
                waiting += sorted(clauses.having[-literal])

    def learn_level(self, writer, rows):
        """Each pigeon is somewhere, and no two are together."""
        for row in rows:
            writer.learn(*row)
        for column in zip(*rows):
            for a, b in itertools.combinations(column, 2):
                writer.learn(-a, -b)

    def fewer(self, writer, rows, new):
        """Definitions for one pigeon less, and what follows of them: who is in the last hole takes
        the place of the last pigeon."""
        *rest, last = rows
        made = [[next(new) for _ in row[:-1]] for row in rest]
        for one, row in zip(made, rest):
            for q, p, other in zip(one, row, last):
                clauses = [(q, -p), (q, -row[-1], -other), (-q, p, row[-1]), (-q, p, other)]
                assert all(writer.add(*clause) for clause in clauses)
        for one in made:
            writer.learn(*one)
        for (one, row), (two, _) in itertools.combinations(list(zip(made, rest)), 2):
            for a, b, p in zip(one, two, row):
                writer.learn(-a, -b, -p)
                writer.learn(-a, -b)
        return made


def places_in(line):
    """Where each negative hint stands in a line that adds a clause."""
    return [place for place in range(line.index("0", 1) + 1, len(line)) if line[place][0] == "-"]


def spoilt(rng, lines):
    """A proof of which a RAT step is changed."""
    lines = [list(line) for line in lines]
    steps = [line for line in lines if line[1] not in ["d", "0"]]
    line = rng.choice([line for line in steps if places_in(line)] or steps)
    places, end = places_in(line), line.index("0", 1)
    change = rng.choice(
        ["pivot", "number", "hint", *["group", "candidate", "hint", "again"] * bool(places)]
    )
    if change == "pivot":
        line[1:end] = rng.sample(line[1:end], end - 1)
    elif change == "number":
        line[0] = str(int(line[0]) + 1)
    elif change == "hint":
        del line[rng.randrange(end + 1, max(end + 2, len(line) - 1))]
    elif change == "again":
        at = rng.choice(places)
        until = next((place for place in places if place > at), len(line) - 1)
        cut = rng.randint(at + 1, until)
        line[at:] = [*line[at:cut], *line[until:-1], line[at], *line[cut:until], "0"]
    else:
        at = rng.choice(places)
        if change == "candidate":
            lines.insert(lines.index(line), [line[0], "d", line[at][1:], "0"])
        if change == "group" or rng.random() < 0.7:
            del line[at:next((place for place in places if place > at), len(line) - 1)]
    return lines


def literals_of(line):
    """The places of the literals in a line that adds a clause."""
    return range(1, line.index("0", 1)) if line[1] != "d" else ()


def renumbered(variables, rng, lines):
    """A proof in which a variable past so many has the last number that the first step with it may
    name, or the one after."""
    first = {}
    for steps, line in enumerate(lines):
        for at in literals_of(line):
            first.setdefault(line[at].lstrip("-"), steps)
    new = [word for word in sorted(first) if int(word) > variables]
    if not new:
        return lines
    old = rng.choice(new)
    now = str(variables + NEW + first[old] + rng.choice([0, 1]))
    # Another one that has this number changes places with it.
    names = {old: now, now: old}
    lines = [list(line) for line in lines]
    for line in lines:
        for at in literals_of(line):
            word = line[at].lstrip("-")
            line[at] = "-" * (line[at][0] == "-") + names.get(word, word)
    return lines
