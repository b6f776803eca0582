"""A checker of proofs that knows nothing of the library: reverse unit propagation and RAT, in DRAT
and LRAT, as text and as bytes.

It was written from the forms' descriptions. It also finds hints for a proof that has none.
"""
import collections
import functools
import itertools
import re

# Bytes that are put into a binary proof.
PIECES = [b"\0", b"\1", b"a", b"d", b"\x80"]
# How many variables that the clauses don't have the first step may name; each later one may name
# one more.
NEW = 1 << 16
# What stands before a binary LRAT proof whose first bytes may not tell, how many bytes those are,
# and how such a file is cut into words.
WORD, FRONT, CUT = b"lrat", 1024, re.compile(rb"[\x80-\xff]*[\x00-\x7f]|[\x80-\xff]+")


class Clauses:
    """Clauses by their numbers, what is true where each is false, those that have a literal, those
    of one at most, and the literals that were found to be true in any case."""

    def __init__(self, clauses=()):
        self.all, self.inverses, self.having, self.short, self.fixed = (
            {},
            {},
            collections.defaultdict(set),
            {},
            set(),
        )
        for number, clause in enumerate(clauses, 1):
            self.add(number, clause)

    def add(self, number, clause):
        self.all[number], self.inverses[number] = clause, {-literal for literal in clause}
        if len(self.inverses[number]) < 2:
            self.short[number] = clause
        for literal in clause:
            self.having[literal].add(number)

    def remove(self, number):
        self.short.pop(number, None)
        del self.inverses[number]
        for literal in self.all.pop(number):
            self.having[literal].discard(number)

    def find(self, clause):
        """The number of a clause of these literals, if there is one."""
        among, inverses = self.having[clause[0]] if clause else self.all, {
            -literal for literal in clause
        }
        return min((number for number in among if self.inverses[number] == inverses), default=None)

    def propagate(self, literals):
        """The numbers of clauses along which unit propagation from true literals ends in a
        conflict, in order; None where it doesn't. From none, it fixes what it finds."""
        true, hints = self.fixed.union(literals), []
        if any(-literal in true for literal in true):
            return hints
        waiting = list(self.short)
        waiting += [number for literal in true for number in sorted(self.having[-literal])]
        for number in waiting:
            left = self.inverses[number] - true
            if not left:
                return [*hints, number]
            inverse = left.pop()
            if left or -inverse in true:
                continue
            hints.append(number)
            true.add(-inverse)
            waiting += sorted(self.having[inverse])
        self.fixed = self.fixed if literals else true
        return None

    def forget(self):
        """Fixes no literal any more, and gives those that were fixed."""
        fixed, self.fixed = self.fixed, set()
        return fixed

    def follow(self, clause):
        return self.propagate([-literal for literal in clause])


class Formula:
    """Clauses as DIMACS has them."""

    def __init__(self, text):
        header, *lines = [line.split() for line in text.splitlines() if line[0] != "c"]
        self.variables = int(header[2])
        self.clauses = [tuple(map(int, words[:-1])) for words in lines]

    def may_name(self, literals, steps):
        """Whether a step may name these, with so many steps before it."""
        return max(map(abs, literals), default=0) <= min(self.variables + NEW + steps, 1 << 31)

    def is_in_conflict(self):
        """Whether there is the empty clause, or a literal and its inverse alone."""
        units = {clause[0] for clause in self.clauses if len(clause) == 1}
        return () in self.clauses or any(-literal in units for literal in units)


class Refusal(Exception):
    """A proof is refused."""


def needs(holds):
    """Refuses a proof, unless something holds."""
    if not holds:
        raise Refusal


def numbers_of(words):
    """The numbers of a line up to its 0, and those after it."""
    try:
        found = list(map(int, words))
        return found[: found.index(0)], found[found.index(0) + 1:]
    except ValueError:
        raise Refusal from None


def step_of(formula, steps, line):
    """Whether the line of a DRAT file deletes a clause, and that clause, with so many lines before
    it."""
    deletes = line[:1] == ["d"]
    clause, rest = numbers_of(line[deletes:])
    needs(not rest and formula.may_name(clause, steps))
    return deletes, clause


def steps_of(formula, lines):
    """The steps of a DRAT file. The first line says which form the others have, and so it is read
    in any case."""
    first = [step_of(formula, 0, line) for line in lines[:1]]
    return itertools.chain(
        first, (step_of(formula, steps, line) for steps, line in enumerate(lines[1:], 1))
    )


@functools.cache
def number_of(word):
    """The number that a word of a binary file spells: groups of seven bits, the lowest first, below
    2^32."""
    needs(0 < len(word) < 6 and word[-1] < 128)
    value = sum((byte & 127) << 7 * place for place, byte in enumerate(word))
    needs(value < 1 << 32)
    return value


@functools.cache
def signed(word):
    """The number that is half of what a word spells, and negative where that is odd."""
    code = number_of(word)
    needs(code != 1)
    return -(code // 2) if code % 2 else code // 2


def words_of(data):
    """The words of a binary file, and an empty one behind them, which spells nothing."""
    return iter([*CUT.findall(data), b""])


def listed(words):
    """The numbers of a list, without the 0 behind them."""
    return list(itertools.takewhile(bool, map(signed, words)))


def binary_steps_of(formula, data):
    """The steps of a binary DRAT file: `a` or `d`, twice each literal's number and one more for an
    inverted one, and 0."""
    words = words_of(data)
    for steps, letter in enumerate(iter(words.__next__, b"")):
        needs(letter in [b"a", b"d"])
        clause = listed(words)
        needs(formula.may_name(clause, steps))
        yield letter == b"d", clause


def binary_lines_of(data):
    """The lines of an LRAT file that say what a binary one does, with numbers for words: `a`, a
    clause's number, its literals and 0, its hints and 0; or `d`, the clauses' numbers and 0. All
    but the first number are doubled, and one more stands for a minus."""
    words = words_of(data)
    for letter in iter(words.__next__, b""):
        needs(letter in [b"a", b"d"])
        if letter == b"d":
            yield [1, "d", *listed(words), 0]
        else:
            yield [number_of(next(words)), *listed(words), 0, *listed(words), 0]


def is_shaped(data, numbered):
    """Whether the first bytes can be steps: a letter and a list up to the byte 0; with numbers, one
    and a further list behind `a`."""
    words = iter(CUT.findall(data[:FRONT]))
    for letter in words:
        longer = numbered and letter == b"a"
        if letter not in [b"a", b"d"] or (longer and next(words, None) == b"\0"):
            return False
        for _ in range(2 if longer else 1):
            next((word for word in words if word == b"\0"), None)
    return True


def has_rat(clauses, clause):
    """Whether what follows of a clause and each other one that has the inverse of its first literal
    follows (RAT). What was fixed is a clause of one literal, with which that doesn't follow."""
    if not clause or -clause[0] in clauses.fixed:
        return False
    others = [clauses.all[number] for number in clauses.having[-clause[0]]]
    return all(
        clauses.follow([*clause, *(literal for literal in other if literal != -clause[0])])
        is not None
        for other in others
    )


def check_unnumbered(formula, steps):
    """Takes steps of a DRAT file up to a conflict, or refuses them."""
    clauses, number = Clauses(formula.clauses), len(formula.clauses)
    while clauses.propagate([]) is None:
        deletes, clause = next(steps, (None, None))
        needs(clause is not None)
        if not deletes:
            needs(clauses.follow(clause) is not None or has_rat(clauses, clause))
            number += 1
            clauses.add(number, tuple(clause))
        # What has one literal alone is never deleted, nor is what was fixed, as in the checkers
        # that are in use.
        elif len(set(clause)) > 1 and (found := clauses.find(clause)):
            clauses.remove(found)


def follows(clauses, clause, hints):
    """Whether a clause follows along these hints, each of which names a clause with at most one
    literal that isn't false."""
    true = {-literal for literal in clause}
    if not true.isdisjoint(clause):
        return True
    for hint in hints:
        left = clauses.inverses[hint] - true
        if not left:
            return True
        true.add(-left.pop())
        if left:
            return False
    return False


def parted(numbers):
    """The hints at the front of a line's numbers, and those behind each negative one, by it."""
    places = [place for place, number in enumerate(numbers) if number < 0]
    groups = collections.defaultdict(list)
    for place, end in zip(places, [*places[1:], len(numbers)]):
        groups[-numbers[place]] += numbers[place + 1:end]
    return numbers[: min(places, default=len(numbers))], groups


def is_rat(clauses, clause, hints, groups):
    """Whether what follows of a clause and each other one that has the inverse of its first literal
    does so along the hints and those for that other one (RAT)."""
    opposed = clauses.having[-clause[0]] if clause else ()

    def resolvent(number):
        return [
            *clause, *(literal for literal in clauses.all[number] if literal != -clause[0]),
        ]

    return bool(clause) and all(
        follows(clauses, resolvent(number), [*hints, *groups.get(number, [])]) for number in opposed
    )


def check_numbered(formula, lines):
    """Takes the lines of an LRAT file up to the empty clause, or refuses them."""
    clauses = Clauses(formula.clauses)
    used = set(clauses.all)
    for steps, line in enumerate(lines):
        if line[1:2] == ["d"]:
            deleted, rest = numbers_of(line[2:])
            needs(not rest and int(line[0]) > 0 and min(deleted, default=1) > 0)
            for number in deleted:
                needs(number in clauses.all)
                clauses.remove(number)
            continue
        clause, hints = numbers_of(line[1:])
        hints, rest = numbers_of(hints)
        number = int(line[0])
        needs(not rest and number > 0 and formula.may_name(clause, steps) and number not in used)
        needs(clauses.all.keys() >= set(map(abs, hints)) and number < 4 * len(used) + 65540)
        hints, groups = parted(hints)
        needs(follows(clauses, clause, hints) or is_rat(clauses, clause, hints, groups))
        if not clause:
            return
        clauses.add(number, tuple(clause))
        used.add(number)
    raise Refusal


def check_text(formula, lines):
    """Takes a text or refuses it: it is one of numbers and hints where the first line has more
    behind its clause."""
    first = lines[0] if lines else []
    if first[:1] != ["d"] and (first[1:2] == ["d"] or (first[:1] != ["0"] and "0" in first[:-1])):
        check_numbered(formula, lines)
    else:
        check_unnumbered(formula, steps_of(formula, lines))


def check(formula, data):
    """Takes the bytes of a proof, or refuses them: they are binary where they begin with `a`, or
    with `d` and soon have a 0. Such steps have numbers behind the word for them, or where the first
    bytes can't be steps without, and can be steps with them."""
    if data.startswith(WORD):
        check_numbered(formula, binary_lines_of(data[len(WORD):]))
    elif data[:1] == b"a" or (data[:1] == b"d" and 0 in data[:FRONT]):
        if is_shaped(data, True) and not is_shaped(data, False):
            check_numbered(formula, binary_lines_of(data))
        else:
            check_unnumbered(formula, binary_steps_of(formula, data))
    else:
        check_text(
            formula, [line.split() for line in data.decode("latin-1").split("\n") if line.strip()]
        )


def is_taken(formula, data):
    """Whether a proof is taken."""
    try:
        if not formula.is_in_conflict():
            check(formula, data)
        return True
    except Refusal:
        return False


def numbered(formula, lines):
    """The lines of an LRAT file that say what those of a DRAT file do, with deletions of clauses
    alone that are there and fix nothing."""
    clauses, number, made, fixed = Clauses(formula.clauses), len(formula.clauses), [], set()
    for line in [*lines, ["0"]]:
        clause = tuple(int(word) for word in line if word not in ["d", "0"])
        if line[0] == "d":
            found = clauses.find(clause)
            if found and len(clause) > 1 and not fixed.intersection(clause):
                clauses.remove(found)
                made.append([str(number), "d", str(found), "0"])
            continue
        # Where unit propagation is in conflict, the empty clause follows. Hints name clauses that
        # are there.
        last = clauses.propagate([])
        fixed = clauses.forget()
        clause, hints = (clause, clauses.follow(clause)) if last is None else ((), last)
        number += 1
        made.append([str(number), *map(str, clause), "0", *map(str, hints), "0"])
        if not clause:
            break
        clauses.add(number, clause)
    return made
