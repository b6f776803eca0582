"""Proofs as lines and as bytes, and mangled. A line is a list of words; a step of a DRAT proof says
whether it deletes, and its clause."""
import functools

# Which finds the package of aigprove.
import harness  # noqa: F401

from aigprove.circuits.aiger import differences


def text_of(lines):
    return "".join(" ".join(line) + "\n" for line in lines)


def lines_of(steps):
    """The lines of a DRAT proof."""
    return [["d"] * deletes + [*map(str, clause), "0"] for deletes, clause in steps]


@functools.cache
def code(number):
    """The bytes of a literal, of a hint, and of the 0 after them: twice the number, and one more
    for a minus."""
    return differences([2 * abs(number) + (number < 0)])


def coded(words):
    """The bytes of a list."""
    return b"".join(map(code, map(int, words)))


def binary_of(steps):
    """The bytes of a binary DRAT proof."""
    return b"".join((b"d" if deletes else b"a") + coded([*clause, 0]) for deletes, clause in steps)


def binary_of_lines(lines):
    """The bytes of a binary LRAT file that say what the lines of one do."""
    return b"".join(
        (
            b"d" + coded(line[2:])
            if line[1:2] == ["d"]
            else b"a" + differences([int(line[0])]) + coded(line[1:])
        )
        for line in lines
    )


def damaged_lines(rng, lines):
    """The lines without one, with one more than once, with two exchanged, or cut."""
    if not lines:
        return lines
    i, j = rng.randrange(len(lines)), rng.randrange(len(lines))
    exchanged = list(lines)
    exchanged[i], exchanged[j] = lines[j], lines[i]
    return rng.choice(
        [lines[:i] + lines[i + 1:], lines[:j] + [lines[i]] + lines[j:], exchanged, lines[:i]]
    )


def damaged_bytes(rng, data, pieces):
    """The bytes with one run of them changed, left out or doubled, one of these pieces put in, or
    cut."""
    i = rng.randrange(len(data) + 1)
    j = min(len(data), i + rng.choice([0, 1, 1, 2, 8]))
    return (
        data[:i]
        + rng.choice([b"", b"", rng.randbytes(1), data[i:j] * 2, rng.choice(pieces)])
        + data[j:] * (rng.random() < 0.9)
    )


def mangled(rng, lines, count, others=()):
    """Lines of a proof with so many changes: lines damaged or put in from other proofs, words
    turned or left out."""
    lines = [list(line) for line in lines]
    for _ in range(count):
        if not lines:
            break
        i = rng.randrange(len(lines))
        place = rng.randrange(len(lines[i]))
        change = rng.choice(["lines"] * 4 + ["turn", "turn", "word"] + ["take"] * len(others[:2]))
        if change == "lines":
            lines = [list(line) for line in damaged_lines(rng, lines)]
        elif change == "take":
            lines[i:i] = map(list, rng.choice(others)[: rng.randint(1, len(lines))])
        elif change == "word":
            del lines[i][place]
            lines = [line for line in lines if line]
        elif lines[i][place] not in ["0", "d"]:
            word = int(lines[i][place])
            lines[i][place] = str(-word if rng.random() < 0.7 else word + rng.choice([-1, 1]))
    return lines
