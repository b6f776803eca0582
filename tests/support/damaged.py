"""Random files of both forms, damaged by bytes, by numbers and by lines."""
import random
import re

from machines import named, renumbered, small_machine
from mangling import damaged_bytes, damaged_lines

# Names of places, and bytes that are put into files.
NAMES = ["", "a", "a b", "0", "é", "i0 x"]
PIECES = [b"\n", b" ", b"0", b"c", b"-", b"\r\n", b"\xff", b"\0"]


def undamaged(rng):
    """A file of either form, perhaps with a comment."""
    machine, most, all_counts = small_machine(rng, (4, 4, 12), (0, 2)), None, rng.random() < 0.5
    machine = named(rng, machine, NAMES, "ilobcj", 0.3)
    machine.latches = [row[: rng.choice([2, 3, 3, 3])] for row in machine.latches]
    if rng.random() < 0.5:
        data = machine.binary(all_counts=all_counts)
    else:
        if rng.random() < 0.7:
            machine, most = renumbered(rng, machine)
            rng.shuffle(machine.gates)
        data = machine.text(most=most, all_counts=all_counts).encode()
    return data + rng.choice([b"", b"", b"c", b"comment\ni0 x\n"])


def damaged_number(rng, data):
    """The bytes with one of their numbers made one near it or near a border, or spelled longer."""
    found = list(re.finditer(rb"\d+", data))
    if not found:
        return data
    one = rng.choice(found)
    value = int(one[0][:20])
    near, borders = [value + 1, max(value - 1, 0), value ^ 1, 2 * value], [
        0, 1, 2, 16_777_215, 16_777_216, 2**31, 2**32 - 1, 2**32,
    ]
    return (
        data[: one.start()]
        + b"0" * rng.choice([0, 0, 0, 1, 40])
        + b"%d" % rng.choice(near + borders)
        + data[one.end():]
    )


def made_file(rng: random.Random) -> bytes:
    """A file, damaged a few times or not at all."""
    data = undamaged(rng)
    for _ in range(rng.choice([0, 1, 1, 1, 2, 3])):
        data = rng.choice([
            damaged_number(rng, data),
            damaged_bytes(rng, data, PIECES),
            b"".join(damaged_lines(rng, data.splitlines(keepends=True))),
        ])
    return data
