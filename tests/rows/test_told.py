"""What aigedit and aigcheck do with `--limit`, how they show paths, and what they tell beside an
answer."""
from __future__ import annotations

import os
import pathlib
import resource
from collections.abc import Sequence
from typing import Any

import harness
from aiger import AND
from harness import limit
from room import Room

LEFT_OUT, WITHIN = harness.NOTICES
# An input that is bad: with a justice property and a fairness constraint, as a binary file, with
# one of both, with none, and with a constraint; with a fairness constraint an output, and a bad
# literal that is false; and a file that ends too soon.
FILES = {
    "live.aag": b"aag 1 1 0 0 0 1 0 1 1\n2\n2\n1\n2\n2\n",
    "live.aig": b"aig 1 1 0 0 0 1 0 1 1\n2\n1\n2\n2\n",
    "just.aag": b"aag 1 1 0 0 0 1 0 1\n2\n2\n1\n2\n",
    "fair.aag": b"aag 1 1 0 0 0 1 0 0 1\n2\n2\n2\n",
    "safe.aag": b"aag 1 1 0 0 0 1\n2\n2\n",
    "held.aag": b"aag 1 1 0 0 0 1 1\n2\n2\n3\n",
    "shown.aag": b"aag 1 1 0 1 0 0 0 0 1\n2\n2\n2\n",
    "none.aag": b"aag 0 0 0 0 0 1 0 0 1\n0\n0\n",
    "cut.aag": b"aag 1 1 0 0 0 1 0 1 1\n2\n2\n1\n",
    "conflict": b"0\n",
}
ASKED = b"c i0 at step 0 is 2\nc b0 at step 0 is 2\np cnf 2 2\n-1 0\n2 0\n"
# Names, and how they are shown.
NAMES = {
    b"line\naigcheck: forged": rb"line\x0aaigcheck: forged",
    b"\x1b[31mred\r": rb"\x1b[31mred\x0d",
    "é".encode(): rb"\xc3\xa9",
    b"\x7f\x01": rb"\x7f\x01",
    b" ~\\x0a": rb" ~\x0a",
}
# Commands of aigedit, and of which files they tell what.
EDITS: dict[str, list[tuple[str, bytes]]] = {
    "refine live.aag": [],
    "reencode live.aag": [],
    "unroll live.aag 1": [],
    "compress live.aag": [],
    "property live.aag 0": [],
    "possible live.aag": [],
    "live live.aag 0": [],
    "info live.aag": [],
    "merge live.aag live.aig": [],
    "reduce live.aag": [("live.aag", LEFT_OUT)],
    "reduce safe.aag": [],
    "cone shown.aag 0": [("shown.aag", LEFT_OUT)],
    "question fair.aag 1": [("fair.aag", LEFT_OUT)],
    "join safe.aag live.aag": [("live.aag", LEFT_OUT)],
    "join live.aag held.aag": [("live.aag", LEFT_OUT)],
    "miter live.aag safe.aag": [("live.aag", LEFT_OUT)],
    "miter held.aag live.aig": [("held.aag", WITHIN), ("live.aig", LEFT_OUT)],
    "miter safe.aag held.aag": [("held.aag", WITHIN)],
    "miter held.aag held.aag": [("held.aag", WITHIN)] * 2,
    "--constraints first miter held.aag held.aag": [],
    "--constraints compared miter held.aag live.aig": [("live.aig", LEFT_OUT)],
}


def ends(
    room: Room,
    program: pathlib.Path,
    words: Sequence[str | bytes],
    status: int,
    out: bytes,
    err: bytes,
    **how: Any
) -> None:
    """Checks how a program ends with these words, and what it writes."""
    wanted = status, out, err
    found = harness.run([program, *words], cwd=room.folder, **how)
    room.check(found == wanted, f"{program.name} {words}: {found}, and not {wanted}")


def lines(program: pathlib.Path, told: list[tuple[str, bytes]]) -> bytes:
    """The lines that a program tells of files."""
    return b"".join(
        b"%s: %s: %s\n" % (program.name.encode(), name.encode(), text) for name, text in told
    )


def titled(words: str, name: str, clauses: bytes) -> bytes:
    """The clauses of a file behind their title."""
    return harness.title(words, FILES[name]) + clauses


def test_paths_are_spelled_out(room: Room) -> None:
    for name, shown in NAMES.items():
        for program, command in [
            (room.editor, [b"refine", name]),
            (room.checker, [b"window", name, b"0"]),
        ]:
            line = b"%s: %s: " % (program.name.encode(), shown)
            ends(room, program, command, 1, b"", line + b"cannot open\n")
            room.write(os.fsdecode(name), b"aag 0\n")
            ends(room, program, command, 1, b"", line + b"line 1: bad header line\n")
            room.path(os.fsdecode(name)).unlink()
    ends(room, room.editor, ["refine", b"\xff"], 2, b"", harness.USAGE["aigedit"])


def test_what_is_left_out_is_told(room: Room) -> None:
    """By aigcheck of each file, however it comes, and of no file beside a refusal."""
    harness.write_files(room.folder, FILES)
    for name in ["live.aag", "live.aig", "just.aag", "fair.aag"]:
        told = lines(room.checker, [(name, LEFT_OUT)])
        asked = titled("clauses 0", name, ASKED)
        ends(room, room.checker, ["clauses", name, "0"], 0, asked, told)
        piped = told.replace(name.encode(), b"/dev/stdin")
        ends(room, room.checker, ["clauses", "/dev/stdin", "0"], 0, asked, piped, input=FILES[name])
    ends(
        room, room.checker, ["clauses", "safe.aag", "0"], 0, titled("clauses 0", "safe.aag", ASKED),
        b"",
    )
    never = titled("bounded 1", "none.aag", b"p cnf 1 2\n-1 0\n1 0\n")
    ends(
        room, room.checker, ["bounded", "none.aag", "1"], 0, never,
        lines(room.checker, [("none.aag", LEFT_OUT)]),
    )
    ends(
        room, room.checker, ["clauses", "cut.aag", "0"], 1, b"",
        lines(room.checker, [("cut.aag", b"line 4: bad line in justice")]),
    )
    refused = harness.advised(lines(room.checker, [("conflict", b"proof step does not follow")]))
    ends(room, room.checker, ["refuted", "live.aag", "0", "conflict"], 1, b"", refused)
    with open("/dev/full", "wb") as full:
        ends(
            room, room.checker, ["clauses", "live.aag", "0"], 1, b"", b"aigcheck: write failed\n",
            stdout=full,
        )


def test_what_limits_a_comparison_is_told(room: Room) -> None:
    harness.write_files(room.folder, FILES)
    for pair in [
        ("held.aag", "safe.aag"),
        ("safe.aag", "held.aag"),
        ("held.aag", "held.aag"),
        ("safe.aag", "safe.aag"),
    ]:
        told = lines(room.checker, [(name, WITHIN) for name in pair if name == "held.aag"])
        ends(room, room.checker, ["equal", *pair, "0", "conflict"], 0, b"equal at step 0\n", told)
    # Not where the line says what constraints say.
    words = ["equal", "held.aag", "held.aag", "0", "conflict"]
    ends(
        room, room.checker, ["--constraints", "first", *words], 0,
        b"equal at step 0, under the constraints of the first alone\n", b"",
    )
    ends(
        room, room.checker, ["--constraints", "compared", *words], 0,
        b"equal at step 0, constraints too\n", b"",
    )
    asked = titled("clauses 0", "held.aag", ASKED.replace(b"2 2\n-1 0\n", b"2 3\n-1 0\n-2 0\n"))
    ends(room, room.checker, ["clauses", "held.aag", "0"], 0, asked, b"")


def test_a_run_names_its_property(room: Room) -> None:
    """So beside a witness nothing is told of justice and fairness, whether it is of a bad state or
    of a fair lasso."""
    harness.write_files(room.folder, FILES)
    for letter, shown in [("b", b"b0 at step 0\n"), ("j", b"j0 in a loop from step 0 to 0\n")]:
        room.write("witness", f"1\n{letter}0\n\n1\n.\n".encode())
        ends(room, room.checker, ["run", "live.aag", "witness"], 0, shown, b"")


def test_commands_tell_what_they_leave_out(room: Room) -> None:
    """Those of aigedit whose files have no justice and fairness."""
    harness.write_files(room.folder, FILES)
    for command, told in EDITS.items():
        status, _, error = harness.run([room.editor, *command.split()], cwd=room.folder)
        is_told = (status, error) == (0, lines(room.editor, told))
        room.check(is_told, f"{command}: status {status}, {error!r}")


def test_more_nodes_are_read_where_words_allow_it(room: Room) -> None:
    """Inputs of a binary file, which take no byte there."""
    inputs = 1 << 24
    room.write("wide", b"aig %d %d 0 0 0\n" % (inputs, inputs))
    counts = b"".join(
        b"%s 0\n" % name
        for name in b"latches outputs gates bads constraints justice fairness levels".split()
    )
    more: list[list[str]] = [[], ["--limit", str(inputs)]]
    for words in more:
        ends(
            room, room.editor, [*words, "info", "wide"], 1, b"",
            b"aigedit: wide: line 1: too many variables\n",
        )
    ends(
        room, room.editor, ["--limit", str(inputs + 1), "info", "wide"], 0,
        b"inputs %d\n" % inputs + counts, b"",
    )


def test_more_steps_are_made_where_words_allow_it(room: Room) -> None:
    """20,000,000 nodes: 100 gates over an input, at each of 200,000 steps, beside a latch that
    stays 0 and is bad where it is 1."""
    gates = b"".join(b"%d %d 2\n" % (n, n - 2) for n in range(6, 206, 2))
    room.write("steps", b"aag 102 1 1 0 100 1\n2\n4 4\n4\n" + gates)
    room.write("conflict", b"0\n")
    words = ["refuted", "steps", "200000", "conflict"]
    ends(
        room, room.checker, words, 1, b"", b"aigcheck: steps: unrolled circuit may pass the limit\n"
    )
    shown = b"no bad state at step 200000\n"
    ends(
        room, room.checker, ["--limit", "33554432", *words], 0, shown, b"",
        preexec_fn=limit(resource.RLIMIT_AS, 4 << 30),
    )


def test_a_high_limit_takes_no_memory(room: Room) -> None:
    little = limit(resource.RLIMIT_AS, 64 << 20)
    ends(
        room, room.editor, ["--limit", "2147483648", "reencode", "and.aag"], 0, AND, b"",
        preexec_fn=little,
    )
    harness.write_files(room.folder, FILES)
    asked = titled("clauses 0", "safe.aag", ASKED)
    ends(
        room, room.checker, ["--limit", "2147483648", "clauses", "safe.aag", "0"], 0, asked, b"",
        preexec_fn=little,
    )
