"""Loads the library for the package aig, and makes its calls."""
from __future__ import annotations

import ctypes
import os
import pathlib
from typing import Any, NamedTuple

DONE, SMALL, MEMORY = 0, 1, 2

_here = pathlib.Path(__file__).resolve().parent
_PLACES = [_here, _here.parents[1], _here.parents[2] / "crates" / "aig_calls" / "out"]


def _path() -> str:
    """Returns where the library lies: where the environment says, the first place that has it, or
    where the system finds it."""
    found = [str(path) for place in _PLACES if (path := place / "libaig.so").is_file()]
    return os.environ.get("LIBAIG") or [*found, "libaig.so.1"][0]


_library = ctypes.CDLL(_path())
_size, _bool, _step = ctypes.c_size_t, ctypes.c_bool, ctypes.c_uint64
_TEXT, _U8, _I32 = ctypes.c_char_p, ctypes.POINTER(ctypes.c_uint8), ctypes.POINTER(ctypes.c_int32)
_SIZES, _U32, _POINTER = ctypes.POINTER(_size), ctypes.c_uint32, ctypes.c_void_p

# The minimum size of the buffer for an answer.
_ROOM = 1 << 16


class Refused(Exception):
    """Raised if a call is refused. `status` is its status, as in `aig.h`, and the text is the
    message that the programs print for this status."""

    def __init__(self, status: int):
        super().__init__(_message(status))
        self.status = status


class Clauses(NamedTuple):
    """Clauses as DIMACS numbers, with a 0 after each clause. `variables` is the largest variable.
    The other lists contain the literals of the inputs, step by step, of the latches at step 0, and
    of the bad state properties at the last step, in the file's order."""

    variables: int
    numbers: list[int]
    inputs: list[list[int]]
    latches: list[int]
    bads: list[int]


class Shown(NamedTuple):
    """A bad state that a witness shows: the number of the bad state property, and the step. Both
    are counted from 0."""

    bad: int
    step: int


class Lasso(NamedTuple):
    """A fair lasso that a witness shows: the number of the justice property, the step at which its
    loop starts, and the last step. All are counted from 0."""

    justice: int
    start: int
    last: int


def _declare(takes: dict[str, list[Any]], result: Any = ctypes.c_uint32) -> None:
    """Declares the types of the parameters and of the result of each call of `aig.h`."""
    for name, kinds in takes.items():
        call = getattr(_library, name)
        call.argtypes, call.restype = kinds, result


def _given(data: bytes) -> tuple[bytes, int]:
    """Returns the arguments of a call for bytes, which the call only reads."""
    whole = bytes(data)
    return whole, len(whole)


def _steps(k: int) -> int:
    """Returns the argument of a call for the number of a step. If the number is too large for C,
    returns one that the call refuses."""
    if k < 0:
        raise ValueError("a step has a number from 0 on")
    return min(k, 1 << 32)


def _number(n: int) -> int:
    """Returns the argument of a call for the number of an output or property, or for a count. If it
    is too large for C, returns the largest possible number, because no file has so many items."""
    if n < 0:
        raise ValueError("a number is from 0 on")
    return min(n, (1 << 64) - 1)


def _refusal(status: int) -> Exception:
    """Returns the exception for a status that isn't AIG_DONE."""
    if status == MEMORY:
        return MemoryError(_message(status))
    return Refused(status)


def _answer(name: str, *words: Any, kind: Any = ctypes.c_uint8, more: int = 0) -> tuple[Any, ...]:
    """Makes a call, and returns the items of its answer and its further numbers. Makes the call at
    most twice, first with a buffer that is twice as large as the given bytes."""
    call = getattr(_library, name)
    room = max(_ROOM, 2 * sum(len(word) for word in words if isinstance(word, bytes)))
    while True:
        out, counts = (kind * room)(), [_size() for _ in range(1 + more)]
        status = call(*words, out, room, *map(ctypes.byref, counts))
        if status == DONE:
            return (out, *(count.value for count in counts))
        if status != SMALL:
            raise _refusal(status)
        room = counts[0].value


def _counts(file: bytes) -> tuple[int, int]:
    """Returns the numbers of inputs and latches of a file, from its header line, which has to be
    valid."""
    words = file[: file.index(b"\n")].split()
    return int(words[2]), int(words[3])


def _bytes(name: str, *words: Any) -> bytes:
    """Makes a call, and returns the bytes of its answer."""
    out, count = _answer(name, *words)
    return ctypes.string_at(out, count)


def _message(status: int) -> str:
    """Returns the meaning of a status as text."""
    out, needed = (ctypes.c_uint8 * 128)(), _size()
    _library.aig_message(status, out, len(out), ctypes.byref(needed))
    return ctypes.string_at(out, needed.value).decode()


def _hold(name: str, *words: Any) -> None:
    """Makes a call that checks something, and raises an exception if the check fails."""
    status = getattr(_library, name)(*words)
    if status != DONE:
        raise _refusal(status)


def _told(name: str, count: int, *words: Any) -> list[int]:
    """Makes a call, and returns the given count of numbers that it returns."""
    numbers = [_size() for _ in range(count)]
    _hold(name, *words, *map(ctypes.byref, numbers))
    return [number.value for number in numbers]


def query_numbers(file: bytes, k: int, *, optimize: bool = True) -> Clauses:
    """Returns the clauses of a file's query for step `k` as numbers, and the literals of inputs,
    latches and bad state properties. A file without bad state properties is refused."""
    whole = bytes(file)
    words = [*_given(whole), _steps(k), optimize]
    answer = _answer("aig_query_numbers", *words, kind=ctypes.c_int32, more=2)
    out, count, variables, clauses_len = answer
    numbers, places = out[:clauses_len], out[clauses_len:count]
    inputs, latches = _counts(whole)
    steps = [places[t * inputs:(t + 1) * inputs] for t in range(k + 1)]
    rest = places[(k + 1) * inputs:]
    return Clauses(variables, numbers, steps, rest[:latches], rest[latches:])
