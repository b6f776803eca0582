"""Removes the values that don't matter from traces."""
import time
from collections.abc import Callable, Iterable, Sequence

from aigprove.circuits.aiger import Circuit
from aigprove.circuits.simulation import trials
from aigprove.circuits.witness import Witness

Place = tuple[int, int]
# The number of trials that are simulated at once; and the greatest number of gates, in all steps
# together, of a trace for which that is done.
AT_ONCE, SMALL = 1 << 11, 1 << 18


def places_of(trace: Witness, uninitialised: Iterable[int]) -> list[Place]:
    """Returns the places of the values of a trace that may be left out.

    A place is 0 and the position of one of these latches, or t + 1 and that of an input in step
    t."""
    inputs = [(t, i) for i in range(len(trace.steps[0])) for t in range(1, len(trace.steps) + 1)]
    rows = [trace.start, *trace.steps]
    return [(t, i) for t, i in [*((0, i) for i in uninitialised), *inputs] if rows[t][i] != "x"]


def without(trace: Witness, places: Iterable[Place]) -> Witness:
    """Returns a copy of a trace with x at these places."""
    rows = [list(row) for row in [trace.start, *trace.steps]]
    for t, i in places:
        rows[t][i] = "x"
    start, *steps = map("".join, rows)
    return trace._replace(start=start, steps=steps)


def simulated(circuit: Circuit, trace: Witness,
              uninitialised: Iterable[int], bads: Sequence[int], seconds: float) -> Witness:
    """Returns a trace with x for as many values as possible that don't matter for these bad states,
    found within a number of seconds of processor time.

    Many trials are simulated at once. Leaving out more values never makes more values known. So a
    value that can't be left out by itself never can, and of several in a row a first part can."""
    until, places = time.thread_time() + seconds, places_of(trace, uninitialised)
    gone: list[Place] = []

    def shown(left: Sequence[Place], trials_of: Callable[[int, int], int]) -> int:
        """Returns the trials in which the trace still shows its bad states.

        There is a trial for each place in `left`. The values in `gone` are left out in all trials,
        and the value at place `i` in those of `trials_of(every, i)`."""
        every = (1 << len(left)) - 1
        left_out = {**dict.fromkeys(gone, every),
                    **{place: trials_of(every, i) for i, place in enumerate(left)}}
        return trials(circuit, trace, bads, left_out, every)

    while places and time.thread_time() < until:
        left, places = places[:AT_ONCE], places[AT_ONCE:]
        alone = shown(left, lambda _, i: 1 << i)
        left = [place for i, place in enumerate(left) if alone >> i & 1]
        while left and time.thread_time() < until:
            # In the trial of a place, its value and those at the places before it are left out.
            rows = shown(left, lambda every, i: every >> i << i)
            count = (~rows & rows + 1).bit_length() - 1
            gone, left = gone + left[:count], left[count + 1:]
    return without(trace, gone)


def minimal(trace: Witness, uninitialised: Iterable[int], holds: Callable[[Witness], bool],
            seconds: float) -> Witness:
    """Returns a trace with x for as many values as possible, so that it still `holds`.

    They are found by bisection, until no single value of an input, or of these latches initially,
    can be left out, or the time is over."""
    parts, until = [places_of(trace, uninitialised)], time.monotonic() + seconds
    while parts and time.monotonic() < until:
        part = parts.pop()
        tried = without(trace, part)
        if part and holds(tried):
            trace = tried
        elif len(part) > 1:
            middle = len(part) // 2
            parts += [part[middle:], part[:middle]]
    return trace
