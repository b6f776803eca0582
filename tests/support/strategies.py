"""Random cases that shrink, and the number of cases that each test tries.

A generator of this folder takes a `random.Random`. Cases are generated from the random bits of a
seed, because hypothesis takes a millisecond longer for each case. If a case fails, hypothesis gets
the bits of its choices. It draws the case again from these bits, and makes it smaller: with fewer
gates, and with literals nearer to 0. It prints and stores this case, and the same test tries it
first when it runs again.
"""
from __future__ import annotations

import contextlib
import functools
import unittest
from collections.abc import Callable
from random import Random
from typing import Any, TypeVar

import hypothesis
import pytest
from hypothesis import Phase, settings
from hypothesis.internal.conjecture.data import ConjectureData
from hypothesis.internal.reflection import function_digest
from hypothesis.strategies import SearchStrategy

Made = TypeVar("Made")
Test = TypeVar("Test", bound=Callable[..., None])

# The number of bits of a random number from 0 to 1.
PRECISION = 24
# Whether many cases are tried, and with which seed. conftest.py sets both before pytest reads the
# tests.
is_long, seed = False, 1


class Choices(Random):
    """A source of random choices, all of which are made of bits that it is given."""

    def __init__(self, draw: Callable[[int], int]) -> None:
        super().__init__(0)
        self.draw = draw

    def getrandbits(self, count: int, /) -> int:
        return self.draw(count) if count else 0

    def random(self) -> float:
        return self.getrandbits(PRECISION) / (1 << PRECISION)


class Bits:
    """Random bits of a seed, stored in the format in which hypothesis stores its own."""

    def __init__(self, seed: int) -> None:
        self.random, self.kept = Random(seed), bytearray()

    def draw(self, count: int) -> int:
        """Returns `count` random bits as a number."""
        drawn = self.random.getrandbits(count)
        self.kept += drawn.to_bytes((count + 7) // 8, "big")
        return drawn


class Drawn(SearchStrategy[Made]):
    """A strategy for the results of a generator with random choices."""

    def __init__(self, generator: Callable[[Random], Made]) -> None:
        super().__init__()  # type: ignore[no-untyped-call]
        self.generator = generator

    def do_draw(self, data: ConjectureData) -> Made:
        return self.generator(Choices(data.draw_bits))


def made(generator: Callable[[Random], Made]) -> Drawn[Made]:
    """Returns a strategy for the results of a generator with random choices."""
    return Drawn(generator)


def choices() -> Drawn[Random]:
    """Returns a strategy for sources of random choices."""
    return made(lambda rng: rng)


class Cases:
    """The random cases of a test with `@given` whose strategies all come from this module."""

    def __init__(self, test: Any) -> None:
        self.given, self.inner = test.hypothesis._given_kwargs, test.hypothesis.inner_test
        self.kept = settings(phases=[Phase.reuse, Phase.shrink])(test)

    def try_kept(self, fixtures: dict[str, Any]) -> None:
        """Tries the stored cases, and fails with the smallest failing case that it finds."""
        __tracebackhide__ = True
        # Hypothesis raises these if it has stored no case, or none that the test can still read.
        with contextlib.suppress(unittest.SkipTest, hypothesis.errors.Unsatisfiable):
            self.kept(**fixtures)

    def first_failure(self, count: int, fixtures: dict[str, Any]) -> BaseException | None:
        """Tries `count` new cases. Stores the first that fails, and returns its exception."""
        bits = Bits(seed)
        rng = Choices(bits.draw)
        for _ in range(count):
            bits.kept.clear()
            try:
                drawn = {name: it.generator(rng) for name, it in self.given.items()}
                self.inner(**fixtures, **drawn)
            except (Exception, pytest.fail.Exception) as failure:
                key = function_digest(self.inner)  # type: ignore[no-untyped-call]
                settings.default.database.save(key, bytes(bits.kept))
                return failure
        return None


def cases(count: int, many: int | None = None) -> Callable[[Test], Test]:
    """Lets a test try `count` random cases, or `many` cases with --long. The same seed gives the
    same cases."""
    tried = (many or 10 * count) if is_long else count

    def decorated(test: Test) -> Any:
        own = Cases(test)

        @functools.wraps(test)
        def trying(**fixtures: Any) -> None:
            __tracebackhide__ = True
            own.try_kept(fixtures)
            if failure := own.first_failure(tried, fixtures):
                own.try_kept(fixtures)
                # The case has more choices than hypothesis draws, or it doesn't always fail.
                raise failure

        return trying

    return decorated


def note(words: str) -> None:
    """Prints words with a failing case."""
    if hypothesis.currently_in_test_context():
        hypothesis.note(words)
