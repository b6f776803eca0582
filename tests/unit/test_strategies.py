"""Random cases: how many are tried, and how one that fails is made smaller and tried again."""
from __future__ import annotations

from collections.abc import Iterator
from random import Random
from typing import Any

import pytest
import strategies
from hypothesis import given, settings
from hypothesis.database import InMemoryExampleDatabase
from hypothesis.internal.conjecture.data import ConjectureData
from strategies import Bits, Choices, cases, choices, made


@pytest.fixture(autouse=True)
def kept_apart() -> Iterator[None]:
    """Keeps cases that fail here apart from those of other tests."""
    database = InMemoryExampleDatabase()  # type: ignore[no-untyped-call]
    settings.register_profile("kept apart", settings.default, database=database)
    settings.load_profile("kept apart")
    yield
    settings.load_profile("aig")


def numbers(rng: Random) -> list[int]:
    """Some numbers below 1,000."""
    return [rng.randrange(1000) for _ in range(rng.randrange(20))]


def choices_of(rng: Random) -> list[Any]:
    """What each way to choose gives."""
    row = list(range(10))
    rng.shuffle(row)
    chosen = rng.random(), rng.uniform(1, 2), rng.choice("abc"), rng.choices("abc", k=3)
    drawn = rng.getrandbits(0), rng.getrandbits(1), rng.getrandbits(77), rng.randbytes(3)
    return [row, chosen, drawn, rng.randint(-5, 5), rng.randrange(7), rng.sample(range(9), 4)]


def test_shrinks() -> None:
    """A case that fails becomes the smallest, which is tried first in the next run."""
    tried: list[list[int]] = []
    most = 990

    @cases(100)
    @given(row=made(numbers))
    def are_small(row: list[int]) -> None:
        tried.append(row)
        assert all(number < most for number in row), f"{row} has a large number"

    with pytest.raises(AssertionError, match=r"^\[990\] has a large number"):
        are_small()
    tried.clear()
    with pytest.raises(AssertionError, match=r"^\[990\] has a large number"):
        are_small()
    assert tried[0] == [990]
    # Once the test is mended, it tries all cases.
    tried.clear()
    most = 1000
    are_small()
    assert tried[0] == [990] and len(tried) > 100


def test_count(monkeypatch: pytest.MonkeyPatch) -> None:
    """So many cases are tried. The same seed gives the same ones, and another one others."""
    tried: list[int] = []

    @cases(7)
    @given(rng=choices())
    def keeps(rng: Random) -> None:
        tried.append(rng.getrandbits(64))

    keeps()
    keeps()
    assert len(set(tried[:7])) == 7 and tried[:7] == tried[7:]
    monkeypatch.setattr(strategies, "seed", 2)
    keeps()
    assert len(tried) == 21 and not set(tried[:7]) & set(tried[14:])


def test_long(monkeypatch: pytest.MonkeyPatch) -> None:
    """With --long a test tries ten times as many cases, or as many as it says."""
    monkeypatch.setattr(strategies, "is_long", True)
    tried: list[str] = []

    @cases(2)
    @given(rng=choices())
    def first(rng: Random) -> None:
        tried.append("first")

    @cases(2, 5)
    @given(rng=choices())
    def second(rng: Random) -> None:
        tried.append("second")

    first()
    second()
    assert tried == ["first"] * 20 + ["second"] * 5


def test_once() -> None:
    """A test fails also with a case that doesn't fail again."""
    tried: list[int] = []

    @cases(5)
    @given(rng=choices())
    def fails_once(rng: Random) -> None:
        tried.append(rng.getrandbits(8))
        assert len(tried) > 1, "only once"

    with pytest.raises(AssertionError, match="^only once"):
        fails_once()


def test_many_bits() -> None:
    """A test fails also with a case of more bits than hypothesis draws."""

    @cases(5)
    @given(rng=choices())
    def is_negative(rng: Random) -> None:
        assert rng.getrandbits(100_000) < 0, "not negative"

    with pytest.raises(AssertionError, match="^not negative"):
        is_negative()
    # Such a case isn't kept.
    with pytest.raises(AssertionError, match="^not negative"):
        is_negative()


def test_bits() -> None:
    """Each number of so many bits is drawn."""
    rng = Choices(Bits(1).draw)
    for count in range(4):
        assert {rng.getrandbits(count) for _ in range(200)} == set(range(1 << count))


@pytest.mark.parametrize("seed", range(20))
def test_same_choices(seed: int) -> None:
    """What is kept of choices has hypothesis draw the same ones."""
    bits = Bits(seed)
    chosen = choices_of(Choices(bits.draw))
    data = ConjectureData.for_buffer(bytes(bits.kept))
    assert choices_of(Choices(data.draw_bits)) == chosen
