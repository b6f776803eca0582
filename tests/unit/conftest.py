"""What unit tests of aigprove's modules are given."""
from __future__ import annotations

from collections.abc import Iterator

import fixtures
import pytest

from aigprove.processes.scheduler import Scheduler


@pytest.fixture(scope="module")
def four_jobs() -> Iterator[Scheduler]:
    """A scheduler that runs four programs at a time."""
    with fixtures.new_scheduler(4) as made:
        yield made
