"""What tests of aigprove's modules are given: a scheduler, and programs found in a folder alone."""
from __future__ import annotations

import contextlib
import os
import pathlib
from collections.abc import Iterator, Sequence

# Which finds the package of aigprove.
import harness  # noqa: F401

from aigprove.processes.scheduler import Scheduler


@contextlib.contextmanager
def new_scheduler(jobs: int) -> Iterator[Scheduler]:
    """A new scheduler of so many jobs. At the end it is stopped, and its keeper ended."""
    made = Scheduler(jobs)
    try:
        yield made
    finally:
        made.stop()
        os.kill(made.keeper.process, 9)


@contextlib.contextmanager
def set_path(folder: pathlib.Path, names: Sequence[str]) -> Iterator[None]:
    """Has only these programs be found, which do nothing."""
    for name in names:
        (folder / name).write_text("#!/bin/sh\n")
        (folder / name).chmod(0o755)
    before, os.environ["PATH"] = os.environ["PATH"], str(folder)
    try:
        yield
    finally:
        os.environ["PATH"] = before
