"""What tests of the programs as processes are given."""
import pathlib
import shutil
from collections.abc import Iterator

import harness
import pytest
from harness import Checks
from room import Room


@pytest.fixture(scope="session")
def faults() -> Iterator[pathlib.Path]:
    """The library that lets calls of the system fail, where a user without rights finds it, too."""
    with harness.new_folder() as made:
        made.chmod(0o755)
        yield harness.shim("outs/faults.c", made)


@pytest.fixture
def room(
    programs: dict[str, pathlib.Path], faults: pathlib.Path, folder: pathlib.Path, checks: Checks
) -> Iterator[Room]:
    """A folder that the programs run in; aigtool is copied to where a user without rights finds
    it."""
    tool = folder / "aigtool"
    shutil.copy(programs["aigtool"], tool)
    tool.chmod(0o755)
    yield Room({**programs, "aigtool": tool}, faults, folder / "room", checks)
