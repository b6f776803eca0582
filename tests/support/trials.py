"""Trials, each with a folder of its own for files, which end at the first fault."""
from __future__ import annotations

import collections
import random
import signal
import tempfile
from pathlib import Path
from typing import NoReturn

import harness
from harness import CHECK, output


def fresh(folder: Path) -> Path:
    """A new folder in a folder, as hypothesis tries many cases in one."""
    return Path(tempfile.mkdtemp(dir=folder))


class Files:
    """A folder of its own for files, what programs say of them, what is counted, and random
    choices."""

    def __init__(self, folder: Path, rng: random.Random | None = None) -> None:
        self.folder, self.rng = fresh(folder), rng
        self.counts: collections.Counter[str] = collections.Counter()

    def put(self, name: str, data: bytes | str) -> str:
        """Writes a file, and gives its path."""
        (self.folder / name).write_bytes(data if isinstance(data, bytes) else data.encode())
        return str(self.folder / name)

    def fail(self, why: str) -> NoReturn:
        raise AssertionError(
            f"{why}\n"
            + "\n".join(f"{path.name}:\n{path.read_text()}" for path in self.folder.glob("*.aag"))
        )

    def proof(self, text: str, name: str) -> str | None:
        """The path of cadical's proof that clauses have no solution; None where they have one."""
        clauses, proof = self.put("clauses.cnf", text), str(self.folder / name)
        return (
            proof
            if harness.run(["cadical", "-q", "--no-binary", clauses, proof])[0] == 20
            else None
        )

    def takes(self, line: str, *words: str) -> bool:
        """Whether aigcheck prints a line."""
        printed = output([CHECK, *words], [0, 1])
        if printed not in ["", line + "\n"]:
            self.fail(f"aigcheck {words[0]} prints {printed}")
        return printed != ""

    def abc(self, commands: str) -> str:
        """What ABC prints, which ends by a failed assertion of its own now and then."""
        return output(["berkeley-abc", "-q", commands], [0, -signal.SIGABRT])
