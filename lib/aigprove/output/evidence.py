"""Evidence folders: files, the commands that check each line again, and a script that runs these
commands."""
import functools
import hashlib
import json
import os
import threading
from collections.abc import Iterable
from typing import Any

from aigprove import VERSION
from aigprove.circuits.aiger import Fault
from aigprove.data import text
from aigprove.processes.files import Sealed, write
from aigprove.processes.scheduler import Task
from aigprove.questions.checker import Checker, Claim

# The beginning of the path of a file in the parent folder.
ABOVE = "../"
EVIDENCE, SCRIPT = "evidence.json", "check.sh"


@functools.cache
def version(task: Task, path: str) -> str | None:
    """Returns the version that a program prints, or None if it fails."""
    status, printed, _ = task.output([path, "--version"])
    return None if status else printed.strip()


class Evidence:
    """An evidence folder. `limit` is the value of `--limit` for the commands in it."""

    def __init__(self, folder: str, checker: Checker, limit: int | None = None) -> None:
        self.folder, self.lock = folder, threading.Lock()
        # The names that were in the folder before, and the checksums of its evidence.
        self.names: set[str] = set()
        self.sums: dict[str, str] = {}
        # `steps` are the commands, in order; `parts` the subfolders; `table` the lines of a table,
        # if only these are printed; and `vacuous` the line that says that no run meets the
        # assumptions.
        programs = {"aigcheck": checker.aigcheck[0], "aigedit": checker.aigedit[0]}
        versions = {name: version(checker.task, path) for name, path in programs.items()}
        self.kept: dict[str, Any] = {
            "versions": {"aigprove": VERSION, **versions}, "limit": limit, "engine": None,
            "seconds": None, "files": self.sums, "steps": [], "parts": [], "table": None,
            "vacuous": None}
        self.open()

    def open(self) -> None:
        """Creates the folder."""
        os.mkdir(self.folder)

    def path(self, name: str) -> str:
        """Returns the path of a file in the folder."""
        return os.path.join(self.folder, name)

    def put(self, name: str, file: Sealed) -> None:
        """Writes a file into the folder, unless it is there already."""
        if name not in self.sums:
            given = hashlib.sha256()
            for block in file.blocks():
                given.update(block)
            self.sums[name] = given.hexdigest()
            self.put_new(name, file)

    def put_new(self, name: str, file: Sealed) -> None:
        """Writes a new file into the folder."""
        write(self.path(name), file.blocks(), "xb")

    def add(self, **step: object) -> None:
        """Adds a step: a command and what it prints."""
        self.kept["steps"].append(step)

    def shows(self, claim: Claim) -> None:
        """Writes the files of a claim, except those in the parent folder, and adds the command that
        checks it."""
        for name, file in claim.files.items():
            if not name.startswith(ABOVE):
                self.put(name, file)
        self.add(shows=claim.line, by=list(claim.words))

    def note(self, engine: str, seconds: float) -> None:
        """Records which engine answered, and after how many seconds."""
        self.kept |= {"engine": engine, "seconds": round(seconds, 1)}

    def note_vacuous(self, line: str | None) -> None:
        """Records the line that says that no run meets the assumptions, or None."""
        self.kept["vacuous"] = line

    def makes(self, name: str, file: Sealed, *words: str) -> None:
        """Writes a file, and adds the command of aigedit that generates it."""
        self.put(name, file)
        self.add(makes=name, by=list(words))

    def part(self, name: str) -> None:
        """Adds a subfolder that has evidence of its own."""
        self.kept["parts"].append(name)

    def end(self, mode: str = "xb") -> None:
        """Writes evidence.json and the script. `mode` is that of `open`."""
        write(self.path(EVIDENCE), [json.dumps(self.kept, indent=1).encode(), b"\n"], mode)
        write(self.path(SCRIPT), [text("output/check.py").encode()], mode)
        os.chmod(self.path(SCRIPT), 0o755)


class EvidenceFolder(Evidence):
    """The evidence of several queries: the checked files, and a subfolder for each query.

    The folder may exist already; nothing in it is overwritten."""

    def open(self) -> None:
        """Creates the folder if necessary, and notes what is in it."""
        os.makedirs(self.folder, exist_ok=True)
        self.names = set(os.listdir(self.folder))

    def new(self, stem: str) -> str:
        """Returns an unused name for a subfolder, which is added to the evidence."""
        with self.lock:
            names = [stem, *(f"{stem}-{i}" for i in range(1, len(self.names) + 2))]
            name = next(it for it in names if it not in self.names)
            self.names.add(name)
            self.part(name)
            return name

    def put_new(self, name: str, file: Sealed) -> None:
        """Writes a file. Raises Fault if there is another one of this name."""
        if name not in self.names:
            super().put_new(name, file)
            return
        with open(self.path(name), "rb") as there:
            if there.read() != file.data():
                raise Fault.of("another_file", name=self.path(name))

    def end_with(self, lines: Iterable[str]) -> None:
        """Writes the script, which is to print these lines of a table."""
        self.kept["table"] = list(lines)
        self.end("wb")
