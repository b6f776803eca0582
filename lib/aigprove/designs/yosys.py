"""Runs yosys in a folder.

Yosys only gets file names that this module chooses, because it treats some characters of a path as
a pattern or a command."""
from __future__ import annotations

import contextlib
import json
import os
import re
import stat
import subprocess
import time
from collections.abc import Callable, Iterable, Iterator, Mapping, Sequence, Set
from typing import Any

from aigprove.circuits.aiger import Fault, decoded
from aigprove.data import message
from aigprove.designs.front_ends import File, overdue
from aigprove.designs.internal import without_internal
from aigprove.designs.netlist import Json
from aigprove.designs.rtlil import Statement, parse
from aigprove.designs.texts import EXPANDED
from aigprove.output.messages import ending, plain
from aigprove.processes.files import in_memory, path_of
from aigprove.processes.groups import Words
from aigprove.processes.scheduler import Stopped, Task

# Script returns a script, given the path of the folder, that of the file to which yosys writes when
# it is ready, the paths of the files' copies, and those of the include folders. Texts returns the
# texts of files, given the folders' descriptors.
Script = Callable[[str, str, Mapping[str, str], Sequence[str]], str]
Texts = Callable[[Sequence[int]], Mapping[str, bytes]]
# A warning, which may continue in further lines, and the source location in front of it.
WARNING = re.compile(r"^(?:(.*): )?Warning: (.*(?:\n {4}.*)*)$", re.MULTILINE)
# The messages about an undeclared name, as an error and as a warning.
REFUSED = re.compile(r"^(.*): ERROR: Identifier `(\S+)' is implicitly declared and "
                     r"`default_nettype is set to none\.", re.MULTILINE)
WARNED = re.compile(r"^(.*): Warning: Identifier `(\S+)' is implicitly declared\.$", re.MULTILINE)
# The warnings that aren't passed on, with the reason.
IGNORED = {
    "The network is combinational":
    "ABC says it of the gates that FREE and WRITE give it, of any design",
    "Identifier `.*' is implicitly declared":
    "each such name is looked up, and refused if it is no implicit net of Verilog",
}
# The warning of yosys about a register with several asynchronous resets, whose order in the block
# yosys doesn't keep.
UNORDERED = re.compile(r"Complex async reset for dff `\\?(.*)'\.")
# MANY is the greatest number of entries of a folder that are all linked. LARGE is how many bytes of
# a file are searched for names. SEPARATORS separate names in a text. COMPUTED finds names that a
# text computes, and COMPUTED_NAME is an example of such a text.
MANY, LARGE = 200, 1 << 20
SEPARATORS = re.compile(rb"[\s\"'`(),;/<>]+")
COMPUTED = re.compile(rb"`include\s+[^\"<\s]|\$readmem[bh]\s*\(\s*[^\"\s]")
COMPUTED_NAME = b"`include `name"
# The greatest number of commands in a line of a script: yosys copies the rest of the line behind
# each word.
LONGEST = 1000


def named_in(path: str, entries: Set[str], texts: Iterable[bytes]) -> Set[str]:
    """Returns the entries of the folder at `path` that the texts name, directly or through files
    there; all entries if a text computes a name."""
    left, found = list(texts), set[str]()
    while left:
        text = left.pop()
        if COMPUTED.search(text):
            return entries
        new = entries & {decoded(name) for name in SEPARATORS.split(text)} - found
        found |= new
        for path_of_new in (os.path.join(path, name) for name in new):
            with contextlib.suppress(OSError):
                if stat.S_ISREG(os.stat(path_of_new).st_mode):
                    with open(path_of_new, "rb") as file:
                        left.append(file.read(LARGE))
    return found


def full(folder: str) -> Fault:
    """Returns the exception for a full file system. `folder` is the one into which yosys writes."""
    return Fault.of("full", folder=os.path.dirname(os.path.dirname(folder)))


class Yosys:
    """Runs scripts on copies of a design's files, until `deadline`.

    Beside each copy are links to what is beside the original. Raises Fault if yosys isn't
    installed."""

    def __init__(self, files: Sequence[File], folder: str, task: Task, deadline: float) -> None:
        if path_of("yosys") is None:
            raise Fault.of("no_yosys")
        self.path, self.folder, self.task, self.deadline = files[0].path, folder, task, deadline
        self.beside = list(dict.fromkeys(os.path.dirname(file.path) or "." for file in files))
        texts = [file.data for file in files]
        self.are_all_linked = all([self.link(path, self.place(f"{i}/source"), texts)
                                   for i, path in enumerate(self.beside)])
        # The place of each file's copy, by the file's path.
        self.copies = {file.path: self.copied(i, file) for i, file in enumerate(files)}
        # The descriptors of the folders in the last run that read the design.
        self.descriptors: Sequence[int] = []
        # The user's path for each generated one; and the warnings of the last reading and of later
        # runs.
        self.meanings: dict[str, str] = {}
        self.warnings: list[str] = []

    def link(self, path: str, folder: str, texts: Iterable[bytes]) -> bool:
        """Creates a folder of links to the entries of another one: to all, or to those that the
        texts name if there are many.

        Returns whether all are linked."""
        os.makedirs(folder, exist_ok=True)
        entries = []
        with contextlib.suppress(OSError):
            entries = os.listdir(path)
        named = set(entries) if len(entries) <= MANY else named_in(path, set(entries), texts)
        for entry in named:
            with contextlib.suppress(FileExistsError):
                os.symlink(os.path.join(os.path.abspath(path), entry), os.path.join(folder, entry))
        return len(named) == len(entries)

    def link_all(self) -> bool:
        """Links all entries beside the files, and returns whether some weren't linked before."""
        is_missing, self.are_all_linked = not self.are_all_linked, True
        for i, path in enumerate(self.beside) if is_missing else []:
            self.link(path, self.place(f"{i}/source"), [COMPUTED_NAME])
        return is_missing

    def copied(self, i: int, file: File) -> str:
        """Copies a file under a name that nothing beside the file has, and returns the copy's
        place."""
        beside = os.path.dirname(file.path) or "."
        folder, name = f"{self.beside.index(beside)}/source", f"design{i or ''}.v"
        while any(os.path.lexists(os.path.join(it, name)) for it in [self.place(folder), beside]):
            name = f"_{name}"
        with open(self.place(f"{folder}/{name}"), "xb") as out:
            out.write(file.data)
        return f"{folder}/{name}"

    def place(self, name: str) -> str:
        """Returns the path of a file in the folder."""
        return os.path.join(self.folder, name)

    def put(self, name: str, text: str) -> None:
        """Writes a file in the folder."""
        with open(self.place(name), "w", encoding="utf-8", errors="surrogateescape") as out:
            out.write(text)

    def put_script(self, name: str, text: str) -> None:
        """Writes a script in few lines: yosys searches the whole design behind each line."""
        commands = list(filter(None, text.split("\n")))
        self.put(name, "".join("; ".join(commands[i:i + LONGEST]) + "\n"
                               for i in range(0, len(commands), LONGEST)))

    def text(self, name: str) -> str:
        """Returns the text of a file in the folder."""
        with open(self.place(name), encoding="utf-8", errors="surrogateescape") as file:
            return file.read()

    def design(self, name: str) -> Statement:
        """Returns the design in an RTLIL file in the folder."""
        return parse(self.text(name))

    def modules(self, name: str) -> dict[str, Json]:
        """Returns the modules of a JSON file in the folder, by their names."""
        modules: dict[str, Json] = json.loads(self.text(name))["modules"]
        return modules

    def readable(self, said: str) -> str:
        """Returns a message of yosys with the user's paths, and with descriptions for generated
        names."""
        said = without_internal(said)
        for name in sorted(self.meanings, key=len, reverse=True):
            said = said.replace(name,
                                plain(os.fsencode(self.meanings[name])).replace("\n", "\\x0a"))
        return said

    def fill(self, texts: Mapping[str, bytes]) -> None:
        """Replaces the texts of the files' copies, given by the files' paths."""
        for path, text in texts.items():
            with open(self.place(self.copies[path]), "wb") as out:
                out.write(text)

    def warned(self, said: str) -> None:
        """Records the warnings in what yosys printed, each as one line.

        Raises Fault if a register has several asynchronous resets."""
        for place, text in WARNING.findall(said):
            warning = " ".join(self.readable(text).split())
            if unordered := UNORDERED.match(warning):
                raise Fault.of("unordered_resets", path=self.path, name=unordered[1])
            line = message("yosys_warns", place=self.readable(place) if place else self.path,
                           warning=warning)
            is_ignored = any(re.match(pattern, text) for pattern in IGNORED)
            if line not in self.warnings and not is_ignored:
                self.warnings.append(line)

    def read(self, script: Script, folders: Sequence[str], texts: Texts) -> Run:
        """Starts reading the design in the present folder, and returns the run once it is ready.

        Relative paths in the design start at the present folder. `folders` are include folders.
        Raises Fault if yosys fails before it is ready."""
        ready, writing = os.pipe()
        with open(ready, "rb", buffering=0) as waiting:
            with open(writing, "wb"):
                run = self.begin_reading(script, folders, texts, writing)
            # If the run ends before it is ready, the pipe is empty.
            if not waiting.read(1):
                run.printed()
        return run

    def begin_reading(self, script: Script, folders: Sequence[str], texts: Texts,
                      writing: int) -> Run:
        """Starts that run. It reports that it is ready through the descriptor `writing`."""
        with contextlib.ExitStack() as opened:
            descriptors = [os.open(path, os.O_PATH | os.O_DIRECTORY)
                           for path in [self.folder, *self.beside, *folders]]
            for descriptor in descriptors:
                opened.callback(os.close, descriptor)
            is_ready, made, *paths = (f"/proc/self/fd/{descriptor}"
                                      for descriptor in [writing, *descriptors])
            copies = {path: f"{made}/{copy}" for path, copy in self.copies.items()}
            sources = {f"{made}/{i}/source": path for i, path in enumerate(self.beside)}
            self.meanings = {**dict(zip(paths, [*self.beside, *folders])),
                             **sources, **{copy: path for path, copy in copies.items()}}
            self.descriptors, self.warnings = descriptors, []
            self.fill(texts(descriptors))
            self.put_script("read.ys", script(made, is_ready, copies, paths))
            run = Run(self, ["yosys", f"{made}/read.ys"], pass_fds=[writing, *descriptors])
        return run

    def begin(self, script: str, **words: str) -> Run:
        """Starts a script in the folder. `words` fill in its fields."""
        self.put_script("script.ys", script.format(**words))
        return Run(self, ["env", "-C", self.folder, "TMPDIR=.", "yosys", "script.ys"])

    @contextlib.contextmanager
    def alongside(self, script: str, **words: str) -> Iterator[None]:
        """Runs a script in the folder while the body of the `with` statement runs. If the body
        raises, the run is ended."""
        run = self.begin(script, **words)
        try:
            yield
        except BaseException:
            run.end()
            raise
        run.printed()

    def run(self, script: str, **words: str) -> str:
        """Runs a script in the folder, and returns what yosys prints."""
        return self.begin(script, **words).printed()


class Run:
    """A run of yosys. Raises TranslationTimeout if the deadline has passed."""

    def __init__(self, yosys: Yosys, words: Words, **streams: Any) -> None:
        self.yosys, self.out = yosys, in_memory()
        self.outcome: tuple[int, bytes] | None = None
        self.late = overdue(yosys.path)
        if yosys.deadline <= time.monotonic():
            raise self.late
        self.group = yosys.task.start(words, stdout=self.out, stderr=subprocess.STDOUT, **streams)

    def end(self) -> None:
        """Kills it."""
        self.group.kill()
        self.wait()

    def wait(self) -> tuple[int, bytes]:
        """Waits for its end, and returns its status and what it printed. Raises TranslationTimeout
        if the time is over."""
        if self.outcome is None:
            try:
                status = self.yosys.task.finish(self.group)
            except Stopped:
                raise self.late from None
            with self.out:
                self.out.seek(0)
                self.outcome = status, self.out.read()
        return self.outcome

    def data(self) -> bytes:
        """Returns what it has printed so far, as bytes."""
        if self.outcome is not None:
            return self.outcome[1]
        return os.pread(self.out.fileno(), os.fstat(self.out.fileno()).st_size, 0)

    def said(self) -> str:
        """Returns what it has printed so far, without the preprocessed texts."""
        return plain(EXPANDED.sub(b"", self.data()))

    def printed(self) -> str:
        """Waits for its end, records its warnings, and returns what it printed.

        Raises Fault if its status isn't 0, or the file system is full."""
        status, _ = self.wait()
        said = self.said()
        # Yosys doesn't report that it couldn't write.
        if not os.statvfs(self.yosys.folder).f_bavail:
            raise full(self.yosys.folder)
        if status != 0:
            why = [line for line in said.splitlines() if "ERROR: " in line]
            raise Fault(self.yosys.readable(why[0]) if why
                        else message("yosys_ended", ending=ending(status)))
        self.yosys.warned(said)
        return said
