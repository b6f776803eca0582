"""Collects earlier answers from an evidence folder, written here or on another machine.

A line counts once aigcheck has printed it again, for the file that is checked now."""
import json
import os
import re
import stat
from collections.abc import Iterable, Iterator, Sequence
from typing import Any, NamedTuple

from aigprove.circuits.aiger import Fault
from aigprove.circuits.witness import Witness, read_for
from aigprove.data import message
from aigprove.engines.separate import SeparateProperties
from aigprove.output.evidence import ABOVE, EVIDENCE, EvidenceFolder
from aigprove.output.messages import reason, say
from aigprove.output.report import PropertyAnswer
from aigprove.processes.files import NODE, Sealed, opened
from aigprove.processes.scheduler import for_each
from aigprove.questions.checker import Checker, Claim, header_of
from aigprove.questions.target import Statements, statements_about

# The commands of aigcheck about a single file; the options that may precede them, each with a
# number; and patterns of a file's and an engine's name.
COMMANDS = {"refuted", "inductive", "certified", "run", "safe"}
CHOOSING, COUNT = {"--property", "--justice", "--rounds"}, re.compile("[0-9]{1,9}")
NAME = re.compile(r"[A-Za-z0-9_][A-Za-z0-9_.-]*")
ENGINE = re.compile(r"[a-z0-9]{1,20}")
# The line about a trace: the letter and the number of its property.
RUN = re.compile("([bj])([0-9]{1,9}) (?:at step [0-9]+|in a loop from step [0-9]+ to [0-9]+)")
# Evidence about assumptions, which are checked anew.
ASSUMED = {"--possible", "--endless"}
OF_ASSUMED = ("possible.aag", "endless.aag")


def taken(path: str, limit: int) -> Sealed:
    """Returns an immutable copy of a regular file. Raises Fault if it can't be read, or is too
    large for `limit` nodes."""
    try:
        file = opened(path)
    except OSError as why:
        raise Fault.of("of_file", path=path, why=why.strerror) from None
    with file:
        status = os.fstat(file.fileno())
        if not stat.S_ISREG(status.st_mode) or status.st_size > NODE * limit:
            raise Fault.of("not_small_file", path=path, most=NODE * limit)
        return Sealed(file)


class Line(NamedTuple):
    """A line in an evidence folder, its command, and the engine that answered and after how many
    seconds. `part` is the subfolder."""

    part: str
    line: str
    words: Sequence[str] = ()
    engine: str = ""
    seconds: float | None = None

    def parted(self) -> tuple[dict[str, str], Sequence[str]]:
        """Returns the numbers of the options in front of the command, by option, and the command
        with its arguments."""
        chosen, left = dict[str, str](), list(self.words)
        while left and left[0] in CHOOSING and COUNT.fullmatch("".join(left[1:2])):
            chosen[left[0]], left = left[1], left[2:]
        return chosen, left


class Found(NamedTuple):
    """A line that was checked: its properties, the number of one if it isn't about all, and the
    trace if it is about one."""

    part: SeparateProperties | None
    number: int | None
    line: Line
    trace: Witness | None


def lines_in(folder: str, part: str, limit: int) -> list[Line]:
    """Returns the lines in a subfolder `part`. A table has none of its own: they are in its parts.

    Raises Fault if the file is malformed."""
    try:
        kept = json.loads(taken(os.path.join(folder, part, EVIDENCE), limit).data())
        steps = [] if kept["table"] is not None else kept["steps"]
        shown = [(step["shows"], step["by"]) for step in steps if "shows" in step]
        if not all(isinstance(it, str) for line, by in shown for it in [line, *by]):
            raise ValueError
    except (ValueError, LookupError, TypeError, RecursionError):
        raise Fault.of("bad_evidence", folder=part or folder, file=EVIDENCE) from None
    noted = answered_by(kept)
    return [Line(part, line, by, *noted) for line, by in shown]


def answered_by(kept: dict[str, Any]) -> tuple[str, float | None]:
    """Returns the recorded engine and seconds, or "" and None."""
    engine, seconds = kept.get("engine"), kept.get("seconds")
    is_noted = isinstance(engine, str) and ENGINE.fullmatch(engine)
    return (str(engine), seconds) if is_noted and isinstance(seconds, (int, float)) else ("", None)


class Gathered:
    """The answers in a folder about the properties `parts`."""

    def __init__(self, folder: str, parts: Sequence[SeparateProperties],
                 checker: Checker) -> None:
        self.folder, self.parts, self.checker = folder, parts, checker
        # The properties whose file has the same bytes, by a file's path.
        self.known: dict[str, list[SeparateProperties]] = {}
        self.found: list[Found] = []

    def places(self) -> list[str]:
        """Returns the subfolders with evidence, and "" if the folder itself has some."""
        names = sorted(entry.name for entry in os.scandir(self.folder)
                       if entry.is_dir(follow_symlinks=False))
        return [part for part in ["", *names]
                if os.path.isfile(os.path.join(self.folder, part, EVIDENCE))]

    def part_of(self, name: str, folder: str, option: str) -> SeparateProperties:
        """Returns the properties that `option` selects, and whose file is the one of this name.

        Raises Fault if the file isn't one that is checked now."""
        base = os.path.basename(name)
        if not NAME.fullmatch(base):
            raise Fault.of("bad_file_name", name=name)
        path = os.path.join(self.folder, "" if name.startswith(ABOVE) else folder, base)
        if path not in self.known:
            data = taken(path, self.checker.limit).data()
            self.known[path] = [it for it in self.parts if it.source.subject.file.data() == data]
        for part in self.known[path]:
            if part.source.option == option:
                return part
        raise Fault.of("another_file", name=name)

    def claim(self, line: Line, file: Sealed) -> Claim:
        """Returns the claim of a line about a file. Its other files are read from the folder."""
        _, (command, _, *words) = line.parted()
        if command not in COMMANDS:
            raise Fault.of("bad_command", command=command)
        paths = {word: os.path.join(self.folder, line.part, word)
                 for word in words if NAME.fullmatch(word)}
        given = {word: taken(path, self.checker.limit) for word, path in paths.items()
                 if os.path.lexists(path)}
        return Claim(line.line, self.named(line, "FILE", words), {**given, "FILE": file})

    def named(self, line: Line, name: str, words: Iterable[str]) -> list[str]:
        """Returns the command that checks a line, for a file of this name and with these further
        arguments."""
        chosen, (command, *_) = line.parted()
        return [*(it for pair in chosen.items() for it in pair), command, name, *words]

    def checked(self, line: Line) -> Found | None:
        """Returns what a line is about, after aigcheck has printed it again; None, after a message,
        if aigcheck doesn't."""
        try:
            chosen, left = line.parted()
            run = RUN.fullmatch(line.line)
            is_fair = run[1] == "j" if run else "--justice" in chosen
            option = "justice" if is_fair else "property"
            number = run[2] if run else chosen.get(f"--{option}")
            part = self.part_of(left[1], line.part, option)
            if number is not None and int(number) >= len(part.answers):
                raise Fault.of("no_such_property", option=option, number=number)
            claim = self.claim(line, part.source.subject.file)
            self.checker.check(claim)
            trace = trace_of(claim, run[1]) if run else None
            return Found(part, None if number is None else int(number), line, trace)
        except (Fault, OSError) as why:
            place = os.path.join(self.folder, line.part)
            say(message("not_shown", folder=place, line=line.line, why=reason(why)))
            return None

    def lines(self) -> Iterator[Line]:
        """Yields the lines of all subfolders, except those about assumptions."""
        for part in self.places():
            try:
                lines = lines_in(self.folder, part, self.checker.limit)
            except Fault as why:
                say(why)
                continue
            for line in lines:
                _, left = line.parted()
                if len(left) > 1 and left[0] not in ASSUMED and left[1] not in OF_ASSUMED:
                    yield line

    def take(self, jobs: int) -> None:
        """Checks all lines, `jobs` at a time, and enters what follows from them into the
        answers."""
        found = for_each(list(self.lines()), jobs, self.checked)
        self.found = [it for it in found if it]
        for part in self.parts:
            for answer in part.answers:
                conclude(answer, [it for it in self.found if it.part is part
                                  and it.number in (None, answer.number)])

    def keep(self, folder: EvidenceFolder) -> None:
        """Adds the checked lines to another evidence folder, which contains this one."""
        for line, part in ((found.line, found.part) for found in self.found):
            assert part
            _, (_, _, *words) = line.parted()
            words = [self.placed(line.part, word) for word in words]
            folder.add(shows=line.line, by=self.named(line, part.source.name, words))

    def placed(self, part: str, word: str) -> str:
        """Returns an argument of a subfolder's command as the enclosing folder calls it."""
        is_file = NAME.fullmatch(word) and os.path.lexists(os.path.join(self.folder, part, word))
        return os.path.join(part, word) if is_file else word


def trace_of(claim: Claim, letter: str) -> Witness:
    """Returns the witness in a claim about a trace. `letter` is that of its property's kind."""
    *_, name = claim.words
    return read_for(claim.files[name].data(), header_of(claim.files["FILE"]), letter)


def conclude(answer: PropertyAnswer, found: Sequence[Found]) -> None:
    """Enters what follows for a property from checked lines, which are about it or about all
    properties of its file."""
    answer.parts += dict.fromkeys(it.line.part for it in found)
    is_fair = answer.letter == "j"
    every = [statements_about(answer.letter, answer.number), *[Statements()] * (not is_fair)]
    one_step, up_to = ({k for it in found for own in every
                        if (k := own.last_step(command, it.line.line)) is not None}
                       for command in ("query", "bounded"))
    answer.steps = max([answer.steps, *(k + 1 for k in up_to)])
    while answer.steps in one_step:
        answer.steps += 1
    for it in found:
        run = RUN.fullmatch(it.line.line)
        if it.line.line in {own.safe for own in every}:
            answer.take(None, it.line.engine, it.line.seconds)
        elif run and (run[1] == "j") == is_fair and int(run[2]) == answer.number:
            answer.take(it.trace, it.line.engine, it.line.seconds)
