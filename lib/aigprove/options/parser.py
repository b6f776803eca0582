"""Parses the command line: defines its arguments, and derives the options from them.

`tables.py` has the names and the help texts of the options."""
import argparse
import math
import os
import re
import shlex
import subprocess
import sys
import textwrap
import time
from collections.abc import Callable, Iterable, Sequence
from typing import IO, Any, NoReturn, TypeVar

from aigprove import release
from aigprove.circuits.aiger import Fault
from aigprove.data import message, text
from aigprove.designs.front_ends import ASSERT, COVER, FAIR, LIVE
from aigprove.engines.rows import FILES, PAIRS, ROWS, names_of
from aigprove.options import tables
from aigprove.options.options import (CONSTRAINTS, HINTED, STARTS, DesignOptions, Options, Programs,
                                      Reset, SolverOptions)
from aigprove.output.messages import escaped, tell
from aigprove.processes.files import path_of, sealed

Number = TypeVar("Number", int, float)
Record = TypeVar("Record", Options, DesignOptions)
TOP = os.path.realpath(os.path.join(os.path.dirname(os.path.realpath(__file__)), "../../.."))
PROGRAMS = ["aigtool", "aigedit", "aigcheck"]
# Replaces `--`. No argument of a command line can contain a null character.
END = "--\0"
IDENTIFIER = "[A-Za-z_][A-Za-z0-9_$]*"
# The greatest nesting of lists of files, and the options that may be in a list.
MOST_LISTS, LISTED = 16, ("-D", "-I", "-f")


class Parser(argparse.ArgumentParser):
    """A parser whose messages have no control characters. An error while writing to standard output
    is raised."""

    def error(self, message: str) -> NoReturn:
        """Exits with status 2, after a message without control characters."""
        super().error(escaped(message))

    def _print_message(self, message: str, file: IO[str] | None = None) -> None:
        """Writes to standard output, or to standard error while ignoring errors."""
        if file is not None and file is sys.stdout:
            file.write(message)
        else:
            tell(message, end="")


class Version(argparse.Action):
    """The action of `--version`, which looks up the version."""

    def __call__(self, parser: argparse.ArgumentParser, words: argparse.Namespace,
                 *_: object) -> NoReturn:
        parser._print_message(release.version(TOP, words.prebuilt), sys.stdout)
        parser.exit()


def fitting(word: str, pattern: str, why: str) -> re.Match[str]:
    """Returns the match of an argument with a pattern. Raises ArgumentTypeError otherwise; `why`
    describes the pattern."""
    if found := re.fullmatch(pattern, word):
        return found
    raise argparse.ArgumentTypeError(message("not_fitting", word=word, why=why))


def count(pattern: str, what: str, kind: Callable[[str], Number],
          most: int = (1 << 32) - 1) -> Callable[[str], Number]:
    """Returns the type of arguments that are numbers of `what`: they match `pattern`, and are at
    most `most`."""

    def taken(word: str) -> Number:
        if not re.fullmatch(pattern, word) or kind(word) > most:
            raise argparse.ArgumentTypeError(message("not_number", word=word, what=what))
        return kind(word)

    return taken


def nonempty(word: str) -> str:
    """Returns a file name. Raises ArgumentTypeError if it is empty."""
    if not word:
        raise argparse.ArgumentTypeError(message("empty_name"))
    return word


def reset(word: str) -> Reset:
    """Returns the reset in an argument SIGNAL, SIGNAL=V, SIGNAL:N or SIGNAL=V:N."""
    found = fitting(word, f"({IDENTIFIER})(?:=([01]))?(?::([1-9][0-9]{{0,3}}))?",
                    "SIGNAL, SIGNAL=V or SIGNAL=V:N with V 0 or 1, such as rst_n=0:2")
    return Reset(found[1], int(found[2] or 1), int(found[3] or 1))


def macro(word: str) -> tuple[str, str]:
    """Returns the name and the text in an argument NAME or NAME=TEXT."""
    name, is_given, value = word.partition("=")
    is_name = re.fullmatch(IDENTIFIER, name)
    if not is_name or not value.isprintable() or value.endswith("\\"):
        raise argparse.ArgumentTypeError(message("not_macro", word=word))
    return name, value if is_given else "1"


def module(word: str) -> str:
    """Returns the name of a module in an argument. Raises ArgumentTypeError if it isn't one."""
    return fitting(word, IDENTIFIER, "a name of a module")[0]


def parameter(word: str) -> tuple[str, str]:
    """Returns the name and the value in an argument NAME=NUMBER."""
    value = "-?[0-9]+|[0-9]+'s?(?:b[01_]+|o[0-7_]+|d[0-9_]+|h[0-9A-Fa-f_]+)"
    found = fitting(word, f"({IDENTIFIER})=({value})",
                    "NAME=NUMBER, such as WIDTH=8 or MODE=2'b10 (-D takes a text)")
    return found[1], found[2]


def engines(word: str) -> list[str]:
    """Returns the names of engines in an argument, separated by commas. Raises ArgumentTypeError
    for an unknown one."""
    names = word.replace("abc", "bmc3,pdr").split(",")
    if unknown := [name for name in names if name not in ROWS]:
        known = ", ".join([*ROWS, "abc"])
        why = message("unknown_engine", name=unknown[0], known=known)
        raise argparse.ArgumentTypeError(why)
    return names


def made_by() -> dict[str, dict[str, Any]]:
    """Returns the arguments of `add_argument` for each option, by its last flag, except for names
    and switches."""
    several: dict[str, Any] = {"action": "append", "default": []}
    index, positive = "[0-9]{1,10}", "[1-9][0-9]{0,9}"
    return {
        "files": {"type": nonempty, "nargs": "+"}, "--top": {}, "-f": {},
        "--define": {"type": macro, **several}, "--include": {"type": nonempty, **several},
        "--parameter": {"type": parameter, **several}, "--black-box": {"type": module, **several},
        "--reset": {"type": reset}, "--equal": {"type": nonempty, "action": "append"},
        "--version": {"action": Version, "nargs": 0},
        "--property": {"type": count(index, "a property", int)},
        "--justice": {"type": count(index, "a justice property", int)},
        "--starts": {"choices": STARTS}, "--constraints": {"choices": CONSTRAINTS},
        "--bound": {"type": count(index, "steps", int)},
        "--timeout": {"type": count(r"[0-9]{1,9}(\.[0-9]{1,9})?", "seconds", float)},
        "--limit": {"type": count(positive, "nodes", int, most=1 << 31)},
        "--memory": {"type": count(positive, "MiB", lambda word: int(word) << 20, most=1 << 62)},
        "--jobs": {"type": count("[1-9][0-9]{0,4}", "programs", int),
                   "default": len(os.sched_getaffinity(0))},
        "--engine": {"type": engines}, "--solver": {"type": shlex.split},
    }


def description() -> str:
    """Returns the help text in front of the options."""
    shown = [f"  {engine.name:10}{engine.does}" for engine in tables.engines()]
    lines = [line for item in shown for line in textwrap.wrap(item, 78, subsequent_indent=" " * 12)]
    return "\n".join([text("options/about.txt"), "Engines:", *lines])


def epilog() -> str:
    """Returns the help text behind the options."""
    shown = [f"  {status.number:4}{status.when}" for status in tables.statuses()]
    lines = [line for item in shown for line in textwrap.wrap(item, 78, subsequent_indent=" " * 6)]
    return "\n".join(["Exit status:", *lines])


def make_parser() -> Parser:
    """Returns the parser of the command line."""
    it = Parser("aigprove", description=description(), epilog=epilog(),
                formatter_class=argparse.RawDescriptionHelpFormatter)
    made = made_by()
    for section in tables.sections():
        group = it.add_argument_group(section.title)
        loud = group.add_mutually_exclusive_group() if section.title == "Output" else group
        for option in section.options:
            *_, name = option.flags
            named: dict[str, Any] = {"metavar": option.value} if option.value else {}
            other: dict[str, Any] = {"type": nonempty} if option.value else {"action": "store_true"}
            place = loud if name in ("--verbose", "--quiet") else group
            place.add_argument(*option.flags, help=option.help_text(),
                               **named, **made.get(name, other))
    it.add_argument(END, action="store_true", dest="end", help=argparse.SUPPRESS)
    return it


def listed(line: Sequence[str], depth: int = 0) -> list[str]:
    """Returns a command line in which the contents of each list replace `-f` and its name.

    Each file in a list behind `--equal` becomes an argument of that option."""
    found: list[str] = []
    words, is_equal = iter(line), False
    for word in words:
        if word == "--":
            return [*found, word, *words]
        path = (word[2:] or next(words, "")) if word.startswith("-f") else ""
        inner = of_list(path, depth) if path else [word]
        if path and is_equal:
            found[-1:] = [it if it.startswith("-") else f"--equal={it}" for it in inner]
        else:
            found += inner
        is_equal = word == "--equal"
    return found


def of_list(path: str, depth: int) -> list[str]:
    """Returns the arguments in a list of files, which may contain other lists. Raises Fault for
    another option."""
    if depth > MOST_LISTS:
        raise Fault.of("includes_itself", path=path)
    said = sealed(path).data().decode("utf-8", "surrogateescape")
    words: list[str] = []
    given = iter(shlex.split(re.sub(r"(?m)(^|\s)//.*", "", said), comments=True))
    for word in given:
        # The notation of other tools: +incdir+FOLDER and +define+NAME.
        kind, *values = word.split("+")[1:] if word.startswith("+") else [""]
        flag = {"incdir": "-I", "define": "-D"}.get(kind)
        if flag:
            words += [flag + value for value in values if value]
        else:
            words.append(word + next(given, "") if word in LISTED else word)
        if word.startswith("-") and not word.startswith(LISTED):
            raise Fault.of("bad_word", path=path, word=word)
    return listed(words, depth + 1)


def program(places: Iterable[str], missing: Callable[[], str]) -> str:
    """Returns the path of the first of some programs that exists. Raises Fault with the message
    that `missing` returns if none does."""
    for place in places:
        if path := path_of(place):
            return os.path.abspath(path)
    raise Fault(missing())


def trusted(name: str, given: str | None, is_prebuilt: bool) -> str:
    """Returns the path of one of aig's own programs: the given one, or the first that exists."""
    def missing() -> str:
        hint = "" if given else release.hint(TOP, name, is_prebuilt)
        return message("not_built", path=given or name, name=name, hint=hint)

    return program([given] if given else release.places(TOP, name, is_prebuilt), missing)


def found(name: str) -> str:
    """Returns the path of another program. Raises Fault if it isn't installed."""
    return program([name], lambda: message("not_installed", name=name))


def cadical() -> list[str]:
    """Returns the command of cadical for a proof in text, with hints if its version has them. It is
    empty if cadical isn't installed."""
    try:
        options = subprocess.run(["cadical", "--help"], stdin=subprocess.DEVNULL,
                                 capture_output=True).stdout
    except FileNotFoundError:
        return []
    return ["cadical", "-q", "--no-binary", *[HINTED] * (b"--lrat" in options)]


def marked(line: Sequence[str]) -> list[str]:
    """Returns a command line in which arguments behind `--` can't be options: those that begin with
    a dash become relative paths."""
    end = line.index("--") if "--" in line else len(line)
    behind = [f"./{word}" if word.startswith("-") else word for word in line[end + 1:]]
    return [*line[:end], *[END] * (end < len(line)), *behind]


def parse(line: Sequence[str]) -> Options:
    """Returns the options of a command line. Exits with status 2 if it isn't valid."""
    parser = make_parser()
    words = parser.parse_intermixed_args(marked(listed(line)))
    take_top(parser, words)
    words.each = words.each or words.tasks or bool(words.gather)
    check_each(parser, words)
    check_together(parser, words)
    seconds = math.inf if words.timeout is None else words.timeout
    deadline = time.monotonic() + seconds - age()
    given = words.certificate or words.run
    kinds = [] if given else [*[PAIRS] * bool(words.equal), FILES]
    engines = words.engine or [name for kind in kinds for name in names_of(kind)]
    certificate, run = (sealed(path, words.limit) if path else None
                        for path in [words.certificate, words.run])
    return record(
        Options, words, design=design_options(words, deadline), deadline=deadline,
        solver=solver_options(words.solver), abc=words.abc and found(words.abc),
        programs=Programs(*(trusted(name, getattr(words, name), words.prebuilt)
                            for name in PROGRAMS)),
        engines=tuple(engines), are_engines_named=bool(words.engine),
        certificate=certificate, run=run)


def record(made: type[Record], words: argparse.Namespace, /, **further: object) -> Record:
    """Returns a record of a command line's options and of `further` fields."""
    given = {name: tuple(it) if isinstance(it, list) else it
             for name, it in vars(words).items() if name in made._fields}
    return made(**{**given, **further})


def age() -> float:
    """Returns for how many seconds this process has run."""
    with open("/proc/self/stat", encoding="utf-8", errors="replace") as file:
        begun = int(file.read().rpartition(")")[2].split()[19])
    return time.clock_gettime(time.CLOCK_BOOTTIME) - begun / os.sysconf("SC_CLK_TCK")


def take_top(parser: Parser, words: argparse.Namespace) -> None:
    """Moves a last argument that isn't a file name to the option `--top`."""
    names = [i for i, word in enumerate(words.files)
             if i and re.fullmatch(IDENTIFIER, word)]
    if names and names[0] < len(words.files) - 1 or names and words.top:
        behind = words.files[names[0] + 1 - bool(words.top):]
        parser.error(message("unrecognized", words=" ".join(behind)))
    words.top = words.files.pop() if names else words.top


def design_options(words: argparse.Namespace, deadline: float) -> DesignOptions:
    """Returns the options for reading a design."""
    is_one = words.equal or words.certificate or words.run or words.aiger \
        or words.property is not None
    later = set() if is_one else {LIVE, FAIR, *[COVER] * words.each}
    return record(DesignOptions, words, later=frozenset(later), is_compared=bool(words.equal),
                  kind=ASSERT if words.justice is None else LIVE, is_quiet=words.quiet,
                  deadline=deadline)


def solver_options(words: list[str] | None) -> SolverOptions:
    """Returns the command of the SAT solver: that of `--solver`, or cadical."""
    called = words or cadical()
    return SolverOptions((*map(found, called[:1]), *called[1:]), is_cadical=not words)


def check_together(parser: Parser, words: argparse.Namespace) -> None:
    """Exits with an error if queries are combined that can't be."""
    others = words.equal or words.certificate or words.run or words.each
    if words.justice is not None and (others or words.property is not None):
        parser.error(message("justice_alone"))
    if words.write_certificate and (words.certificate or words.run):
        parser.error(message("own_certificate"))


def check_each(parser: Parser, words: argparse.Namespace) -> None:
    """Exits with an error if options for a table, for evidence or for two files are missing or
    can't be combined."""
    of_table = [f"--{name}" for name in ["json", "junit", "shortest"] if getattr(words, name)]
    if of_table and not words.each:
        parser.error(message("needs", option=of_table[0], other="--each"))
    single = ["equal", "certificate", "write_certificate", "run", "property", "aiger"]
    for name in single if words.each else ["equal"] if words.property is not None else []:
        if getattr(words, name) is not None and getattr(words, name) is not False:
            other = "--each" if words.each else "--property"
            option = f"--{name.replace('_', '-')}"
            parser.error(message("not_with", option=option, other=other))
    for name in ["starts", "constraints"]:
        if getattr(words, name) and not words.equal:
            parser.error(message("needs", option=f"--{name}", other="--equal"))
    if words.tasks and not words.keep:
        parser.error(message("needs", option="--tasks", other="--keep FOLDER"))
    if words.gather and (words.keep or words.tasks):
        parser.error(message("gather_alone"))
