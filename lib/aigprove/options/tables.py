"""The texts about the command line, from which the help text, the man page and the tables of the
reference are generated.

`options.txt` has a section for each topic, with a row for each option: its flags, its value, what
it does, and its default. `engines.txt` has a row for each engine, and `statuses.txt` one for each
exit status."""
from typing import NamedTuple

from aigprove.data import text


class Option(NamedTuple):
    """An option, or the files."""

    flags: tuple[str, ...]
    value: str
    does: str
    default: str

    def help_text(self) -> str:
        """Returns its help text, with its default."""
        return f"{self.does} (default: {self.default})" if self.default else self.does


class Section(NamedTuple):
    """The options for one topic."""

    title: str
    options: list[Option]


class Engine(NamedTuple):
    """An engine: what it does and needs, and whether it finds bad states or proves safety."""

    name: str
    does: str
    needs: str
    finds: str
    proves: str


class Status(NamedTuple):
    """An exit status, and when it occurs."""

    number: str
    when: str


def rows(name: str) -> list[list[str]]:
    """Returns the rows of a table in a file of this folder."""
    return [line.split("\t") for line in text(f"options/{name}.txt").splitlines()]


def sections() -> list[Section]:
    """Returns the options, by topic."""
    found: list[Section] = []
    for flags, *cells in rows("options"):
        if flags.startswith("# "):
            found.append(Section(flags[2:], []))
        elif flags:
            found[-1].options.append(Option(tuple(flags.split(" ")), *cells))
    return found


def engines() -> list[Engine]:
    """Returns the engines."""
    return [Engine(*cells) for cells in rows("engines")]


def statuses() -> list[Status]:
    """Returns the exit statuses."""
    return [Status(*cells) for cells in rows("statuses")]
