"""The table of the engines. A new engine is a module and a row here."""
from __future__ import annotations

import importlib
from typing import TYPE_CHECKING, NamedTuple, cast

if TYPE_CHECKING:
    from aigprove.engines.job import Make

# The kinds of queries: about any file, about two files, and about justice properties.
FILES, PAIRS, JUSTICE = "files", "pairs", "justice"


class Row(NamedTuple):
    """An engine: where its class is in this package, and the kind of queries that it answers.

    `share` is how many times as long as others its programs may run, and `doing` what it reports to
    do, if that isn't its name. `is_later` means that it begins once one of the first engines has
    ended, and `is_shortest` that its traces are shortest. `beside` is an engine together with which
    it runs on another machine."""

    place: str
    of: str = FILES
    share: int = 1
    doing: str = ""
    is_later: bool = False
    is_shortest: bool = False
    beside: str = ""


# The engines whose answers may come immediately come first. Most designs are decided by pdr, and
# most pairs of files by the engines for these.
ROWS = {
    "bmc3": Row("engines.abc.Bmc3", is_shortest=True),
    "pdr": Row("engines.abc.Pdr", share=2, is_later=True),
    "bounded": Row("engines.solving.Bounded", doing="steps up to", is_later=True,
                   is_shortest=True),
    "steps": Row("engines.solving.Steps", doing="step", is_later=True, is_shortest=True),
    "windows": Row("engines.solving.Windows", doing="window", is_later=True, beside="steps"),
    "scorr": Row("equality.engines.CorrespondingSignals", of=PAIRS, share=8),
    "registers": Row("equality.engines.CorrespondingRegisters", of=PAIRS, share=8),
    "rounds": Row("engines.abc.Rounds", of=JUSTICE),
}


def names_of(kind: str) -> list[str]:
    """Returns the names of the engines for a kind of queries."""
    return [name for name, row in ROWS.items() if row.of == kind]


def tasks() -> list[list[str]]:
    """Returns the groups of engines that one command runs on another machine."""
    return [[name, *(other for other in names_of(FILES) if ROWS[other].beside == name)]
            for name in names_of(FILES) if not ROWS[name].beside]


def make_of(name: str) -> Make:
    """Returns the class of an engine. Its module is imported now."""
    module, _, kind = f"aigprove.{ROWS[name].place}".rpartition(".")
    return cast("Make", getattr(importlib.import_module(module), kind))
