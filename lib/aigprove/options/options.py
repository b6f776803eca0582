"""The options of a command line, which never change."""
from typing import NamedTuple

from aigprove.processes.files import Sealed

# The option of cadical for a proof with hints.
HINTED = "--lrat=1"
# The values of `--starts`: the initial values of uninitialised registers are independent, or equal
# to those of the register of the other file that is matched by order or by name.
APART, BY_ORDER, BY_NAME = STARTS = ["apart", "by-order", "by-name"]
# The values of `--constraints`: compared runs meet those of both files, or those of the first only,
# or the constraints are compared, too.
BOTH, FIRST, COMPARED = CONSTRAINTS = ["both", "first", "compared"]


class Reset(NamedTuple):
    """A reset: the signal, its active value, and the number of steps for which it is held."""

    signal: str
    value: int
    steps: int

    def __str__(self) -> str:
        when = f"in the first {self.steps} steps" if self.steps > 1 else "in step 0"
        return f"{self.signal}={self.value} {when}"


class DesignOptions(NamedTuple):
    """The options for reading a design."""

    top: str | None
    define: tuple[tuple[str, str], ...]
    include: tuple[str, ...]
    parameter: tuple[tuple[str, str], ...]
    black_box: tuple[str, ...]
    multiclock: bool
    # Whether `$stop` and `$fatal` are assertions.
    stops: bool
    reset: Reset | None
    # The type of the cells that are checked, and the types of those that another query checks
    # later.
    kind: str
    later: frozenset[str]
    is_compared: bool
    is_quiet: bool
    deadline: float


class SolverOptions(NamedTuple):
    """The command of the SAT solver. `words` is empty if cadical isn't installed."""

    words: tuple[str, ...]
    is_cadical: bool

    @property
    def takes_turns(self) -> bool:
        """Returns whether the solver is asked about one step after the other.

        cadical is, unless its version writes hints: checking a proof with hints takes far less time
        than checking one of incremental queries, which has none."""
        return self.is_cadical and HINTED not in self.words


class Programs(NamedTuple):
    """The paths of the trusted programs."""

    aigtool: str
    aigedit: str
    aigcheck: str


class Options(NamedTuple):
    """The options of a command line. Files that are checked are immutable copies."""

    files: tuple[str, ...]
    design: DesignOptions
    solver: SolverOptions
    programs: Programs
    # The path of ABC, if it is given.
    abc: str | None
    # The engines, and whether `--engine` names them.
    engines: tuple[str, ...]
    are_engines_named: bool
    # The query.
    equal: tuple[str, ...] | None
    starts: str | None
    constraints: str | None
    property: int | None
    justice: int | None
    certificate: Sealed | None
    run: Sealed | None
    # The table: whether each property is checked by itself, and what is written.
    each: bool
    shortest: bool
    tasks: bool
    gather: str | None
    json: str | None
    junit: str | None
    # Limits of time, steps, memory and processes.
    bound: int | None
    timeout: float | None
    deadline: float
    limit: int | None
    memory: int | None
    jobs: int
    # Output.
    verbose: bool
    quiet: bool
    aiger: bool
    write_certificate: str | None
    keep: str | None
    witness: str | None
    vcd: str | None
