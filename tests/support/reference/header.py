"""The calls on circuits in memory that the header declares, and a driver's function for each."""
from __future__ import annotations

import dataclasses
import re
from collections.abc import Iterator
from pathlib import Path

DECLARED = re.compile(
    r"^(uint32_t|void) aig_((?:circuit|simulation|unrolling)_\w+)\(([^)]*)\);", re.MULTILINE
)
STATUS = re.compile(r"^  AIG_(\w+) = (\d+),", re.MULTILINE)
PARAMETER = re.compile(r"(const )?(\w+) (\*?)(\w+)")
KINDS = {"bool": "BOOL", "uint8_t": "U8", "uint32_t": "U32", "int32_t": "I32", "size_t": "SIZE"}
KINDS |= {"aig_node_t": "NODE", "aig_latch_t": "LATCH"}
HANDLES = {f"aig_{kind}_t": kind for kind in ("circuit", "simulation", "unrolling")}


@dataclasses.dataclass(frozen=True)
class Parameter:
    """What a call is given: a `circuit`, a `simulation`, an `unrolling`, a `number`, a `slice`, a
    `state` that it changes, memory for an answer, which is `out`, or a place for what is `told`."""

    role: str
    type: str
    name: str

    @property
    def is_word(self) -> bool:
        """Whether a script says it."""
        return self.role != "told"


@dataclasses.dataclass(frozen=True)
class Call:
    """A call: whether it gives a status, its name behind `aig_`, and what it is given."""

    has_status: bool
    name: str
    parameters: tuple[Parameter, ...]

    def words(self) -> list[Parameter]:
        """Returns what a script says of it."""
        return [it for it in self.parameters if it.is_word]


def parameters(text: str) -> Iterator[Parameter]:
    """Yields the parameters of a declaration, each pointer with its length as one."""
    found = [PARAMETER.fullmatch(word.strip()) for word in re.sub(r"\s+", " ", text).split(",")]
    for constant, kind, pointer, name in [word.groups() for word in found if word]:
        if kind in HANDLES:
            yield Parameter(HANDLES[kind], kind, name)
        elif pointer and name != "needed":
            role = "slice" if constant else name if name in ("out", "state") else "told"
            yield Parameter(role, kind, name)
        elif not pointer and not name.endswith("_len"):
            yield Parameter("number", kind, name)


def calls(folder: Path) -> list[Call]:
    """Returns the calls of the header in a folder."""
    text = "".join(path.read_text(encoding="utf-8") for path in sorted(folder.glob("aig*.h")))
    found = DECLARED.findall(text)
    return [Call(kind != "void", name, tuple(parameters(given))) for kind, name, given in found]


def statuses(folder: Path) -> dict[str, int]:
    """Returns the statuses' numbers by their names."""
    text = (folder / "aig.h").read_text(encoding="utf-8")
    return {name: int(number) for name, number in STATUS.findall(text)}


# ---- the driver's functions

TAKEN = {
    "circuit": "aig_circuit_t *{name} = next_circuit();",
    "simulation": "aig_simulation_t *{name} = next_simulation();",
    "unrolling": "aig_unrolling_t *{name} = next_unrolling();",
    "number": "{type} {name} = next_number();",
    "slice": "struct slice {name} = next_slice({kind});",
    "state": "struct out *{name} = next_state({kind});",
    "out": "struct out *{name} = next_out({kind});",
    "told": "struct out *{name} = told({kind});",
}
GIVEN = {"slice": "{name}.at, {name}.len", "out": "{name}->at, {name}->len, &{name}->needed"}
GIVEN |= {"told": "{name}->at", "state": "{name}->at, {name}->len"}


def filled(form: str, parameter: Parameter) -> str:
    kind = KINDS.get(parameter.type, "")
    return form.format(name=parameter.name, type=parameter.type, kind=kind)


def function(call: Call) -> str:
    """Returns the function that makes a call with the words of a line."""
    taken = "".join(f"  {filled(TAKEN[it.role], it)}\n" for it in call.parameters)
    given = ", ".join(filled(GIVEN.get(it.role, "{name}"), it) for it in call.parameters)
    made = f"return aig_{call.name}({given});"
    made = made if call.has_status else f"aig_{call.name}({given});\n  return AIG_DONE;"
    return f"static uint32_t make_{call.name}(void) {{\n{taken}  calls = true;\n  {made}\n}}\n"


def table(found: list[Call]) -> str:
    """Returns made.h: a function for each call, and the table of them."""
    rows = "".join(f'  {{"{call.name}", make_{call.name}}},\n' for call in found)
    head = "static const struct {\n  const char *name;\n  uint32_t (*make)(void);\n} CALLS[] = {\n"
    return "".join(map(function, found)) + head + rows + "};\n"
