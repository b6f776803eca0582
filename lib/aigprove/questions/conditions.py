"""The conditions by which a witness circuit proves a file safe: it simulates the file, and has an
inductive property that implies the file's.

Names of its inputs and latches, or otherwise their order, say which literals of the file they stand
for. aigcheck generates the clauses; here names are only printed."""
import re
from collections.abc import Iterable

from aigprove.circuits.aiger import Circuit
from aigprove.circuits.certificates import STANDS
from aigprove.circuits.gates import Gates
from aigprove.data import message
from aigprove.processes.files import Sealed
from aigprove.questions.checker import Condition, Query, Question

CONDITIONS = ["reset", "transition", "property", "base", "step"]
# The line of a name that maps an input or latch to a literal of the file, and such a name.
LINE, NAME = re.compile(rb"^[il][0-9]+ " + STANDS, re.M), re.compile(STANDS + rb"([0-9]+)")


def of_both(witness: Sealed) -> dict[str, Query]:
    """Returns the queries about a file and a witness circuit, by the names of the conditions."""
    return {name: Condition(witness, name) for name in CONDITIONS}


def questions(*form: str) -> dict[str, Query]:
    """Returns the two queries of an inductive property, with clauses in this form."""
    return {"base": Question("query", 0, form), "step": Question("window", 0, form)}


def is_named(witness: Sealed) -> bool:
    """Returns whether names map the witness circuit's inputs and latches to those of the file."""
    return LINE.search(witness.data()) is not None


def line_of_unmet(broken: Iterable[str]) -> list[str]:
    """Returns the message about conditions that aren't met, or an empty list if all are met."""
    return [message("conditions", names=", ".join(broken))] if broken else []


def with_free_resets(circuit: Circuit, starts: bool) -> None:
    """Makes latches uninitialised whose initial values are functions.

    If `starts`, a constraint gives them these initial values: this circuit is for a query about
    step 0, and the one without it for a query about paths from any state. Programs that don't know
    such initial values accept both."""
    gates = Gates(2 * (circuit.header.counts[0] + 1))
    for i in circuit.uninitialised():
        latch, reset = circuit.latches[i], circuit.resets[i]
        if starts and reset != latch:
            circuit.constraints.append(gates.choice(latch, reset, reset ^ 1))
        circuit.resets[i] = latch
    circuit.gates += gates.rows
    circuit.header.count(circuit, gates.next // 2 - 1)


def leaves(circuit: Circuit) -> dict[int, tuple[str, int]]:
    """Returns the letter and position of each input and latch, by its literal."""
    lists = [("i", circuit.inputs), ("l", circuit.latches)]
    return {literal: (letter, i)
            for letter, literals in lists for i, literal in enumerate(literals)}


def name_shared(circuit: Circuit, file: Circuit, named: Circuit) -> None:
    """Gives inputs and latches of a witness circuit the names of those of the file for which they
    stand.

    `file` has the literals to which names refer, and `named` the printed names."""
    given, found = leaves(file), {place: NAME.fullmatch(name)
                                  for place, name in circuit.names.items()}
    by_name = {place: given.get(int(name[1])) for place, name in found.items() if name}
    by_order = {place: place for place in leaves(circuit).values() if place in given.values()}
    circuit.names.update((place, named.name(*of))
                         for place, of in (by_name or by_order).items() if of)
