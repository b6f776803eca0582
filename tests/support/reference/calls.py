"""What each call on circuits in memory tells, does to what handles hold, and is refused for."""
from __future__ import annotations

from collections.abc import Callable, Iterable, Sequence

from reference import clauses, files, transforms
from reference.circuit import PROPERTIES, Circuit, Latch
from reference.handles import (
    Handle, Refused, Running, Stepping, clause_numbers, latch_row, node_row,
)
from reference.simulation import Simulation
from reference.unrolling import Step, Unrolling, numbered, verdict

MOST_LIMIT = 2**31
# What a call tells: a number, items as they are printed, or nothing.
Told = int | str | None
Function = Callable[..., Told]
# The calls by their names.
CALLS: dict[str, Function] = {}


def call(function: Function) -> Function:
    """Notes a call by its name."""
    CALLS[function.__name__] = function
    return function


# ---- what is refused, and what is given


def require(holds: bool, status: str) -> None:
    if not holds:
        raise Refused(status)


def require_edges(circuit: Circuit, *edges: int) -> None:
    require(all(map(circuit.has_edge, edges)), "RANGE")


def initial(circuit: Circuit, has_init: int, init: int) -> int | None:
    """Returns the initial edge that is given, if there is one."""
    require_edges(circuit, init if has_init else 0)
    return init if has_init else None


def edge_list(circuit: Circuit, number: int) -> list[int]:
    require(number < len(PROPERTIES), "RANGE")
    return circuit.properties(PROPERTIES[number])


def require_room(room: int, items: Sequence[object]) -> None:
    if len(items) > room:
        raise Refused("SMALL", len(items))


def listed(room: int, items: Sequence[object]) -> str:
    require_room(room, items)
    return ",".join(map(str, items)) or "-"


def rows(room: int, found: Iterable[tuple[int, ...]]) -> str:
    return listed(room, [":".join(map(str, row)) for row in found])


def marks(room: int, circuit: Circuit, marked: set[int]) -> str:
    """Returns for each node whether it is marked."""
    require_room(room, circuit.nodes)
    return "".join(str(int(node in marked)) for node in range(len(circuit.nodes)))


def spelled(room: int, data: bytes) -> str:
    require_room(room, data)
    return data.hex() or "-"


# ---- handles and files


@call
def circuit_new(handle: Handle) -> Told:
    handle.held = Circuit()
    return None


@call
def circuit_free(handle: Handle) -> Told:
    handle.held = None
    return None


@call
def circuit_clone(handle: Handle, to: Handle) -> Told:
    to.held = handle.circuit().copy()
    return None


@call
def circuit_from_aiger(handle: Handle, file: bytes, limit: int) -> Told:
    require(1 <= limit <= MOST_LIMIT, "RANGE")
    try:
        handle.held = files.read(file, limit)
    except files.Refusal as refusal:
        raise Refused(str(refusal)) from None
    return None


def writing(form: Callable[[Circuit], bytes]) -> Function:
    def write(handle: Handle, room: int) -> Told:
        circuit = handle.circuit()
        try:
            return spelled(room, form(circuit))
        except files.Refusal as refusal:
            raise Refused(str(refusal)) from None

    return write


# ---- leaves and latches


@call
def circuit_add_input(handle: Handle, node: int) -> Told:
    circuit = handle.circuit()
    require(circuit.is_free_leaf(node), "NOT_FREE")
    circuit.inputs.append(node)
    return None


@call
def circuit_new_latch(handle: Handle, following: int, has_init: int, init: int) -> Told:
    circuit = handle.circuit()
    require_edges(circuit, following)
    return circuit.new_latch(following, initial(circuit, has_init, init))


@call
def circuit_add_latch(handle: Handle, node: int, following: int, has_init: int, init: int) -> Told:
    circuit = handle.circuit()
    require(circuit.is_free_leaf(node), "NOT_FREE")
    require_edges(circuit, following)
    circuit.latches.append(Latch(node, following, initial(circuit, has_init, init)))
    return None


@call
def circuit_set_next(handle: Handle, place: int, following: int) -> Told:
    circuit = handle.circuit()
    require(place < len(circuit.latches), "RANGE")
    require_edges(circuit, following)
    circuit.set_next(place, following)
    return None


@call
def circuit_set_init(handle: Handle, place: int, has_init: int, init: int) -> Told:
    circuit = handle.circuit()
    require(place < len(circuit.latches), "RANGE")
    circuit.set_init(place, initial(circuit, has_init, init))
    return None


# ---- gates


def connective(build: Callable[[Circuit, int, int], int]) -> Function:
    def join(handle: Handle, left: int, right: int) -> Told:
        circuit = handle.circuit()
        require_edges(circuit, left, right)
        return build(circuit, left, right)

    return join


def list_connective(build: Callable[[Circuit, list[int]], int]) -> Function:
    def join(handle: Handle, edges: list[int]) -> Told:
        circuit = handle.circuit()
        require_edges(circuit, *edges)
        return build(circuit, edges)

    return join


@call
def circuit_set_node(handle: Handle, node: int, left: int, right: int) -> Told:
    circuit = handle.circuit()
    require(circuit.admits(node, left, right), "NOT_ADMITTED")
    circuit.set_gate(node, left, right)
    return None


# ---- properties and names


@call
def circuit_push_edge(handle: Handle, number: int, edge: int) -> Told:
    edges = edge_list(handle.circuit(), number)
    require_edges(handle.circuit(), edge)
    edges.append(edge)
    return None


@call
def circuit_set_edge(handle: Handle, number: int, place: int, edge: int) -> Told:
    edges = edge_list(handle.circuit(), number)
    require(place < len(edges), "RANGE")
    require_edges(handle.circuit(), edge)
    edges[place] = edge
    return None


@call
def circuit_set_edges(handle: Handle, number: int, given: list[int]) -> Told:
    edges = edge_list(handle.circuit(), number)
    require_edges(handle.circuit(), *given)
    edges[:] = given
    return None


@call
def circuit_clear_edges(handle: Handle, number: int) -> Told:
    edge_list(handle.circuit(), number).clear()
    return None


@call
def circuit_push_justice(handle: Handle, edges: list[int]) -> Told:
    circuit = handle.circuit()
    require_edges(circuit, *edges)
    circuit.justice.append(edges)
    return None


@call
def circuit_clear_justice(handle: Handle) -> Told:
    handle.circuit().justice.clear()
    return None


@call
def circuit_get_symbol(handle: Handle, node: int, room: int) -> Told:
    names = handle.circuit().names
    require(node in names, "NO_NAME")
    return spelled(room, names[node].encode())


@call
def circuit_set_symbol(handle: Handle, node: int, name: bytes) -> Told:
    circuit = handle.circuit()
    require(node < len(circuit.nodes), "RANGE")
    try:
        circuit.names[node] = name.decode()
    except UnicodeDecodeError:
        raise Refused("NOT_UTF8") from None
    return None


# ---- what a circuit has


def reading(read: Callable[..., int]) -> Function:
    """Returns the call that tells a number of a circuit."""
    return lambda handle, *given: int(read(handle.circuit(), *given))


def listing(read: Callable[[Circuit], Sequence[object]]) -> Function:
    """Returns the call that gives a list of a circuit."""
    return lambda handle, room: listed(room, read(handle.circuit()))


@call
def circuit_nodes(handle: Handle, room: int) -> Told:
    circuit = handle.circuit()
    return rows(room, (node_row(circuit, node) for node in range(len(circuit.nodes))))


@call
def circuit_latchs(handle: Handle, room: int) -> Told:
    return rows(room, map(latch_row, handle.circuit().latches))


@call
def circuit_edges(handle: Handle, number: int, room: int) -> Told:
    return listed(room, edge_list(handle.circuit(), number))


@call
def circuit_justice(handle: Handle, place: int, room: int) -> Told:
    sets = handle.circuit().justice
    require(place < len(sets), "RANGE")
    return listed(room, sets[place])


@call
def circuit_begins_with(handle: Handle, source: Handle) -> Told:
    return int(handle.circuit().begins_with(source.circuit()))


@call
def circuit_fanin_logic_cone(handle: Handle, edges: list[int], room: int) -> Told:
    circuit = handle.circuit()
    require_edges(circuit, *edges)
    return marks(room, circuit, circuit.logic_cone(edges))


@call
def circuit_coi(handle: Handle, roots: list[int], room: int) -> Told:
    circuit = handle.circuit()
    require(max(roots, default=0) < len(circuit.nodes), "RANGE")
    return marks(room, circuit, circuit.influence(roots))


# ---- transforms and clauses


@call
def circuit_merge(handle: Handle, other: Handle) -> Told:
    transforms.merge(handle.circuit(), other.circuit())
    return None


def replacing(make: Callable[[Circuit], Circuit]) -> Function:
    """Returns the call that puts another circuit in place of the one that is held."""

    def replace(handle: Handle) -> Told:
        handle.held = make(handle.circuit())
        return None

    return replace


@call
def circuit_compress_property(handle: Handle) -> Told:
    transforms.compress(handle.circuit())
    return None


@call
def circuit_gate_init_to_constraint(handle: Handle) -> Told:
    transforms.constrain_inits(handle.circuit())
    return None


@call
def circuit_reencode(handle: Handle) -> Told:
    require(handle.circuit().is_closed(), "FREE_LEAF")
    handle.held = transforms.reencoded(handle.circuit())
    return None


@call
def circuit_unroll(handle: Handle, source: Handle) -> Told:
    require(handle.circuit().begins_with(source.circuit()), "NO_BEGINNING")
    transforms.unroll(handle.circuit(), source.circuit())
    return None


@call
def circuit_unroll_to(handle: Handle, steps: int) -> Told:
    handle.held = transforms.unrolled(handle.circuit(), steps)
    return None


@call
def circuit_cnf(handle: Handle, optimize: int, room: int) -> Told:
    found = clauses.clauses(handle.circuit(), bool(optimize))
    return listed(room, clause_numbers(numbered(clause for given in found for clause in given)))


# ---- three values


def ternary(circuit: Circuit, inputs: bytes, latches: bytes) -> list[int]:
    """Returns the values of the nodes in a step, of as many values as there are leaves."""
    require(len(inputs) == len(circuit.inputs), "COUNT")
    require(len(latches) == len(circuit.latches), "COUNT")
    require(max([*inputs, *latches], default=0) <= clauses.UNKNOWN, "VALUE")
    return clauses.ternary(circuit, inputs, latches)


@call
def circuit_ternary_simulate(handle: Handle, inputs: bytes, latches: bytes, room: int) -> Told:
    return spelled(room, bytes(ternary(handle.circuit(), inputs, latches)))


@call
def circuit_simulate(handle: Handle, state: bytes, inputs: bytes, room: int) -> Told:
    """Tells the state after a step, and the value of each node in it."""
    circuit = handle.circuit()
    values = ternary(circuit, inputs, state)
    told, after = spelled(room, bytes(values)), bytes(clauses.following(circuit, values))
    return f"{spelled(len(after), after)} {told}"


# ---- simulations


def require_values(values: bytes, count: int) -> None:
    require(len(values) == count, "COUNT")
    require(max(values, default=0) <= clauses.UNKNOWN, "VALUE")


@call
def simulation_new(handle: Handle, state: bytes, to: Running) -> Told:
    circuit = handle.circuit()
    require_values(state, len(circuit.latches))
    to.held = Simulation(circuit.copy(), list(state))
    return None


@call
def simulation_free(running: Running) -> Told:
    running.held = None
    return None


@call
def simulation_clone(running: Running, to: Running) -> Told:
    to.held = running.simulation().copy()
    return None


@call
def simulation_simulate(running: Running, inputs: bytes) -> Told:
    simulation = running.simulation()
    require_values(inputs, len(simulation.circuit.inputs))
    simulation.step(inputs)
    return None


@call
def simulation_has_value(running: Running, edge: int) -> Told:
    return int(running.simulation().has_value(edge))


@call
def simulation_value(running: Running, edge: int) -> Told:
    simulation = running.simulation()
    require(simulation.has_value(edge), "RANGE")
    return f"{simulation.value(edge):02x}"


@call
def simulation_state(running: Running, room: int) -> Told:
    return spelled(room, bytes(running.simulation().state))


@call
def simulation_simulate_all(
    running: Running, inputs: bytes, steps: int, edge: int, room: int
) -> Told:
    simulation = running.simulation()
    count = len(simulation.circuit.inputs)
    require_edges(simulation.circuit, edge)
    require_values(inputs, steps * count)
    if steps > room:
        raise Refused("SMALL", steps)
    values = []
    for step in range(steps):
        simulation.step(inputs[step * count:(step + 1) * count])
        values.append(simulation.value(edge))
    return spelled(room, bytes(values))


# ---- unrolling step by step


@call
def unrolling_new(handle: Handle, to: Stepping) -> Told:
    to.held = Unrolling(handle.circuit().copy())
    return None


@call
def unrolling_free(stepping: Stepping) -> Told:
    stepping.held = None
    return None


@call
def unrolling_add_step(stepping: Stepping) -> Told:
    stepping.unrolling().add_step()
    return None


@call
def unrolling_steps(stepping: Stepping) -> Told:
    return len(stepping.unrolling().steps) - 1


def step_of(stepping: Stepping, step: int) -> Step:
    """Returns what a step has, if it is there."""
    steps = stepping.unrolling().steps
    require(step < len(steps), "RANGE")
    return steps[step]


@call
def unrolling_step_clauses(stepping: Stepping, step: int, room: int) -> Told:
    return listed(room, clause_numbers(step_of(stepping, step).clauses))


@call
def unrolling_initial_clauses(stepping: Stepping, room: int) -> Told:
    return listed(room, clause_numbers(stepping.unrolling().initial()))


@call
def unrolling_bads(stepping: Stepping, step: int, room: int) -> Told:
    return listed(room, step_of(stepping, step).bads)


@call
def unrolling_added_inputs(stepping: Stepping, step: int, room: int) -> Told:
    found = step_of(stepping, step)
    require(step > 0, "RANGE")
    return listed(room, found.inputs)


def require_taken(status: str) -> None:
    require(status == "DONE", status)


@call
def unrolling_check_refuted(stepping: Stepping, step: int, proof: bytes) -> Told:
    step_of(stepping, step)
    require_taken(verdict(stepping.unrolling().query(step), proof))
    return None


@call
def unrolling_check_inductive(stepping: Stepping, k: int, proof: bytes) -> Told:
    step_of(stepping, k + 1)
    require_taken(verdict(stepping.unrolling().window(k), proof))
    return None


# ---- those that are made of functions of a circuit

CALLS |= {
    "circuit_new_leaf_node": reading(Circuit.new_leaf),
    "circuit_new_input": reading(Circuit.new_input),
    "circuit_write_text": writing(files.text),
    "circuit_write_binary": writing(files.binary),
    "circuit_trivial_new_and_node": connective(Circuit.trivial_and),
    "circuit_new_and_node": connective(Circuit.and_of),
    "circuit_trivial_new_or_node": connective(Circuit.trivial_or),
    "circuit_new_or_node": connective(Circuit.or_of),
    "circuit_new_imply_node": connective(Circuit.imply),
    "circuit_new_eq_node": connective(Circuit.equal),
    "circuit_trivial_new_ands_node": list_connective(Circuit.trivial_ands),
    "circuit_new_ands_node": list_connective(Circuit.ands),
    "circuit_trivial_new_ors_node": list_connective(Circuit.trivial_ors),
    "circuit_new_ors_node": list_connective(Circuit.ors),
    "circuit_num_nodes": reading(lambda circuit: len(circuit.nodes)),
    "circuit_num_justice": reading(lambda circuit: len(circuit.justice)),
    "circuit_has_node": reading(Circuit.has_node),
    "circuit_has_edge": reading(Circuit.has_edge),
    "circuit_is_free_leaf": reading(Circuit.is_free_leaf),
    "circuit_is_closed": reading(Circuit.is_closed),
    "circuit_fits_lits": reading(lambda circuit: len(circuit.nodes) <= MOST_LIMIT),
    "circuit_admits": reading(Circuit.admits),
    "circuit_inputs": listing(lambda circuit: circuit.inputs),
    "circuit_ands": listing(lambda circuit: [i for i, gate in enumerate(circuit.nodes) if gate]),
    "circuit_symbols": listing(lambda circuit: sorted(circuit.names)),
    "circuit_aig_move": replacing(transforms.moved),
    "circuit_coi_refine": replacing(transforms.refined),
    "circuit_strash": replacing(transforms.hashed),
}
