"""Circuits in memory, simulations of them, and circuits that are unrolled step by step, for the
package aig.

A circuit is a list of nodes. Node 0 is false, and each other node is a leaf or the and of two edges
to nodes before it. An edge is a literal: twice the number of its node, plus 1 if the edge is
inverted. Each call that takes an edge also takes a `Signal`, which has the operators `&`, `|`, `^`
and `~`:

    >>> import aig
    >>> with aig.Circuit() as circuit:
    ...     x, y = circuit.signal(2 * circuit.new_input()), circuit.signal(2 * circuit.new_input())
    ...     circuit.push_edge(aig.OUTPUTS, x & ~y)
    ...     circuit.write_text()
    b'aag 3 2 0 1 1\\n2\\n4\\n6\\n6 5 2\\n'

`aig_circuit.h` describes what each call does, at the call with the same name. A call that is
refused raises `aig.Refused`, and changes nothing. Lists are memory views that own their memory.
numpy accepts a memory view without a copy, as in `numpy.asarray(circuit.cnf())`. Several threads
may use the same circuit, because only one of them at a time can make a call on it.
"""
from __future__ import annotations

import ctypes
import operator
import struct
import threading
import weakref
from collections.abc import Callable, Iterable, Iterator, Mapping
from types import TracebackType
from typing import Any, NamedTuple, SupportsIndex, TypeVar

from aig._library import DONE, SMALL, Refused, _given, _library, _refusal

__all__ = [
    "AND", "BADS", "CONSTRAINTS", "Circuit", "FAIRNESS", "FALSE", "LEAF", "Latch", "Node",
    "OUTPUTS", "Signal", "Simulation", "TRUE", "UNKNOWN", "Unrolling",
]

# The lists of property edges.
OUTPUTS, BADS, CONSTRAINTS, FAIRNESS = range(4)
# The values in three-valued simulation.
FALSE, TRUE, UNKNOWN = range(3)
# The kinds of nodes, of which node 0 has kind 0.
LEAF, AND = 1, 2

# The status of a name that isn't there, and how many items an answer has room for at first.
_NO_NAME, _ROOM = 118, 1024
_MOST_VARIABLES = 1 << 31
_LATCH = struct.Struct("@NII?0N")
Edge = SupportsIndex
Values = Iterable[SupportsIndex]


class Node(NamedTuple):
    """A node: its kind, and its operands, which are 0 if it isn't a gate."""

    kind: int
    fanin0: int
    fanin1: int


class Latch(NamedTuple):
    """A latch: the number of its leaf, its next edge, and its initial edge, if it has one."""

    input: int
    next: int
    init: int | None


class _Handle(ctypes.Structure):
    """A handle, with the layout that it has in C."""

    _fields_ = [("held", ctypes.c_void_p)]


class _Node(ctypes.Structure):
    _fields_ = [(name, ctypes.c_uint32) for name in ("kind", "fanin0", "fanin1")]


class _Latch(ctypes.Structure):
    _fields_ = [
        ("input", ctypes.c_size_t),
        ("next", ctypes.c_uint32),
        ("init", ctypes.c_uint32),
        ("has_init", ctypes.c_bool),
        ("unused", ctypes.c_uint8 * (ctypes.sizeof(ctypes.c_size_t) - 1)),
    ]


# ---- what calls are given, and give


def _size(number: SupportsIndex) -> int:
    """Returns a number that isn't negative. If it is too large for C, returns the largest number of
    C."""
    given = operator.index(number)
    if given < 0:
        raise ValueError("a number is from 0 on")
    return min(given, (1 << 64) - 1)


def _edge(edge: Edge) -> int:
    """Returns the literal of an edge, which is from 0 to 2^32 - 1."""
    literal = operator.index(edge)
    if not 0 <= literal < 1 << 32:
        raise ValueError("an edge is a literal from 0 to 2^32 - 1")
    return literal


def _edges(edges: Iterable[Edge]) -> tuple[Any, int]:
    """Returns the arguments of a call for a list of edges."""
    literals = [_edge(edge) for edge in edges]
    return (ctypes.c_uint32 * max(1, len(literals)))(*literals), len(literals)


def _sizes(numbers: Iterable[SupportsIndex]) -> tuple[Any, int]:
    """Returns the arguments of a call for a list of numbers of nodes."""
    sizes = [_size(number) for number in numbers]
    return (ctypes.c_size_t * max(1, len(sizes)))(*sizes), len(sizes)


def _values(values: Values) -> tuple[bytes, int]:
    """Returns the words of a call for values, which may be an array of numbers of any size."""
    return _given(bytes(values if getattr(values, "itemsize", 1) == 1 else list(values)))


# The formats of memory views whose items are numbers, by their types in C.
_FORMATS: Mapping[Any, str] = {
    ctypes.c_uint8: "B",
    ctypes.c_bool: "?",
    ctypes.c_uint32: "I",
    ctypes.c_int32: "i",
    ctypes.c_size_t: "Q" if ctypes.sizeof(ctypes.c_size_t) == 8 else "I",
}


def _view(kind: Any, items: Any, count: int) -> memoryview:
    """Returns the first items of a memory, which have a type of C."""
    view = memoryview(items).cast("B")[: count * ctypes.sizeof(kind)]
    return view.cast(_FORMATS.get(kind, "B"))


_Kind = TypeVar("_Kind", bound="_Held")


class _Held:
    """An owner of a handle. Only one call at a time is made on the handle."""

    _prefix = ""

    def __init__(self) -> None:
        self._handle, self._lock = _Handle(), threading.Lock()
        free = getattr(_library, f"aig_{self._prefix}_free")
        self._free = weakref.finalize(self, free, ctypes.byref(self._handle))

    def close(self) -> None:
        """Frees the contents of the handle. Every further call is refused."""
        with self._lock:
            self._free()

    def __enter__(self: _Kind) -> _Kind:
        return self

    def __exit__(
        self,
        kind: type[BaseException] | None,
        error: BaseException | None,
        trace: TracebackType | None,
    ) -> None:
        self.close()

    def _call(self, name: str, *words: Any) -> int:
        """Makes a call, which is named without the prefix for the kind of handle, and returns its
        status."""
        call = getattr(_library, f"aig_{self._prefix}_{name}")
        with self._lock:
            status: int = call(ctypes.byref(self._handle), *words)
        return status

    def _do(self, name: str, *words: Any) -> None:
        """Makes a call, and raises an exception if it is refused."""
        status = self._call(name, *words)
        if status != DONE:
            raise _refusal(status)

    def _tell(self, kind: Any, name: str, *words: Any) -> Any:
        """Makes a call, and returns its result, which is a number."""
        told = kind()
        self._do(name, *words, ctypes.byref(told))
        return told.value

    def _items(self, kind: Any, name: str, *words: Any, room: int = _ROOM) -> tuple[Any, int]:
        """Returns the memory that a call fills, and the number of its items."""
        needed = ctypes.c_size_t(max(1, room))
        while True:
            out, count = (kind * needed.value)(), needed.value
            status = self._call(name, *words, out, count, ctypes.byref(needed))
            if status == DONE:
                return out, needed.value
            if status != SMALL:
                raise _refusal(status)

    def _list(self, kind: Any, name: str, *words: Any, room: int = _ROOM) -> memoryview:
        """Returns the list that a call returns."""
        return _view(kind, *self._items(kind, name, *words, room=room))


def _pair(name: str, first: _Held, other: _Held, *words: Any, more: tuple[Any, ...] = ()) -> None:
    """Makes a call on two handles, which are always locked in the same order. `words` are the
    arguments between the two handles, and `more` are the arguments after them."""
    call = getattr(_library, f"aig_{name}")
    locks = [held._lock for held in sorted((first, other), key=id)]
    with locks[0], locks[1]:
        handles = ctypes.byref(first._handle), ctypes.byref(other._handle)
        status: int = call(handles[0], *words, handles[1], *more)
    if status != DONE:
        raise _refusal(status)


class Signal:
    """An edge of a circuit, with operators that add gates to the circuit.

    `&` is `new_and_node`, `|` is `new_or_node`, and `^` is the inverse of `new_eq_node`. The other
    operand may be any edge of the same circuit, or a `bool`.
    """

    __slots__ = ("circuit", "literal")

    def __init__(self, circuit: Circuit, literal: int) -> None:
        self.circuit, self.literal = circuit, literal

    @property
    def node(self) -> int:
        """Returns the number of the edge's node."""
        return self.literal // 2

    @property
    def is_inverted(self) -> bool:
        """Returns whether the edge is inverted."""
        return self.literal % 2 == 1

    def __index__(self) -> int:
        return self.literal

    def __repr__(self) -> str:
        return f"Signal({self.literal})"

    def __eq__(self, other: object) -> bool:
        """Returns whether both are the same edge of one circuit, which adds no gate."""
        if not isinstance(other, Signal):
            return NotImplemented
        return self.circuit is other.circuit and self.literal == other.literal

    def __hash__(self) -> int:
        return hash((id(self.circuit), self.literal))

    def _joined(self, join: Callable[[Edge, Edge], int], other: Edge) -> Signal:
        if isinstance(other, Signal) and other.circuit is not self.circuit:
            raise ValueError("the signals are of two circuits")
        return Signal(self.circuit, join(self.literal, other))

    def __invert__(self) -> Signal:
        return Signal(self.circuit, self.literal ^ 1)

    def __and__(self, other: Edge) -> Signal:
        return self._joined(self.circuit.new_and_node, other)

    def __or__(self, other: Edge) -> Signal:
        return self._joined(self.circuit.new_or_node, other)

    def __xor__(self, other: Edge) -> Signal:
        return ~self._joined(self.circuit.new_eq_node, other)

    def equals(self, other: Edge) -> Signal:
        """Returns a signal that is true if and only if two signals are equal."""
        return self._joined(self.circuit.new_eq_node, other)

    def implies(self, other: Edge) -> Signal:
        """Returns a signal that is true if and only if this signal implies the other one."""
        return self._joined(self.circuit.new_imply_node, other)

    __rand__, __ror__, __rxor__ = __and__, __or__, __xor__


class Circuit(_Held):
    """A circuit in memory, which is freed by `close` or at the end of a `with` block."""

    _prefix = "circuit"

    def __init__(self) -> None:
        """Creates the circuit that has only node 0."""
        super().__init__()
        self._do("new")

    @classmethod
    def from_aiger(cls, file: bytes, limit: int = _MOST_VARIABLES) -> Circuit:
        """Returns the circuit of a file, text or binary, with at most `limit` variables, including
        the constant false."""
        made = cls()
        made._do("from_aiger", *_given(file), _size(limit))
        return made

    def clone(self) -> Circuit:
        """Returns a copy."""
        made = Circuit()
        _pair("circuit_clone", self, made)
        return made

    def write_text(self) -> bytes:
        """Returns the text form."""
        return bytes(self._list(ctypes.c_uint8, "write_text"))

    def write_binary(self) -> bytes:
        """Returns the binary form, with the numbers of nodes after `reencode`."""
        return bytes(self._list(ctypes.c_uint8, "write_binary"))

    def signal(self, edge: Edge) -> Signal:
        """Returns an edge as a signal, which has operators."""
        return Signal(self, _edge(edge))

    # ---- leaves and latches

    def new_leaf_node(self) -> int:
        """Adds a free leaf, and returns its number."""
        return int(self._tell(ctypes.c_size_t, "new_leaf_node"))

    def new_input(self) -> int:
        """Adds a leaf as the last input, and returns its number."""
        return int(self._tell(ctypes.c_size_t, "new_input"))

    def add_input(self, node: int) -> None:
        """Adds a free leaf of the circuit to the inputs, as the last input."""
        self._do("add_input", _size(node))

    def new_latch(self, following: Edge, init: Edge | None = None) -> int:
        """Adds a leaf and a latch with this leaf and the next edge `following`, and returns the
        number of the leaf."""
        words = _edge(following), init is not None, 0 if init is None else _edge(init)
        return int(self._tell(ctypes.c_size_t, "new_latch", *words))

    def add_latch(self, node: int, following: Edge, init: Edge | None = None) -> None:
        """Adds a latch with the next edge `following`, whose leaf is a free leaf of the circuit."""
        words = _edge(following), init is not None, 0 if init is None else _edge(init)
        self._do("add_latch", _size(node), *words)

    def set_next(self, i: int, following: Edge) -> None:
        """Replaces the next edge of latch `i`, counted from 0."""
        self._do("set_next", _size(i), _edge(following))

    def set_init(self, i: int, init: Edge | None) -> None:
        """Replaces the initial edge of latch `i`, counted from 0, or removes it."""
        self._do("set_init", _size(i), init is not None, 0 if init is None else _edge(init))

    # ---- gates: each call returns an edge

    def _gate(self, name: str, *words: Any) -> int:
        return int(self._tell(ctypes.c_uint32, name, *words))

    def trivial_new_and_node(self, a: Edge, b: Edge) -> int:
        """Adds a gate for the and of two edges."""
        return self._gate("trivial_new_and_node", _edge(a), _edge(b))

    def new_and_node(self, a: Edge, b: Edge) -> int:
        """Returns the and of two edges. Adds no gate if one is constant or both have the same node.
        """
        return self._gate("new_and_node", _edge(a), _edge(b))

    def trivial_new_or_node(self, a: Edge, b: Edge) -> int:
        """Adds a gate for the or of two edges, and returns the inverse of this gate."""
        return self._gate("trivial_new_or_node", _edge(a), _edge(b))

    def new_or_node(self, a: Edge, b: Edge) -> int:
        """Returns the or of two edges, which is the inverse of `new_and_node` of their inverses."""
        return self._gate("new_or_node", _edge(a), _edge(b))

    def new_imply_node(self, a: Edge, b: Edge) -> int:
        """Returns an edge that is true if and only if the first edge implies the second."""
        return self._gate("new_imply_node", _edge(a), _edge(b))

    def new_eq_node(self, a: Edge, b: Edge) -> int:
        """Returns an edge that is true if and only if two edges are equal."""
        return self._gate("new_eq_node", _edge(a), _edge(b))

    def trivial_new_ands_node(self, edges: Iterable[Edge]) -> int:
        """Returns the and of edges, with a gate for each edge after the first. If there are no
        edges, the result is true."""
        return self._gate("trivial_new_ands_node", *_edges(edges))

    def new_ands_node(self, edges: Iterable[Edge]) -> int:
        """Returns the and of edges, combined by `new_and_node`. If there are no edges, the result
        is true."""
        return self._gate("new_ands_node", *_edges(edges))

    def trivial_new_ors_node(self, edges: Iterable[Edge]) -> int:
        """Returns the or of edges, which is the inverse of `trivial_new_ands_node` of their
        inverses. If there are no edges, the result is false."""
        return self._gate("trivial_new_ors_node", *_edges(edges))

    def new_ors_node(self, edges: Iterable[Edge]) -> int:
        """Returns the or of edges, which is the inverse of `new_ands_node` of their inverses. If
        there are no edges, the result is false."""
        return self._gate("new_ors_node", *_edges(edges))

    def set_node(self, node: int, a: Edge, b: Edge) -> None:
        """Replaces the operands of a gate."""
        self._do("set_node", _size(node), _edge(a), _edge(b))

    # ---- properties: a list is one of OUTPUTS, BADS, CONSTRAINTS and FAIRNESS

    def push_edge(self, edges: int, edge: Edge) -> None:
        """Appends an edge to a list."""
        self._do("push_edge", _edge(edges), _edge(edge))

    def set_edge(self, edges: int, i: int, edge: Edge) -> None:
        """Replaces entry `i` of a list, counted from 0."""
        self._do("set_edge", _edge(edges), _size(i), _edge(edge))

    def set_edges(self, edges: int, given: Iterable[Edge]) -> None:
        """Replaces all entries of a list."""
        self._do("set_edges", _edge(edges), *_edges(given))

    def clear_edges(self, edges: int) -> None:
        """Empties a list."""
        self._do("clear_edges", _edge(edges))

    def edges(self, edges: int) -> memoryview:
        """Returns the entries of a list, in order."""
        return self._list(ctypes.c_uint32, "edges", _edge(edges))

    @property
    def outputs(self) -> memoryview:
        """Returns the outputs, in order."""
        return self.edges(OUTPUTS)

    @property
    def bads(self) -> memoryview:
        """Returns the bad state properties, in order."""
        return self.edges(BADS)

    @property
    def constraints(self) -> memoryview:
        """Returns the invariant constraints, in order."""
        return self.edges(CONSTRAINTS)

    @property
    def fairness(self) -> memoryview:
        """Returns the fairness constraints, in order."""
        return self.edges(FAIRNESS)

    def push_justice(self, edges: Iterable[Edge]) -> None:
        """Appends a justice property."""
        self._do("push_justice", *_edges(edges))

    def clear_justice(self) -> None:
        """Drops all justice properties."""
        self._do("clear_justice")

    def num_justice(self) -> int:
        """Returns the number of justice properties."""
        return int(self._tell(ctypes.c_size_t, "num_justice"))

    def justice(self, i: int) -> memoryview:
        """Returns the edges of justice property `i`, counted from 0."""
        return self._list(ctypes.c_uint32, "justice", _size(i))

    # ---- names

    def get_symbol(self, node: int) -> str | None:
        """Returns the name of a node, or None if it has none."""
        words = (ctypes.c_uint8, "get_symbol", _size(node))
        try:
            return bytes(self._list(*words)).decode()
        except Refused as refusal:
            if refusal.status == _NO_NAME:
                return None
            raise

    def set_symbol(self, node: int, name: str | bytes) -> None:
        """Sets the name of a node, and replaces an older name."""
        data = name.encode() if isinstance(name, str) else name
        self._do("set_symbol", _size(node), *_given(data))

    def symbols(self) -> memoryview:
        """Returns the numbers of the nodes that have names, in increasing order."""
        return self._list(ctypes.c_size_t, "symbols")

    # ---- what a circuit has

    def __len__(self) -> int:
        return self.num_nodes()

    def __iter__(self) -> Iterator[Node]:
        return self.nodes()

    def num_nodes(self) -> int:
        """Returns the number of nodes, including node 0."""
        return int(self._tell(ctypes.c_size_t, "num_nodes"))

    def nodes_buffer(self) -> memoryview:
        """Returns the nodes as a table with three columns: the kind and the two operands."""
        items, count = self._items(_Node, "nodes", room=self.num_nodes())
        return _view(_Node, items, count).cast("I", shape=[count, 3])

    def nodes(self) -> Iterator[Node]:
        """Yields the nodes, in order."""
        items, count = self._items(_Node, "nodes", room=self.num_nodes())
        return map(Node._make, struct.iter_unpack("@III", _view(_Node, items, count)))

    def latchs_buffer(self) -> memoryview:
        """Returns the latches as C structures. The format of the memory view contains the names of
        their fields."""
        items, count = self._items(_Latch, "latchs")
        return memoryview((_Latch * count).from_buffer(items))

    def latchs(self) -> Iterator[Latch]:
        """Yields the latches, in order."""
        view = _view(_Latch, *self._items(_Latch, "latchs"))
        for leaf, following, init, has_init in _LATCH.iter_unpack(view):
            yield Latch(leaf, following, init if has_init else None)

    @property
    def inputs(self) -> memoryview:
        """Returns the numbers of the inputs, in order."""
        return self._list(ctypes.c_size_t, "inputs")

    def ands(self) -> memoryview:
        """Returns the numbers of the gates, in increasing order."""
        return self._list(ctypes.c_size_t, "ands")

    def _asks(self, name: str, *words: Any) -> bool:
        return bool(self._tell(ctypes.c_bool, name, *words))

    def has_node(self, node: int) -> bool:
        """Returns whether a node with this number exists."""
        return self._asks("has_node", _size(node))

    def has_edge(self, edge: Edge) -> bool:
        """Returns whether the node of an edge exists."""
        return self._asks("has_edge", _edge(edge))

    def is_free_leaf(self, node: int) -> bool:
        """Returns whether a node exists and is a free leaf, that is, neither an input nor the leaf
        of a latch."""
        return self._asks("is_free_leaf", _size(node))

    def is_closed(self) -> bool:
        """Returns whether the circuit has no free leaves."""
        return self._asks("is_closed")

    def fits_lits(self) -> bool:
        """Returns whether the circuit has at most 2^31 nodes."""
        return self._asks("fits_lits")

    def admits(self, node: int, a: Edge, b: Edge) -> bool:
        """Returns whether `set_node` accepts these arguments."""
        return self._asks("admits", _size(node), _edge(a), _edge(b))

    def begins_with(self, source: Circuit) -> bool:
        """Returns whether the first nodes are those of another circuit, and both have latches with
        the same leaves in the same order."""
        if source is self:
            return self.num_nodes() > 0
        answer = ctypes.c_bool()
        _pair("circuit_begins_with", self, source, more=(ctypes.byref(answer),))
        return answer.value

    # ---- cones: each call returns for each node whether it is in the cone

    def fanin_logic_cone(self, edges: Iterable[Edge]) -> memoryview:
        """Returns the nodes of the given edges, and all nodes that can be reached from them along
        operands."""
        return self._list(
            ctypes.c_bool, "fanin_logic_cone", *_edges(edges), room=self.num_nodes()
        )

    def coi(self, roots: Iterable[SupportsIndex]) -> memoryview:
        """Returns node 0, the given nodes, and all nodes that can be reached from them along
        operands and next edges."""
        return self._list(ctypes.c_bool, "coi", *_sizes(roots), room=self.num_nodes())

    # ---- transforms: each puts another circuit in place of the circuit

    def coi_refine(self) -> None:
        """Replaces the circuit by its cone of influence."""
        self._do("coi_refine")

    def merge(self, other: Circuit) -> None:
        """Appends the nodes of another circuit, and the entries of all its lists."""
        _pair("circuit_merge", self, self.clone() if other is self else other)

    def aig_move(self) -> None:
        """Moves the constraints into the first bad edge and the first output."""
        self._do("aig_move")

    def compress_property(self) -> None:
        """Replaces the bad edges by one bad edge, which is their or."""
        self._do("compress_property")

    def gate_init_to_constraint(self) -> None:
        """Replaces initial edges that aren't constant by constraints."""
        self._do("gate_init_to_constraint")

    def reencode(self) -> None:
        """Renumbers the nodes: inputs first, then the leaves of latches, then gates."""
        self._do("reencode")

    def unroll(self, source: Circuit) -> None:
        """Adds one step of another circuit to this circuit, which contains the previous steps."""
        _pair("circuit_unroll", self, self.clone() if source is self else source)

    def unroll_to(self, k: int) -> None:
        """Adds `k` further steps."""
        self._do("unroll_to", _size(k))

    def strash(self) -> None:
        """Merges all gates whose trees are equal (structural hashing)."""
        self._do("strash")

    # ---- clauses and values

    def cnf(self, optimize: bool = True) -> memoryview:
        """Returns the clauses as DIMACS numbers, with a 0 after each clause."""
        return self._list(ctypes.c_int32, "cnf", optimize)

    def ternary_simulate(self, inputs: Values, state: Values) -> bytes:
        """Returns the value of each node for the given values of inputs and latches."""
        words = (*_values(inputs), *_values(state))
        return bytes(self._list(ctypes.c_uint8, "ternary_simulate", *words, room=self.num_nodes()))

    def simulate(self, state: Values, inputs: Values) -> tuple[bytes, bytes]:
        """Simulates one step, and returns the value of each node and the next state."""
        given, count = _values(state)
        after = (ctypes.c_uint8 * max(1, count)).from_buffer_copy(given or b"\0")
        words = (after, count, *_values(inputs))
        values = self._list(ctypes.c_uint8, "simulate", *words, room=self.num_nodes())
        return bytes(values), bytes(after)[:count]


class Simulation(_Held):
    """A simulation with three values, of a copy of a circuit. It begins in a given state, which has
    a value for each latch, in order."""

    _prefix = "simulation"

    def __init__(self, circuit: Circuit, state: Values) -> None:
        super().__init__()
        _pair("simulation_new", circuit, self, *_values(state))

    def clone(self) -> Simulation:
        """Returns a copy."""
        made = Simulation.__new__(Simulation)
        _Held.__init__(made)
        _pair("simulation_clone", self, made)
        return made

    def simulate(self, inputs: Values) -> None:
        """Simulates one step with the given inputs, and replaces the state by the next state."""
        self._do("simulate", *_values(inputs))

    def has_value(self, edge: Edge) -> bool:
        """Returns whether an edge has a value. This is the case if a step was simulated and the
        node of the edge exists."""
        return bool(self._tell(ctypes.c_bool, "has_value", _edge(edge)))

    def value(self, edge: Edge) -> int:
        """Returns the value of an edge in the last step."""
        return int(self._tell(ctypes.c_uint8, "value", _edge(edge)))

    def state(self) -> bytes:
        """Returns the state in which the next step begins."""
        return bytes(self._list(ctypes.c_uint8, "state"))

    def simulate_all(self, inputs: Values, steps: int, edge: Edge) -> bytes:
        """Simulates several steps, and returns the value of an edge in each step. `inputs` contains
        the values of the inputs for each step, one step after the other."""
        words = (*_values(inputs), _size(steps), _edge(edge))
        return bytes(self._list(ctypes.c_uint8, "simulate_all", *words, room=min(steps, _ROOM)))


class Unrolling(_Held):
    """A copy of a circuit that is unrolled step by step, for incremental solvers.

    Steps are counted from 0, and step 0 is the circuit itself. Clauses are DIMACS numbers with a 0
    after each clause. Node n has the variable n + 1.
    """

    _prefix = "unrolling"

    def __init__(self, circuit: Circuit) -> None:
        super().__init__()
        _pair("unrolling_new", circuit, self)

    def add_step(self) -> None:
        """Adds a step. The clauses of earlier steps don't change."""
        self._do("add_step")

    def steps(self) -> int:
        """Returns the number of steps that were added."""
        return int(self._tell(ctypes.c_size_t, "steps"))

    def step_clauses(self, step: int) -> memoryview:
        """Returns the clauses of a step: those of its nodes, and those which state that its
        constraints are true."""
        return self._list(ctypes.c_int32, "step_clauses", _size(step))

    def initial_clauses(self) -> memoryview:
        """Returns clauses which state that each latch with an initial edge has the value of this
        edge at step 0."""
        return self._list(ctypes.c_int32, "initial_clauses")

    def bads(self, step: int) -> memoryview:
        """Returns the bad edges of a step, in order."""
        return self._list(ctypes.c_uint32, "bads", _size(step))

    def added_inputs(self, step: int) -> memoryview:
        """Returns the nodes of the inputs that a step after the first adds, in order."""
        return self._list(ctypes.c_size_t, "added_inputs", _size(step))

    def check_refuted(self, step: int, proof: bytes) -> None:
        """Returns only if no run from an initial state, under the constraints, reaches a bad state
        at the given step. `proof` has to refute the clauses of the steps up to this step, in order,
        those of the initial values, and one clause of the bad edges of the step."""
        self._do("check_refuted", _size(step), *_given(proof))

    def check_inductive(self, k: int, proof: bytes) -> None:
        """Returns only if no run of `k` + 2 steps, from any state and under the constraints, is bad
        only at its last step. `proof` has to refute the clauses of the steps 0 to `k` + 1, in
        order, those which state that each bad edge of the steps 0 to `k` is false, and one clause
        of the bad edges of step `k` + 1."""
        self._do("check_inductive", _size(k), *_given(proof))
