//! Circuits, with the names of the crate aig.

use crate::edge::{AigEdge, AigLatch, AigNode, AigNodeType};
use crate::handle_calls as calls;
use crate::held::{taken, Handle, Held, Latch, Node, NO_NAME};
use crate::logic::{DagCnf, Lbool, Var, VarVMap};
use crate::Result;
use std::cell::OnceCell;
use std::collections::{HashMap, HashSet};
use std::fmt::{self, Debug, Display};
use std::fs;
use std::ops::{Deref, Index, Range};
use std::panic::RefUnwindSafe;
use std::path::Path;

/// The initial size of the buffer for a list.
pub(crate) const ROOM: usize = 1024;
/// The largest possible number of variables of a file, including the constant false.
const LIMIT: usize = 1 << 31;

/// The lists of property edges.
#[derive(Debug, Clone, Copy, PartialEq, Eq)]
pub enum PropList {
    /// The outputs.
    Outputs,
    /// The bad state properties.
    Bads,
    /// The invariant constraints.
    Constraints,
    /// The fairness constraints.
    Fairness,
}

impl PropList {
    /// All four, in the order of their numbers in aig.h.
    const ALL: [PropList; 4] = [PropList::Outputs, PropList::Bads, PropList::Constraints, PropList::Fairness];
}

/// The contents of a circuit. They are read as fields of an `Aig`, as in `aig.nodes`, and only its calls change them.
#[derive(Debug, Clone, Default)]
pub struct Lists {
    /// The nodes, by their numbers.
    pub nodes: Vec<AigNode>,
    /// The numbers of the inputs.
    pub inputs: Vec<usize>,
    /// The latches.
    pub latchs: Vec<AigLatch>,
    /// The outputs.
    pub outputs: Vec<AigEdge>,
    /// The bad state properties.
    pub bads: Vec<AigEdge>,
    /// The invariant constraints.
    pub constraints: Vec<AigEdge>,
    /// The justice properties.
    pub justice: Vec<Vec<AigEdge>>,
    /// The fairness constraints.
    pub fairness: Vec<AigEdge>,
    /// The names, by the numbers of their nodes.
    pub symbols: HashMap<usize, String>,
}

impl Lists {
    /// Returns a list of property edges.
    pub fn edges(&self, list: PropList) -> &[AigEdge] {
        match list {
            PropList::Outputs => &self.outputs,
            PropList::Bads => &self.bads,
            PropList::Constraints => &self.constraints,
            PropList::Fairness => &self.fairness,
        }
    }

    fn edges_mut(&mut self, list: PropList) -> &mut Vec<AigEdge> {
        match list {
            PropList::Outputs => &mut self.outputs,
            PropList::Bads => &mut self.bads,
            PropList::Constraints => &mut self.constraints,
            PropList::Fairness => &mut self.fairness,
        }
    }

    /// Returns all property edges.
    fn properties(&self) -> impl Iterator<Item = &AigEdge> {
        let lists = PropList::ALL.into_iter().flat_map(|list| self.edges(list));
        lists.chain(self.justice.iter().flatten())
    }
}

/// An And-Inverter Graph, whose data are in the proved library.
///
/// Its calls have the names, the arguments and the results of the crate aig 0.4.6. If that crate panics, or would index out of range
/// later because of an argument, the call here panics. The section `Panics` of the call describes these cases, and names in brackets the
/// call that tests for them. In other cases, a call panics only if the circuit would have more than 2^31 nodes. If memory runs out, the
/// program ends, as with std's collections.
///
/// The contents of a circuit are read as fields, as in `aig.bads.len()` (see `Lists`). An `Aig` may be sent to another thread, but two
/// threads can't share it.
pub struct Aig {
    held: Held,
    /// A copy of the circuit's contents, if it was loaded since the last change that doesn't update it.
    lists: OnceCell<Lists>,
}

// A call that panics leaves the circuit as it was, and the lists are put there as a whole.
impl RefUnwindSafe for Aig {}

/// Returns the literal of an edge, whose node has to be below 2^31.
#[track_caller]
pub(crate) fn literal(edge: AigEdge) -> u32 {
    u32::from(edge.to_lit())
}

fn literals(edges: &[AigEdge]) -> Vec<u32> {
    edges.iter().copied().map(literal).collect()
}

pub(crate) fn edge_of(literal: u32) -> AigEdge {
    AigEdge::new((literal / 2) as usize, literal % 2 == 1)
}

fn node_of(id: usize, node: Node) -> AigNode {
    match node.kind {
        0 => AigNode::new(id, AigNodeType::False),
        1 => AigNode::new(id, AigNodeType::Leaf),
        _ => AigNode::new_and(id, edge_of(node.fanin0), edge_of(node.fanin1)),
    }
}

fn latch_of(latch: Latch) -> AigLatch {
    AigLatch::new(latch.input, edge_of(latch.next), latch.has_init.then(|| edge_of(latch.init)))
}

/// The type of a call of C that returns an edge for two edges.
type Gate = unsafe extern "C" fn(*mut Handle, u32, u32, *mut u32) -> u32;

// ---- what is shared by the calls. SAFETY of each: a pointer and a length are of a slice that is borrowed for the call, and what is written is
// apart from it.

impl Aig {
    fn empty() -> Self {
        Aig { held: Held::circuit(), lists: OnceCell::new() }
    }

    /// Returns the handle, for a call of another type.
    pub(crate) fn held(&self) -> &Held {
        &self.held
    }

    /// Makes a call whose changes don't update the lists. They are loaded again at the next read.
    #[track_caller]
    fn change(&mut self, call: impl FnOnce(*mut Handle) -> u32) {
        self.lists.take();
        taken(self.held.call(call))
    }

    /// Makes a call on a copy, and returns the copy.
    #[track_caller]
    fn changed(&self, call: impl FnOnce(*mut Handle) -> u32) -> Self {
        let mut made = self.clone();
        made.change(call);
        made
    }

    fn edges_of(&self, call: impl Fn(*mut Handle, *mut u32, usize, *mut usize) -> u32) -> Vec<AigEdge> {
        taken(self.held.list(ROOM, call)).into_iter().map(edge_of).collect()
    }

    /// Loads the contents of the circuit.
    fn load(&self) -> Lists {
        let nodes = taken(self.held.list(self.num_nodes(), |h, out, len, needed| unsafe { calls::aig_circuit_nodes(h, out, len, needed) }));
        let latchs = taken(self.held.list(ROOM, |h, out, len, needed| unsafe { calls::aig_circuit_latchs(h, out, len, needed) }));
        let sets = taken(self.held.tell(|h, count: *mut usize| unsafe { calls::aig_circuit_num_justice(h, count) }));
        let named = taken(self.held.list(ROOM, |h, out, len, needed| unsafe { calls::aig_circuit_symbols(h, out, len, needed) }));
        let mut lists = Lists {
            nodes: nodes.into_iter().enumerate().map(|(id, node)| node_of(id, node)).collect(),
            inputs: taken(self.held.list(ROOM, |h, out, len, needed| unsafe { calls::aig_circuit_inputs(h, out, len, needed) })),
            latchs: latchs.into_iter().map(latch_of).collect(),
            justice: (0..sets)
                .map(|i| self.edges_of(|h, out, len, needed| unsafe { calls::aig_circuit_justice(h, i, out, len, needed) }))
                .collect(),
            symbols: named.into_iter().filter_map(|id| Some((id, self.get_symbol(id)?))).collect(),
            ..Lists::default()
        };
        for list in PropList::ALL {
            *lists.edges_mut(list) = self.edges_of(|h, out, len, needed| unsafe { calls::aig_circuit_edges(h, list as u32, out, len, needed) });
        }
        lists
    }

    /// Adds a leaf with a call that returns its number.
    #[track_caller]
    fn add_leaf(&mut self, call: impl FnOnce(*mut Handle, *mut usize) -> u32) -> usize {
        let id = taken(self.held.tell(call));
        if let Some(lists) = self.lists.get_mut() {
            lists.nodes.push(AigNode::new(id, AigNodeType::Leaf));
        }
        id
    }

    /// Makes a call that returns an edge for two edges, and adds at most one gate.
    #[track_caller]
    fn join(&mut self, gate: Gate, fanin0: AigEdge, fanin1: AigEdge) -> AigEdge {
        let (a, b) = (literal(fanin0), literal(fanin1));
        let edge = edge_of(taken(self.held.tell(|h, edge| unsafe { gate(h, a, b, edge) })));
        if let Some(lists) = self.lists.get_mut() {
            if edge.node_id() == lists.nodes.len() {
                lists.nodes.push(AigNode::new_and(edge.node_id(), fanin0, fanin1));
            }
        }
        edge
    }

    /// Combines edges from left to right. All edges are tested before the first gate is added.
    #[track_caller]
    fn join_all(&mut self, gate: Gate, edges: Vec<AigEdge>) -> AigEdge {
        assert!(edges.iter().all(|edge| self.has_edge(*edge)), "each edge is of the circuit");
        let joined = edges.into_iter().reduce(|all, edge| self.join(gate, all, edge));
        joined.unwrap_or(AigEdge::constant(true))
    }

    /// Makes a call that returns a truth value, and returns this value.
    fn asks(&self, call: impl FnOnce(*mut Handle, *mut bool) -> u32) -> bool {
        taken(self.held.tell(call))
    }

    fn bytes(&self, room: usize, call: impl Fn(*mut Handle, *mut u8, usize, *mut usize) -> u32) -> Result<Vec<u8>> {
        self.held.list(room, call)
    }
}

// ---- leaves, latches, gates and names

impl Aig {
    /// Returns the circuit that has only node 0.
    pub fn new() -> Self {
        let made = Aig::empty();
        taken(made.held.call(|h| unsafe { calls::aig_circuit_new(h) }));
        made
    }

    /// Adds a free leaf, and returns its number.
    pub fn new_leaf_node(&mut self) -> usize {
        self.add_leaf(|h, node| unsafe { calls::aig_circuit_new_leaf_node(h, node) })
    }

    /// Adds a leaf as the last input, and returns its number.
    pub fn new_input(&mut self) -> usize {
        let input = self.add_leaf(|h, node| unsafe { calls::aig_circuit_new_input(h, node) });
        if let Some(lists) = self.lists.get_mut() {
            lists.inputs.push(input);
        }
        input
    }

    /// Adds a free leaf of the circuit to the inputs, as the last input.
    ///
    /// # Panics
    ///
    /// If the node isn't a free leaf (`is_free_leaf`).
    pub fn add_input(&mut self, input: usize) {
        taken(self.held.call(|h| unsafe { calls::aig_circuit_add_input(h, input) }));
        if let Some(lists) = self.lists.get_mut() {
            lists.inputs.push(input);
        }
    }

    /// Adds a leaf and a latch with this leaf, and returns the number of the leaf. If the next edge of the latch is an edge to a later
    /// node, set it by `set_next` afterwards.
    ///
    /// # Panics
    ///
    /// If an edge doesn't belong to the circuit (`has_edge`).
    pub fn new_latch(&mut self, next: AigEdge, init: Option<AigEdge>) -> usize {
        let (a, b) = (literal(next), init.map_or(0, literal));
        let input = self.add_leaf(|h, node| unsafe { calls::aig_circuit_new_latch(h, a, init.is_some(), b, node) });
        if let Some(lists) = self.lists.get_mut() {
            lists.latchs.push(AigLatch::new(input, next, init));
        }
        input
    }

    /// Adds a latch whose leaf is a free leaf of the circuit.
    ///
    /// # Panics
    ///
    /// If the node isn't a free leaf (`is_free_leaf`), or an edge doesn't belong to the circuit (`has_edge`).
    pub fn add_latch(&mut self, input: usize, next: AigEdge, init: Option<AigEdge>) {
        let (a, b) = (literal(next), init.map_or(0, literal));
        taken(self.held.call(|h| unsafe { calls::aig_circuit_add_latch(h, input, a, init.is_some(), b) }));
        if let Some(lists) = self.lists.get_mut() {
            lists.latchs.push(AigLatch::new(input, next, init));
        }
    }

    /// Adds a gate for the and of two edges.
    ///
    /// # Panics
    ///
    /// If an edge doesn't belong to the circuit (`has_edge`).
    pub fn trivial_new_and_node(&mut self, fanin0: AigEdge, fanin1: AigEdge) -> AigEdge {
        self.join(calls::aig_circuit_trivial_new_and_node, fanin0, fanin1)
    }

    /// Returns the and of two edges. Adds no gate if an edge is constant, or both edges have the same node.
    ///
    /// # Panics
    ///
    /// If an edge doesn't belong to the circuit (`has_edge`).
    pub fn new_and_node(&mut self, fanin0: AigEdge, fanin1: AigEdge) -> AigEdge {
        self.join(calls::aig_circuit_new_and_node, fanin0, fanin1)
    }

    /// Adds a gate for the and of the inverses of two edges, and returns the inverse of this gate, which is the or of the two edges.
    ///
    /// # Panics
    ///
    /// If an edge doesn't belong to the circuit (`has_edge`).
    pub fn trivial_new_or_node(&mut self, fanin0: AigEdge, fanin1: AigEdge) -> AigEdge {
        !self.trivial_new_and_node(!fanin0, !fanin1)
    }

    /// Returns the or of two edges, which is the inverse of `new_and_node` of their inverses.
    ///
    /// # Panics
    ///
    /// If an edge doesn't belong to the circuit (`has_edge`).
    pub fn new_or_node(&mut self, fanin0: AigEdge, fanin1: AigEdge) -> AigEdge {
        !self.new_and_node(!fanin0, !fanin1)
    }

    /// Returns the and of edges, combined from left to right, with a gate for each edge after the first. If there are no edges, the
    /// result is true.
    ///
    /// # Panics
    ///
    /// If an edge doesn't belong to the circuit (`has_edge`).
    pub fn trivial_new_ands_node(&mut self, fanin: impl IntoIterator<Item = AigEdge>) -> AigEdge {
        self.join_all(calls::aig_circuit_trivial_new_and_node, fanin.into_iter().collect())
    }

    /// Returns the and of edges, combined from left to right by `new_and_node`. If there are no edges, the result is true.
    ///
    /// # Panics
    ///
    /// If an edge doesn't belong to the circuit (`has_edge`).
    pub fn new_ands_node(&mut self, fanin: impl IntoIterator<Item = AigEdge>) -> AigEdge {
        self.join_all(calls::aig_circuit_new_and_node, fanin.into_iter().collect())
    }

    /// Returns the or of edges, which is the inverse of `trivial_new_ands_node` of their inverses. If there are no edges, the result is
    /// false.
    ///
    /// # Panics
    ///
    /// If an edge doesn't belong to the circuit (`has_edge`).
    pub fn trivial_new_ors_node(&mut self, fanin: impl IntoIterator<Item = AigEdge>) -> AigEdge {
        !self.trivial_new_ands_node(fanin.into_iter().map(|edge| !edge))
    }

    /// Returns the or of edges, which is the inverse of `new_ands_node` of their inverses. If there are no edges, the result is false.
    ///
    /// # Panics
    ///
    /// If an edge doesn't belong to the circuit (`has_edge`).
    pub fn new_ors_node(&mut self, fanin: impl IntoIterator<Item = AigEdge>) -> AigEdge {
        !self.new_ands_node(fanin.into_iter().map(|edge| !edge))
    }

    /// Returns an edge that is true if and only if the first edge implies the second.
    ///
    /// # Panics
    ///
    /// If an edge doesn't belong to the circuit (`has_edge`).
    pub fn new_imply_node(&mut self, fanin0: AigEdge, fanin1: AigEdge) -> AigEdge {
        self.new_or_node(!fanin0, fanin1)
    }

    /// Returns an edge that is true if and only if two edges are equal.
    ///
    /// # Panics
    ///
    /// If an edge doesn't belong to the circuit (`has_edge`).
    pub fn new_eq_node(&mut self, fanin0: AigEdge, fanin1: AigEdge) -> AigEdge {
        let both = self.new_and_node(fanin0, fanin1);
        let neither = self.new_and_node(!fanin0, !fanin1);
        self.new_or_node(both, neither)
    }

    /// Returns the name of a node, if it has one.
    pub fn get_symbol(&self, id: usize) -> Option<String> {
        let name = self.bytes(128, |h, out, len, needed| unsafe { calls::aig_circuit_get_symbol(h, id, out, len, needed) });
        match name {
            Err(NO_NAME) => None,
            name => String::from_utf8(taken(name)).ok(),
        }
    }

    /// Sets the name of a node, and replaces an older name.
    ///
    /// # Panics
    ///
    /// If the node doesn't exist (`has_node`).
    pub fn set_symbol(&mut self, id: usize, s: &str) {
        taken(self.held.call(|h| unsafe { calls::aig_circuit_set_symbol(h, id, s.as_ptr(), s.len()) }));
        if let Some(lists) = self.lists.get_mut() {
            lists.symbols.insert(id, s.to_string());
        }
    }
}

// ---- changes of single entries, in place of changed fields

impl Aig {
    /// Appends an edge to a list.
    ///
    /// # Panics
    ///
    /// If the edge doesn't belong to the circuit (`has_edge`).
    pub fn push_edge(&mut self, list: PropList, e: AigEdge) {
        taken(self.held.call(|h| unsafe { calls::aig_circuit_push_edge(h, list as u32, literal(e)) }));
        if let Some(lists) = self.lists.get_mut() {
            lists.edges_mut(list).push(e);
        }
    }

    /// Replaces entry `i` of a list, counted from 0.
    ///
    /// # Panics
    ///
    /// If the entry doesn't exist, or the edge doesn't belong to the circuit (`has_edge`).
    pub fn set_edge(&mut self, list: PropList, i: usize, e: AigEdge) {
        taken(self.held.call(|h| unsafe { calls::aig_circuit_set_edge(h, list as u32, i, literal(e)) }));
        if let Some(lists) = self.lists.get_mut() {
            lists.edges_mut(list)[i] = e;
        }
    }

    /// Replaces all entries of a list.
    ///
    /// # Panics
    ///
    /// If an edge doesn't belong to the circuit (`has_edge`).
    pub fn set_edges(&mut self, list: PropList, edges: &[AigEdge]) {
        let given = literals(edges);
        taken(self.held.call(|h| unsafe { calls::aig_circuit_set_edges(h, list as u32, given.as_ptr(), given.len()) }));
        if let Some(lists) = self.lists.get_mut() {
            *lists.edges_mut(list) = edges.to_vec();
        }
    }

    /// Empties a list.
    pub fn clear_edges(&mut self, list: PropList) {
        self.set_edges(list, &[]);
    }

    /// Appends a justice property.
    ///
    /// # Panics
    ///
    /// If an edge doesn't belong to the circuit (`has_edge`).
    pub fn push_justice(&mut self, set: Vec<AigEdge>) {
        let given = literals(&set);
        taken(self.held.call(|h| unsafe { calls::aig_circuit_push_justice(h, given.as_ptr(), given.len()) }));
        if let Some(lists) = self.lists.get_mut() {
            lists.justice.push(set);
        }
    }

    /// Drops all justice properties.
    pub fn clear_justice(&mut self) {
        taken(self.held.call(|h| unsafe { calls::aig_circuit_clear_justice(h) }));
        if let Some(lists) = self.lists.get_mut() {
            lists.justice.clear();
        }
    }

    /// Replaces the next edge of latch `i`, counted from 0.
    ///
    /// # Panics
    ///
    /// If the latch doesn't exist, or the edge doesn't belong to the circuit (`has_edge`).
    pub fn set_next(&mut self, i: usize, e: AigEdge) {
        taken(self.held.call(|h| unsafe { calls::aig_circuit_set_next(h, i, literal(e)) }));
        if let Some(lists) = self.lists.get_mut() {
            lists.latchs[i].next = e;
        }
    }

    /// Replaces the initial edge of latch `i`, counted from 0, or removes it.
    ///
    /// # Panics
    ///
    /// If the latch doesn't exist, or the edge doesn't belong to the circuit (`has_edge`).
    pub fn set_init(&mut self, i: usize, e: Option<AigEdge>) {
        taken(self.held.call(|h| unsafe { calls::aig_circuit_set_init(h, i, e.is_some(), e.map_or(0, literal)) }));
        if let Some(lists) = self.lists.get_mut() {
            lists.latchs[i].init = e;
        }
    }

    /// Replaces the operands of gate `i` by those of the given gate.
    ///
    /// # Panics
    ///
    /// If one of the two nodes isn't a gate, or the number of an operand isn't smaller than `i` (`admits`).
    pub fn set_node(&mut self, i: usize, node: AigNode) {
        let (fanin0, fanin1) = node.fanin();
        taken(self.held.call(|h| unsafe { calls::aig_circuit_set_node(h, i, literal(fanin0), literal(fanin1)) }));
        if let Some(lists) = self.lists.get_mut() {
            lists.nodes[i] = AigNode::new_and(i, fanin0, fanin1);
        }
    }
}

// ---- what a circuit has

impl Aig {
    /// Returns the number of nodes, including node 0.
    pub fn num_nodes(&self) -> usize {
        taken(self.held.tell(|h, count| unsafe { calls::aig_circuit_num_nodes(h, count) }))
    }

    /// Returns the numbers of all nodes except node 0.
    pub fn nodes_range(&self) -> Range<usize> {
        1..self.num_nodes()
    }

    /// Returns the numbers of all nodes.
    pub fn nodes_range_with_false(&self) -> Range<usize> {
        0..self.num_nodes()
    }

    /// Returns the gates, in order.
    pub fn ands_iter(&self) -> impl Iterator<Item = &AigNode> {
        self.nodes.iter().filter(|node| node.is_and())
    }

    /// Returns whether a node with this number exists.
    pub fn has_node(&self, id: usize) -> bool {
        self.asks(|h, answer| unsafe { calls::aig_circuit_has_node(h, id, answer) })
    }

    /// Returns whether the node of an edge exists.
    pub fn has_edge(&self, e: AigEdge) -> bool {
        self.has_node(e.node_id())
    }

    /// Returns whether a node exists and is a free leaf, that is, neither an input nor the leaf of a latch.
    pub fn is_free_leaf(&self, id: usize) -> bool {
        self.asks(|h, answer| unsafe { calls::aig_circuit_is_free_leaf(h, id, answer) })
    }

    /// Returns whether the circuit has no free leaves.
    pub fn is_closed(&self) -> bool {
        self.asks(|h, answer| unsafe { calls::aig_circuit_is_closed(h, answer) })
    }

    /// Returns whether the circuit has at most 2^31 nodes.
    pub fn fits_lits(&self) -> bool {
        self.asks(|h, answer| unsafe { calls::aig_circuit_fits_lits(h, answer) })
    }

    /// Returns whether `set_node` accepts these arguments.
    pub fn admits(&self, i: usize, node: &AigNode) -> bool {
        if !node.is_and() || !self.has_edge(node.fanin0()) || !self.has_edge(node.fanin1()) {
            return false;
        }
        let (fanin0, fanin1) = node.fanin();
        self.asks(|h, answer| unsafe { calls::aig_circuit_admits(h, i, literal(fanin0), literal(fanin1), answer) })
    }

    /// Returns whether the first nodes are those of another circuit, and both have latches with the same leaves in the same order.
    pub fn begins_with(&self, from: &Aig) -> bool {
        if std::ptr::eq(self, from) {
            return true;
        }
        let mut answer = false;
        taken(self.held.call_with(&from.held, |h, other| unsafe { calls::aig_circuit_begins_with(h, other, &mut answer) }));
        answer
    }

    /// Returns for each node whether it is the node of a given edge, or can be reached from one along operands.
    ///
    /// # Panics
    ///
    /// If an edge doesn't belong to the circuit (`has_edge`).
    pub fn fanin_logic_cone<'a, I: IntoIterator<Item = &'a AigEdge>>(&self, logic: I) -> Vec<bool> {
        let given: Vec<u32> = logic.into_iter().copied().map(literal).collect();
        let (at, count) = (given.as_ptr(), given.len());
        taken(self.held.list(self.num_nodes(), |h, out, len, needed| unsafe {
            calls::aig_circuit_fanin_logic_cone(h, at, count, out, len, needed)
        }))
    }

    /// Returns for each node whether it is node 0, a given node, or can be reached from one along operands and, from the leaf of a latch,
    /// along its next edge.
    fn influence(&self, root: &[usize]) -> Vec<bool> {
        taken(self.held.list(self.num_nodes(), |h, out, len, needed| unsafe {
            calls::aig_circuit_coi(h, root.as_ptr(), root.len(), out, len, needed)
        }))
    }

    /// Returns node 0, the given nodes, and all nodes that can be reached from them along operands and, from the leaf of a latch, along
    /// its next edge.
    ///
    /// # Panics
    ///
    /// If one of the nodes doesn't exist (`has_node`).
    pub fn coi(&self, root: &[usize]) -> HashSet<usize> {
        let marks = self.influence(root);
        (0..marks.len()).filter(|id| marks[*id]).collect()
    }
}

// ---- other circuits, clauses and values

impl Aig {
    /// Returns the cone of influence of the circuit, and the map from its variables to the variables of the circuit.
    ///
    /// # Panics
    ///
    /// If the circuit has more than 2^31 nodes (`fits_lits`).
    pub fn coi_refine(&self) -> (Aig, VarVMap) {
        let inits = self.latchs.iter().filter_map(|latch| latch.init).map(|init| init.node_id());
        let leaves = self.latchs.iter().map(|latch| latch.input);
        let root: Vec<usize> = self.properties().map(|edge| edge.node_id()).chain(leaves).chain(inits).collect();
        let (marks, mut restore) = (self.influence(&root), VarVMap::new());
        for (place, id) in (0..marks.len()).filter(|id| marks[*id]).enumerate() {
            restore.insert(Var::new(place), Var::new(id));
        }
        (self.changed(|h| unsafe { calls::aig_circuit_coi_refine(h) }), restore)
    }

    /// Adds one step of the circuit `from` to this circuit, which contains the previous steps.
    ///
    /// # Panics
    ///
    /// If this circuit doesn't begin with the nodes of the other one (`begins_with`).
    pub fn unroll(&mut self, from: &Aig) {
        self.lists.take();
        taken(self.held.call_with(&from.held, |h, other| unsafe { calls::aig_circuit_unroll(h, other) }));
    }

    /// Returns the circuit with `k` further steps.
    pub fn unroll_to(&self, k: usize) -> Aig {
        self.changed(|h| unsafe { calls::aig_circuit_unroll_to(h, k) })
    }

    /// Appends the nodes of another circuit, except node 0, and the entries of all its lists. The names of the other circuit aren't
    /// copied.
    pub fn merge(&mut self, other: &Aig) {
        self.lists.take();
        taken(self.held.call_with(&other.held, |h, other| unsafe { calls::aig_circuit_merge(h, other) }));
    }

    /// Returns the circuit with its nodes in the order of the binary form: inputs first, then the leaves of latches, then gates.
    ///
    /// # Panics
    ///
    /// If a leaf is free (`is_closed`).
    pub fn reencode(&self) -> Self {
        self.changed(|h| unsafe { calls::aig_circuit_reencode(h) })
    }

    /// Returns the circuit with its constraints moved into the first bad edge and the first output. A new latch records whether all
    /// constraints have been true so far.
    pub fn aig_move(&self) -> Self {
        self.changed(|h| unsafe { calls::aig_circuit_aig_move(h) })
    }

    /// Replaces the bad edges by one bad edge, which is their or, and returns the old bad edges.
    pub fn compress_property(&mut self) -> Vec<AigEdge> {
        let old = self.bads.clone();
        self.change(|h| unsafe { calls::aig_circuit_compress_property(h) });
        old
    }

    /// Replaces initial edges that aren't constant by constraints, and adds a latch that is true only at step 0.
    pub fn gate_init_to_constraint(&mut self) {
        self.change(|h| unsafe { calls::aig_circuit_gate_init_to_constraint(h) });
    }

    /// Returns the circuit with all gates merged whose trees are equal (structural hashing).
    pub fn strash(&self) -> Self {
        self.changed(|h| unsafe { calls::aig_circuit_strash(h) })
    }

    /// Returns the clauses. Each node has the variable with its number. `optimize` selects whether exclusive ors and if-then-elses have
    /// shorter clauses of their own.
    ///
    /// # Panics
    ///
    /// If the circuit has 2^31 nodes or more (`fits_lits`).
    pub fn cnf(&self, optimize: bool) -> DagCnf {
        let numbers = taken(self.held.list(ROOM, |h, out, len, needed| unsafe { calls::aig_circuit_cnf(h, optimize, out, len, needed) }));
        DagCnf::of(self.num_nodes(), &numbers)
    }

    /// Returns the value of each node, in order, for the given values of inputs and latches. Free leaves are unknown.
    ///
    /// # Panics
    ///
    /// If the number of values isn't the number of inputs or latches (`inputs`, `latchs`).
    pub fn ternary_simulate(&self, input: &[Lbool], state: &[Lbool]) -> Vec<Lbool> {
        let (input, state) = (Lbool::numbers(input), Lbool::numbers(state));
        Lbool::values(taken(self.held.list(self.num_nodes(), |h, out, len, needed| unsafe {
            calls::aig_circuit_ternary_simulate(h, input.as_ptr(), input.len(), state.as_ptr(), state.len(), out, len, needed)
        })))
    }
}

// ---- files

impl Aig {
    /// Returns the circuit of the bytes of a file, text or binary, with at most `limit` variables, including the constant false. `limit`
    /// is from 1 to 2^31.
    pub fn from_aiger(file: &[u8], limit: usize) -> Result<Self> {
        let made = Aig::empty();
        made.held.call(|h| unsafe { calls::aig_circuit_from_aiger(h, file.as_ptr(), file.len(), limit) })?;
        Ok(made)
    }

    /// Reads a file, text or binary.
    ///
    /// # Panics
    ///
    /// If the file can't be read, or isn't a valid AIGER file (`from_aiger`).
    pub fn from_file<P: AsRef<Path>>(f: P) -> Self {
        let bytes = fs::read(&f).unwrap_or_else(|error| panic!("{}: {error}", f.as_ref().display()));
        Aig::from_aiger(&bytes, LIMIT).unwrap_or_else(|status| panic!("{}: {status}", f.as_ref().display()))
    }

    /// Writes a file, in the text form if `ascii` is true, and in the binary form otherwise.
    ///
    /// # Panics
    ///
    /// If the file can't be written, or the circuit doesn't have this form (`write_text`, `write_binary`).
    pub fn to_file<P: AsRef<Path>>(&self, f: P, ascii: bool) {
        let bytes = taken(if ascii { self.write_text() } else { self.write_binary() });
        fs::write(&f, bytes).unwrap_or_else(|error| panic!("{}: {error}", f.as_ref().display()));
    }

    /// Returns the text form.
    pub fn write_text(&self) -> Result<Vec<u8>> {
        self.bytes(ROOM, |h, out, len, needed| unsafe { calls::aig_circuit_write_text(h, out, len, needed) })
    }

    /// Returns the binary form, with the numbers of nodes after `reencode`.
    pub fn write_binary(&self) -> Result<Vec<u8>> {
        self.bytes(ROOM, |h, out, len, needed| unsafe { calls::aig_circuit_write_binary(h, out, len, needed) })
    }
}

/// Prints the text form. If the circuit has no text form, formatting returns an error.
impl Display for Aig {
    fn fmt(&self, f: &mut fmt::Formatter<'_>) -> fmt::Result {
        let text = self.write_text().map_err(|_| fmt::Error)?;
        f.write_str(&String::from_utf8_lossy(&text))
    }
}

impl Debug for Aig {
    fn fmt(&self, f: &mut fmt::Formatter<'_>) -> fmt::Result {
        let Lists { nodes, inputs, latchs, outputs, bads, constraints, justice, fairness, symbols } = &**self;
        let mut made = f.debug_struct("Aig");
        made.field("nodes", nodes).field("inputs", inputs).field("latchs", latchs);
        made.field("outputs", outputs).field("bads", bads).field("constraints", constraints);
        made.field("justice", justice).field("fairness", fairness).field("symbols", symbols).finish()
    }
}

impl Clone for Aig {
    fn clone(&self) -> Self {
        let made = Aig { held: Held::circuit(), lists: self.lists.clone() };
        taken(self.held.call_with(&made.held, |h, to| unsafe { calls::aig_circuit_clone(h, to) }));
        made
    }
}

impl Default for Aig {
    fn default() -> Self {
        Aig::new()
    }
}

impl Deref for Aig {
    type Target = Lists;

    fn deref(&self) -> &Lists {
        self.lists.get_or_init(|| self.load())
    }
}

impl Index<usize> for Aig {
    type Output = AigNode;

    /// Returns the node with a number.
    ///
    /// # Panics
    ///
    /// If the node doesn't exist (`has_node`).
    fn index(&self, index: usize) -> &AigNode {
        &self.nodes[index]
    }
}
