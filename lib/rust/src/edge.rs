//! Edges, latches and nodes, as plain values.

use crate::logic::Lit;
use std::cmp::Ordering;
use std::mem::swap;
use std::ops::Not;

/// An edge: the number of a node, and whether the edge is inverted.
#[derive(Debug, Clone, Copy, Hash, PartialEq, Eq)]
pub struct AigEdge {
    id: usize,
    complement: bool,
}

impl Not for AigEdge {
    type Output = AigEdge;

    fn not(self) -> AigEdge {
        self.not_if(true)
    }
}

impl From<usize> for AigEdge {
    /// Returns the edge to a node, which isn't inverted.
    fn from(value: usize) -> Self {
        AigEdge::new(value, false)
    }
}

impl PartialOrd for AigEdge {
    fn partial_cmp(&self, other: &Self) -> Option<Ordering> {
        Some(self.cmp(other))
    }
}

/// Edges are ordered only by their nodes. So `cmp` of an edge and its inverse returns `Equal`, although they aren't `==`.
impl Ord for AigEdge {
    fn cmp(&self, other: &Self) -> Ordering {
        self.id.cmp(&other.id)
    }
}

impl AigEdge {
    /// Returns the edge to a node, inverted if `complement` is true.
    pub fn new(id: usize, complement: bool) -> Self {
        AigEdge { id, complement }
    }

    /// Returns the node's number.
    pub fn node_id(&self) -> usize {
        self.id
    }

    /// Returns whether the edge is inverted.
    pub fn compl(&self) -> bool {
        self.complement
    }

    /// Replaces the node's number.
    pub fn set_nodeid(&mut self, nodeid: usize) {
        self.id = nodeid;
    }

    /// Sets whether the edge is inverted.
    pub fn set_compl(&mut self, compl: bool) {
        self.complement = compl;
    }

    /// Returns the inverse if `x` is true, and the edge itself otherwise.
    pub fn not_if(self, x: bool) -> Self {
        AigEdge::new(self.id, self.complement != x)
    }

    /// Returns a constant edge.
    pub fn constant(polarity: bool) -> Self {
        AigEdge::new(0, polarity)
    }

    /// Returns whether the edge is constant.
    pub fn is_const(&self) -> bool {
        self.id == 0
    }

    /// Returns whether the edge is the given constant.
    pub fn is_constant(&self, polarity: bool) -> bool {
        *self == AigEdge::constant(polarity)
    }

    /// Returns the value of a constant edge, and `None` for any other edge.
    pub fn try_to_constant(self) -> Option<bool> {
        self.is_const().then_some(self.complement)
    }

    /// Returns the value of a constant edge.
    ///
    /// # Panics
    ///
    /// If the edge isn't constant.
    pub fn to_constant(self) -> bool {
        self.try_to_constant().expect("the edge is constant")
    }

    /// Returns the edge to the node that has the number of a literal's variable.
    pub fn from_lit(lit: Lit) -> Self {
        AigEdge::new(lit.var().into(), !lit.polarity())
    }

    /// Returns the literal of the variable that has the node's number.
    ///
    /// # Panics
    ///
    /// If the number is 2^31 or more. The original drops its upper bits.
    pub fn to_lit(&self) -> Lit {
        Lit::new(self.id.into(), !self.complement)
    }

    /// Returns the edge to the node with the mapped number, inverted if this edge is.
    pub fn map<M>(&self, map: &M) -> Self
    where
        M: Fn(usize) -> usize,
    {
        AigEdge::new(map(self.id), self.complement)
    }
}

/// A latch: the number of its leaf, its next edge, and its initial edge, if it has one.
#[derive(Debug, Clone, Copy)]
pub struct AigLatch {
    /// The number of its leaf.
    pub input: usize,
    /// The edge whose value the latch has in the next step.
    pub next: AigEdge,
    /// The edge whose value the latch has in the first step. Without it, the initial value is open.
    pub init: Option<AigEdge>,
}

impl AigLatch {
    /// Returns a latch with these edges.
    pub fn new(input: usize, next: AigEdge, init: Option<AigEdge>) -> Self {
        AigLatch { input, next, init }
    }
}

/// The kind of a node: false, a leaf, or the and of two edges.
#[derive(Debug, Clone)]
pub enum AigNodeType {
    /// Node 0.
    False,
    /// An input, the leaf of a latch, or a free leaf.
    Leaf,
    /// A gate, with its operands.
    And(AigEdge, AigEdge),
}

/// A node, with its number.
#[derive(Debug, Clone)]
pub struct AigNode {
    id: usize,
    typ: AigNodeType,
}

impl AigNode {
    pub(crate) fn new(id: usize, typ: AigNodeType) -> Self {
        AigNode { id, typ }
    }

    /// Returns the gate with two operands. The operand with the lower node comes first.
    pub(crate) fn new_and(id: usize, mut fanin0: AigEdge, mut fanin1: AigEdge) -> Self {
        if (fanin0.id, fanin0.complement) > (fanin1.id, fanin1.complement) {
            swap(&mut fanin0, &mut fanin1);
        }
        AigNode::new(id, AigNodeType::And(fanin0, fanin1))
    }

    /// Returns its number.
    pub fn node_id(&self) -> usize {
        self.id
    }

    /// Returns the kind of the node.
    pub fn typ(&self) -> &AigNodeType {
        &self.typ
    }

    /// Returns whether it is a gate.
    pub fn is_and(&self) -> bool {
        matches!(self.typ, AigNodeType::And(..))
    }

    /// Returns whether it is a leaf.
    pub fn is_leaf(&self) -> bool {
        matches!(self.typ, AigNodeType::Leaf)
    }

    /// Returns the first operand.
    ///
    /// # Panics
    ///
    /// If the node isn't a gate.
    pub fn fanin0(&self) -> AigEdge {
        self.fanin().0
    }

    /// Returns the second operand.
    ///
    /// # Panics
    ///
    /// If the node isn't a gate.
    pub fn fanin1(&self) -> AigEdge {
        self.fanin().1
    }

    /// Returns both operands.
    ///
    /// # Panics
    ///
    /// If the node isn't a gate.
    pub fn fanin(&self) -> (AigEdge, AigEdge) {
        let AigNodeType::And(fanin0, fanin1) = self.typ else { panic!("node {} is a gate", self.id) };
        (fanin0, fanin1)
    }

    /// Replaces the first operand of this value. `Aig::set_node` replaces those of a circuit's gate.
    ///
    /// # Panics
    ///
    /// If the node isn't a gate.
    pub fn set_fanin0(&mut self, fanin: AigEdge) {
        self.typ = AigNodeType::And(fanin, self.fanin1());
    }

    /// Replaces the second operand of this value. `Aig::set_node` replaces those of a circuit's gate.
    ///
    /// # Panics
    ///
    /// If the node isn't a gate.
    pub fn set_fanin1(&mut self, fanin: AigEdge) {
        self.typ = AigNodeType::And(self.fanin0(), fanin);
    }

    /// Returns the node with the mapped number, whose operands are mapped, too.
    pub fn map<M>(&self, map: &M) -> Self
    where
        M: Fn(usize) -> usize,
    {
        let typ = match self.typ {
            AigNodeType::And(fanin0, fanin1) => AigNodeType::And(fanin0.map(map), fanin1.map(map)),
            ref other => other.clone(),
        };
        AigNode::new(map(self.id), typ)
    }
}
