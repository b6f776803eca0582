//! Circuits that are unrolled step by step.

use crate::circuit::{edge_of, Aig, ROOM};
use crate::edge::AigEdge;
use crate::handle_calls as calls;
use crate::held::Held;
use crate::Result;

/// A copy of a circuit that is unrolled step by step, for incremental solvers.
///
/// Steps are counted from 0, and step 0 is the circuit itself. Clauses are DIMACS numbers with a 0 after each clause. Node n has the
/// variable n + 1. A call about a step that wasn't added is refused.
pub struct Unrolling {
    held: Held,
}

// SAFETY of each call: a pointer and a length are of a slice that is borrowed for the call, and what is written is apart from it.
impl Unrolling {
    /// Returns an unrolling of a copy of a circuit, without further steps. A circuit with 2^31 nodes or more is refused.
    pub fn new(aig: &Aig) -> Result<Self> {
        let made = Unrolling { held: Held::unrolling() };
        aig.held().call_with(&made.held, |h, to| unsafe { calls::aig_unrolling_new(h, to) })?;
        Ok(made)
    }

    /// Adds a step. The clauses of earlier steps don't change.
    pub fn add_step(&mut self) -> Result<()> {
        self.held.call(|h| unsafe { calls::aig_unrolling_add_step(h) })
    }

    /// Returns the number of steps that were added.
    pub fn steps(&self) -> Result<usize> {
        self.held.tell(|h, count| unsafe { calls::aig_unrolling_steps(h, count) })
    }

    /// Returns the clauses of a step: those of its nodes, and those which state that its constraints are true.
    pub fn step_clauses(&self, step: usize) -> Result<Vec<i32>> {
        self.held.list(ROOM, |h, out, len, needed| unsafe { calls::aig_unrolling_step_clauses(h, step, out, len, needed) })
    }

    /// Returns clauses which state that each latch with an initial edge has the value of this edge at step 0.
    pub fn initial_clauses(&self) -> Result<Vec<i32>> {
        self.held.list(ROOM, |h, out, len, needed| unsafe { calls::aig_unrolling_initial_clauses(h, out, len, needed) })
    }

    /// Returns the bad edges of a step, in order.
    pub fn bads(&self, step: usize) -> Result<Vec<AigEdge>> {
        let found = self.held.list(ROOM, |h, out, len, needed| unsafe { calls::aig_unrolling_bads(h, step, out, len, needed) })?;
        Ok(found.into_iter().map(edge_of).collect())
    }

    /// Returns the nodes of the inputs that a step after the first adds, in order.
    pub fn added_inputs(&self, step: usize) -> Result<Vec<usize>> {
        self.held.list(ROOM, |h, out, len, needed| unsafe { calls::aig_unrolling_added_inputs(h, step, out, len, needed) })
    }

    /// Succeeds only if no run from an initial state, under the constraints, reaches a bad state at the given step. `proof` has to refute
    /// the clauses of the steps up to this step, in order, those of the initial values, and one clause of the bad edges of the step.
    pub fn check_refuted(&self, step: usize, proof: &[u8]) -> Result<()> {
        self.held.call(|h| unsafe { calls::aig_unrolling_check_refuted(h, step, proof.as_ptr(), proof.len()) })
    }

    /// Succeeds only if no run of `k + 2` steps, from any state and under the constraints, is bad only at its last step. `proof` has to
    /// refute the clauses of the steps 0 to `k + 1`, in order, those which state that each bad edge of the steps 0 to `k` is false, and
    /// one clause of the bad edges of step `k + 1`.
    pub fn check_inductive(&self, k: usize, proof: &[u8]) -> Result<()> {
        self.held.call(|h| unsafe { calls::aig_unrolling_check_inductive(h, k, proof.as_ptr(), proof.len()) })
    }
}
